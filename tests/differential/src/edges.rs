//! Directed calls at the edges of the C interface, with the answers that the manual wants.
//!
//! Lengths of 2^32 and more, which a library that keeps a length in fewer bits would take for small ones: the memory is there, as pages that
//! nothing has touched. Arguments of fewer than 64 bits whose registers hold something above bit 31, as a C caller may leave it. And starts
//! from memory of any kind, and from images of both editions and of neither.

use crate::built::near_types;
use crate::call::{first_memory, Fill, Image};
use crate::chip_memory::{place_name, reserved_is_zero, FIELDS};
use crate::library;
use crate::plain::Edition;
use std::alloc::{alloc_zeroed, dealloc, Layout};

const FOUR_GIB: usize = 1 << 32;

pub fn lengths() -> Result<(), String> {
    let Ok(layout) = Layout::from_size_align(FOUR_GIB + 4096, 1) else { return Ok(()) };
    // SAFETY: the layout is not empty; the pointer is checked, stays within the allocation, and is freed once.
    unsafe {
        let memory = alloc_zeroed(layout);
        if memory.is_null() {
            println!("(no 4 GiB of address space: the calls with such lengths are left out)");
            return Ok(());
        }
        let result = calls(memory);
        dealloc(memory, layout);
        result
    }
}

unsafe fn calls(memory: *mut u8) -> Result<(), String> {
    let mut chip = first_memory(531);
    let before = chip;
    let chip_at = chip.as_mut_ptr();
    let expect = |what: &str, answer: u32, wanted: u32| {
        if answer == wanted {
            Ok(())
        } else {
            Err(format!("{what}: answered {answer:08X}h, the manual wants {wanted:08X}h"))
        }
    };
    expect("start with zeros of 2^32 + 512 bytes", library::mfrc531_start(chip_at, memory, FOUR_GIB + 512), 2)?;
    expect("start with zeros", library::mfrc531_start(chip_at, memory, 512), 22)?;
    memory.copy_from_nonoverlapping(Edition::Mfrc531.type_bytes().as_ptr(), 4);
    expect("start with an image of 2^32 + 512 bytes", library::mfrc531_start(chip_at, memory, FOUR_GIB + 512), 2)?;
    if chip != before {
        return Err("a refused start has changed the chip".to_string());
    }
    let chip_at = chip.as_mut_ptr();
    expect("start", library::mfrc531_start(chip_at, memory, 512), 0)?;
    expect("write Receive", library::mfrc531_write(chip_at, 0x01, 0x16), 0)?;
    let parities = memory.add(2048);
    for edition in [0, 1, 2] {
        expect("check of 2^32 + 32 bytes", library::mfrc531_check_profile(edition, memory, FOUR_GIB + 32), 9)?;
    }
    expect("choice with 2^32 + 512 bytes", library::mfrc531_choose(memory, 512, memory, FOUR_GIB + 512), 2)?;
    expect("choice with 2^32 + 512 bytes", library::mfrc531_choose(memory, FOUR_GIB + 512, memory, 512), 2)?;
    let deliver = |length, parity_length| library::mfrc531_deliver(chip_at, memory, length, parities, parity_length, 0);
    expect("deliver 2^32 + 1 bytes", deliver(FOUR_GIB + 1, 1), 5)?;
    expect("deliver 1 byte with 2^32 + 1 parities", deliver(1, FOUR_GIB + 1), 5)?;
    expect("deliver 2^32 + 1 of each", deliver(FOUR_GIB + 1, FOUR_GIB + 1), 5)?;
    expect("deliver 1 byte", deliver(1, 1), 0)?;
    expect("write Transmit", library::mfrc531_write(chip_at, 0x01, 0x1A), 0)?;
    expect("take into 2^32 + 10 bytes", library::mfrc531_take(chip_at, memory, FOUR_GIB + 10), 0x100)?;
    // Packs, in the same memory: one of a profile, with its name behind it, and then one without profiles.
    let (names, bodies) = ([0x55; 16], [0xAA; 32]);
    let write = |names_length, bodies_length, length| {
        library::mfrc531_pack_write(names.as_ptr(), names_length, bodies.as_ptr(), bodies_length, memory, length)
    };
    expect("write of a profile into 2^32 + 5 bytes", write(16, 32, FOUR_GIB + 5), 64 << 8)?;
    let name = memory.add(64);
    name.copy_from_nonoverlapping(names.as_ptr(), 16);
    for find in [library::mfrc531_pack_find, library::mfrc531_pack_find_checked] {
        expect("find of a name", find(memory, 64, name, 16), 0)?;
        expect("find of a name of 2^32 + 16 bytes", find(memory, 64, name, FOUR_GIB + 16), 15)?;
    }
    expect("read of 2^32 + 64 bytes", library::mfrc531_pack_read(memory, FOUR_GIB + 64), 14)?;
    expect("find in 2^32 + 64 bytes", library::mfrc531_pack_find(memory, FOUR_GIB + 64, name, 16), 14)?;
    expect("checked find in 2^32 + 64 bytes", library::mfrc531_pack_find_checked(memory, FOUR_GIB + 64, name, 16), 15)?;
    expect("write of no profile into 2^32 + 5 bytes", write(0, 0, FOUR_GIB + 5), 12 << 8)?;
    expect("read of 2^32 + 12 bytes", library::mfrc531_pack_read(memory, FOUR_GIB + 12), 14)?;
    let mut buffer = [0xEE; 64];
    let mut write = |names_length, bodies_length| {
        library::mfrc531_pack_write(memory, names_length, memory, bodies_length, buffer.as_mut_ptr(), buffer.len())
    };
    expect("write of names of 2^32 bytes and no bodies", write(FOUR_GIB, 0), 16)?;
    expect("write of names of 2^32 + 16 bytes and a body", write(FOUR_GIB + 16, 32), 16)?;
    expect("write of a name and bodies of 2^32 + 32 bytes", write(16, FOUR_GIB + 32), 16)?;
    expect("write of 2^27 profiles", write(FOUR_GIB / 2, FOUR_GIB), 17)?;
    if buffer != [0xEE; 64] {
        return Err("a refused write has changed the buffer".to_string());
    }
    Ok(())
}

/// The same functions, seen with 64-bit arguments, so that the upper halves of the registers can be chosen.
#[cfg(not(feature = "stub"))]
pub fn upper_halves() -> Result<(), String> {
    use crate::call::SHIPPED;
    use crate::chip_memory::ChipMemory;
    use std::mem::transmute;
    type Chip = *mut ChipMemory;
    const UPPER: u64 = 0xDEAD_BEEF_0000_0000;
    // SAFETY: by the System V calling convention each integer argument has its register, of which an argument of up to 32 bits is the lower
    // half. The chip is whole and the frame's bytes are there.
    unsafe {
        let read: unsafe extern "C" fn(Chip, u64) -> u32 = transmute(library::mfrc531_read as *const ());
        let write: unsafe extern "C" fn(Chip, u64, u64) -> u32 = transmute(library::mfrc531_write as *const ());
        let advance: unsafe extern "C" fn(Chip, u64) -> u32 = transmute(library::mfrc531_advance as *const ());
        let deliver: unsafe extern "C" fn(Chip, *const u8, usize, *const u8, usize, u64) -> u32 =
            transmute(library::mfrc531_deliver as *const ());
        let check: unsafe extern "C" fn(u64, *const u8, usize) -> u32 = transmute(library::mfrc531_check_profile as *const ());
        let mut chip = first_memory(532);
        let chip = chip.as_mut_ptr();
        let mut image = [0x5A; 512];
        image[..4].copy_from_slice(&Edition::Mfrc531.type_bytes());
        let answers = [
            ("start", library::mfrc531_start(chip, image.as_ptr(), 512), 0),
            ("write 02h", write(chip, UPPER | 0x02, UPPER | 0xA5), 0),
            ("read 02h", read(chip, UPPER | 0x02), 0xA500),
            ("read 40h", read(chip, UPPER | 0x40), 1),
            ("advance 65,535", advance(chip, UPPER | 65_535), 0),
            ("advance 4,294,967,295", advance(chip, UPPER | 4_294_967_295), 0),
            ("write Receive", write(chip, UPPER | 0x01, UPPER | 0x16), 0),
            ("deliver with 8 last bits", deliver(chip, [1].as_ptr(), 1, [0].as_ptr(), 1, UPPER | 8), 5),
            ("deliver with 7 last bits", deliver(chip, [1].as_ptr(), 1, [0].as_ptr(), 1, UPPER | 7), 0),
            ("read 05h", read(chip, UPPER | 0x05), 0x6700),
            ("check for an MFRC531", check(UPPER, SHIPPED.as_ptr(), 32), 0),
            ("check for an MF RC530", check(UPPER | 1, SHIPPED.as_ptr(), 32), 0x16_0A),
            ("check for edition 2", check(UPPER | 2, SHIPPED.as_ptr(), 32), 7),
        ];
        match answers.iter().find(|(_, answer, wanted)| answer != wanted) {
            Some((what, answer, wanted)) => Err(format!("{what}: answered {answer:08X}h, the manual wants {wanted:08X}h")),
            None => Ok(()),
        }
    }
}

#[cfg(feature = "stub")]
pub fn upper_halves() -> Result<(), String> {
    Ok(())
}

/// The same image gives the same chip, byte for byte, whatever the memory was; what is kept for later requests is 0. Padding is nobody's.
pub fn starts() -> Result<(), String> {
    Edition::BOTH.into_iter().try_for_each(starts_of)
}

fn starts_of(edition: Edition) -> Result<(), String> {
    let image = Image::whole(Fill::Keys, 12, edition).bytes();
    let mut first = None;
    for seed in 0..20 {
        let mut memory = first_memory(seed);
        if seed < 2 {
            memory.0.fill(if seed == 0 { 0x00 } else { 0xFF });
        }
        // SAFETY: the chip is whole, and the image has its length.
        let answer = unsafe { library::mfrc531_start(memory.as_mut_ptr(), image.as_ptr(), image.len()) };
        if answer != 0 || !reserved_is_zero(memory.chip()) {
            return Err(format!("start: answered {answer:08X}h; reserved fields are 0: {}", reserved_is_zero(memory.chip())));
        }
        let first = first.get_or_insert(memory);
        let mut fields = FIELDS.iter().flat_map(|(_, start, length)| *start..start + length);
        if let Some(place) = fields.find(|place| first.0[*place] != memory.0[*place]) {
            return Err(format!("starts from one image differ, by the memory before them, at {}", place_name(place)));
        }
    }
    Ok(())
}

/// A start by the type bytes, on images of both editions and of nearly the same types: the edition's number stands in the chip, or the refusal is
/// 22 and the chip is as before. With another length it is 2, whatever the type bytes are.
pub fn types() -> Result<(), String> {
    let mut image = Image::whole(Fill::Noise, 13, Edition::Mfrc531).bytes();
    image.push(0);
    let mut memory = first_memory(533);
    for type_bytes in Edition::BOTH.into_iter().flat_map(near_types) {
        image[..4].copy_from_slice(&type_bytes);
        let edition = Edition::of_image(&image);
        for length in [4, 511, 512, 513] {
            let before = memory;
            // SAFETY: the chip is whole, and the image has as many bytes.
            let answer = unsafe { library::mfrc531_start(memory.as_mut_ptr(), image.as_ptr(), length) };
            let wanted = match edition {
                _ if length != 512 => 2,
                Some(_) => 0,
                None => 22,
            };
            let stands = edition.is_some_and(|edition| memory.chip().edition == edition as u8);
            if answer != wanted || if wanted == 0 { !stands } else { memory != before } {
                return Err(format!(
                    "start from {length} bytes with {type_bytes:02X?}: answered {answer:08X}h, the manual wants {wanted:08X}h; edition {:02X}h",
                    memory.chip().edition
                ));
            }
        }
    }
    Ok(())
}
