//! The library under test by its C interface, or, with the feature `stub`, a stand-in made of the plain chip.

use crate::chip_memory::ChipMemory;

/// What the program says it runs against.
#[cfg(not(feature = "stub"))]
pub const NAME: &str = "the library";
#[cfg(feature = "stub")]
pub const NAME: &str = "a STAND-IN made of the plain chip (feature stub): this compares nothing with the library";

#[cfg(not(feature = "stub"))]
extern "C" {
    pub fn mfrc531_start(chip: *mut ChipMemory, image: *const u8, length: usize) -> u32;
    pub fn mfrc531_read(chip: *mut ChipMemory, address: u8) -> u32;
    pub fn mfrc531_write(chip: *mut ChipMemory, address: u8, byte: u8) -> u32;
    pub fn mfrc531_advance(chip: *mut ChipMemory, clocks: u32) -> u32;
    pub fn mfrc531_take(chip: *mut ChipMemory, buffer: *mut u8, length: usize) -> u32;
    pub fn mfrc531_deliver(
        chip: *mut ChipMemory,
        bytes: *const u8,
        length: usize,
        parities: *const u8,
        parity_length: usize,
        last_bits: u8,
    ) -> u32;
    pub fn mfrc531_lost_sum(chip: *const ChipMemory) -> u32;
    pub fn mfrc531_check_profile(edition: u8, profile: *const u8, length: usize) -> u32;
    pub fn mfrc531_choose(user: *const u8, user_length: usize, rescue: *const u8, rescue_length: usize) -> u32;
    pub fn mfrc531_pack_write(
        names: *const u8,
        names_length: usize,
        bodies: *const u8,
        bodies_length: usize,
        buffer: *mut u8,
        length: usize,
    ) -> u32;
    pub fn mfrc531_pack_read(pack: *const u8, length: usize) -> u32;
    pub fn mfrc531_pack_find(pack: *const u8, length: usize, name: *const u8, name_length: usize) -> u32;
    pub fn mfrc531_pack_find_checked(pack: *const u8, length: usize, name: *const u8, name_length: usize) -> u32;
    /// Of the crate `crc_exports`, for this test alone.
    pub fn crc_absorb_all(redundancy: u8, register: u16, bytes: *const u8, length: usize) -> u16;
}

#[cfg(feature = "stub")]
pub use stub::*;

#[cfg(feature = "stub")]
mod stub {
    use super::ChipMemory;
    use crate::answer;
    use crate::checksum;
    use crate::chip_memory::{plain_of, store};
    use crate::packs;
    use crate::plain::{fault, Chip, Command, Mode, Refusal, Writing};
    use crate::profile;
    use std::slice;

    /// One event on the chip of a memory. The FIFO begins at another position after each, since no definition decides where.
    fn event(chip: *mut ChipMemory, event: impl FnOnce(&mut Chip) -> u32) -> u32 {
        moved(chip, |_| 37, event)
    }

    /// One event, with how far the FIFO's position moves, by the bytes that it holds less.
    fn moved(chip: *mut ChipMemory, by: fn(u8) -> u8, event: impl FnOnce(&mut Chip) -> u32) -> u32 {
        // SAFETY: the caller's pointer is good.
        let memory = unsafe { &mut *chip };
        let Ok(mut plain) = plain_of(memory) else {
            return Refusal::ChipMalformed as u32;
        };
        let held = plain.fifo.held();
        let answer = event(&mut plain);
        if answer & 0xFF == 0 {
            let position = memory.fifo_read.wrapping_add(by(held.wrapping_sub(plain.fifo.held())));
            store(&plain, position, memory);
        }
        answer
    }

    /// Clocks up to the next end of a leaving, or of a programming that runs.
    fn next_end(plain: &Chip) -> u32 {
        let to_go = |mode: &Mode| if let Mode::Leaving { to_go } = mode { Some(u32::from(*to_go)) } else { None };
        match plain.command {
            Command::WriteE2(Writing::Programming { left, .. }) if !plain.holds() => left,
            _ => plain.modes.iter().filter_map(to_go).min().unwrap_or(u32::MAX),
        }
    }

    pub unsafe fn mfrc531_start(chip: *mut ChipMemory, image: *const u8, length: usize) -> u32 {
        match Chip::started(slice::from_raw_parts(image, length)) {
            Ok(plain) => {
                *chip = std::mem::zeroed();
                store(&plain, 0, &mut *chip);
                0
            }
            Err(refusal) => refusal as u32,
        }
    }

    pub unsafe fn mfrc531_read(chip: *mut ChipMemory, address: u8) -> u32 {
        event(chip, |plain| answer::of_byte(plain.read(address)))
    }

    pub unsafe fn mfrc531_write(chip: *mut ChipMemory, address: u8, byte: u8) -> u32 {
        event(chip, |plain| answer::of_lost(plain.write(address, byte)))
    }

    pub unsafe fn mfrc531_advance(chip: *mut ChipMemory, clocks: u32) -> u32 {
        // No clock changes nothing. Others go from one end to the next, so that what no definition decides is the same however they are parted.
        let mut left = clocks;
        let mut answer = answer::of_nothing(plain_of(&*chip).map_or(Err(Refusal::ChipMalformed), |_: Chip| Ok(())));
        while left > 0 && answer == 0 {
            answer = moved(
                chip,
                |taken| taken,
                |plain| {
                    let part = next_end(plain).min(left);
                    left -= part;
                    answer::of_nothing(plain.advance(part))
                },
            );
        }
        answer
    }

    pub unsafe fn mfrc531_take(chip: *mut ChipMemory, buffer: *mut u8, length: usize) -> u32 {
        let buffer = slice::from_raw_parts_mut(buffer, length);
        event(chip, |plain| answer::of_taken(plain.take(buffer)))
    }

    pub unsafe fn mfrc531_deliver(
        chip: *mut ChipMemory,
        bytes: *const u8,
        length: usize,
        parities: *const u8,
        parity_length: usize,
        last_bits: u8,
    ) -> u32 {
        let bytes = slice::from_raw_parts(bytes, length);
        let parities = slice::from_raw_parts(parities, parity_length);
        event(chip, |plain| answer::of_lost(plain.deliver(bytes, parities, last_bits)))
    }

    pub unsafe fn mfrc531_lost_sum(chip: *const ChipMemory) -> u32 {
        answer::of_sum(plain_of(&*chip).map_or(Err(Refusal::ChipMalformed), |plain: Chip| plain.lost_sum()))
    }

    pub unsafe fn mfrc531_check_profile(edition: u8, profile: *const u8, length: usize) -> u32 {
        profile::check::<{ fault::NONE }>(edition, slice::from_raw_parts(profile, length)).err().map_or(0, profile::Fault::answer)
    }

    pub unsafe fn mfrc531_choose(user: *const u8, user_length: usize, rescue: *const u8, rescue_length: usize) -> u32 {
        profile::choose::<{ fault::NONE }>(slice::from_raw_parts(user, user_length), slice::from_raw_parts(rescue, rescue_length))
    }

    pub unsafe fn mfrc531_pack_write(
        names: *const u8,
        names_length: usize,
        bodies: *const u8,
        bodies_length: usize,
        buffer: *mut u8,
        length: usize,
    ) -> u32 {
        let (names, bodies) = (slice::from_raw_parts(names, names_length), slice::from_raw_parts(bodies, bodies_length));
        answer::of_number(packs::write::<{ fault::NONE }>(names, bodies, slice::from_raw_parts_mut(buffer, length)))
    }

    pub unsafe fn mfrc531_pack_read(pack: *const u8, length: usize) -> u32 {
        answer::of_number(packs::read::<{ fault::NONE }>(slice::from_raw_parts(pack, length)).map(|pack| pack.count()))
    }

    pub unsafe fn mfrc531_pack_find(pack: *const u8, length: usize, name: *const u8, name_length: usize) -> u32 {
        let (pack, name) = (slice::from_raw_parts(pack, length), slice::from_raw_parts(name, name_length));
        answer::of_number(packs::find::<{ fault::NONE }>(pack, name))
    }

    pub unsafe fn mfrc531_pack_find_checked(pack: *const u8, length: usize, name: *const u8, name_length: usize) -> u32 {
        let (pack, name) = (slice::from_raw_parts(pack, length), slice::from_raw_parts(name, name_length));
        answer::of_number(packs::find_checked(pack, name))
    }

    pub unsafe fn crc_absorb_all(redundancy: u8, register: u16, bytes: *const u8, length: usize) -> u16 {
        checksum::bit_by_bit(redundancy, register, slice::from_raw_parts(bytes, length))
    }
}
