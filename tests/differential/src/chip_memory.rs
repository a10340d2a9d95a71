//! The library's chip as it lies in memory (`include/mfrc531.h`): its layout, which memory is no chip's state (refusal 7), the plain chip of
//! a memory, and the comparison of the two.

use crate::plain::{
    error, fault, power, request, Checksum, Command, Edition, FaultyChip, Fifo, Mode, Run, Timer, Writing, PROGRAMMING_CLOCKS,
};
use std::mem::{align_of, offset_of, size_of};

/// The chip in memory, and its fields by name, with the place and the length of each. The places are asserted.
macro_rules! layout {
    ($($place:literal $name:ident: $type:ty,)*) => {
        #[derive(Clone, Copy)]
        #[repr(C)]
        pub struct ChipMemory {
            $(pub $name: $type,)*
        }

        /// Name, place and length of each field. What no field covers is padding.
        pub const FIELDS: &[(&str, usize, usize)] = &[$((stringify!($name), $place, size_of::<$type>())),*];

        const _: () = {
            $(assert!(offset_of!(ChipMemory, $name) == $place, stringify!($name));)*
        };
    };
}

layout! {
    0 timer_phase: u32,
    4 programming_left: u32,
    8 crc_register: u16,
    10 next_address: u16,
    12 lost_sum: u16,
    14 reserved_number: u16,
    16 stand_by: u16,
    18 power_down: u16,
    20 page: u8,
    21 control: u8,
    22 key_loaded: u8,
    23 rx_last_bits: u8,
    24 interrupt_en: u8,
    25 crc_mode: u8,
    26 interrupt_rq: u8,
    27 error_flag: u8,
    28 timer_running: u8,
    29 timer_prescaler: u8,
    30 latched: u8,
    31 edition: u8,
    32 stage: u8,
    33 fifo_read: u8,
    34 fifo_write: u8,
    35 timer_value: u8,
    36 bit_framing: u8,
    37 reserved_17: [u8; 7],
    44 registers: [u8; 32],
    76 slots: [u8; 64],
    140 latch: [u8; 16],
    156 key: [u8; 6],
    162 eeprom: [u8; 512],
}

/// Bytes of a chip.
pub const SIZE: usize = 676;

/// Where the arrays of bytes begin: registers, slots, latch, key and EEPROM, of which any bytes are well formed but the EEPROM's first four.
pub const ARRAYS: usize = offset_of!(ChipMemory, registers);

const _: () = assert!(size_of::<ChipMemory>() == SIZE && align_of::<ChipMemory>() == 4);

/// Memory for a chip, as bytes: padding included, so that it can be filled, kept and compared whole.
#[derive(Clone, Copy, PartialEq, Eq)]
#[repr(C, align(4))]
pub struct Memory(pub [u8; SIZE]);

impl Memory {
    /// The chip in it.
    pub fn chip(&self) -> &ChipMemory {
        // SAFETY: same size, enough alignment, and integers only, for which any bytes are a value.
        unsafe { &*self.0.as_ptr().cast::<ChipMemory>() }
    }

    pub fn chip_mut(&mut self) -> &mut ChipMemory {
        // SAFETY: as above, and the reference is the only one.
        unsafe { &mut *self.as_mut_ptr() }
    }

    pub fn as_mut_ptr(&mut self) -> *mut ChipMemory {
        self.0.as_mut_ptr().cast()
    }
}

// ---- Places by name --------------------------------------------------------------------------------------------------------------------

/// Place and length of a field.
pub fn field(name: &str) -> Option<(usize, usize)> {
    FIELDS.iter().find(|(known, ..)| *known == name).map(|(_, start, length)| (*start, *length))
}

/// The number of a field's first byte, as its name has it: registers begin with 10h.
fn first_of(name: &str) -> usize {
    if name == "registers" {
        0x10
    } else {
        0
    }
}

/// A byte of the chip's memory by name: `stage`, `next_address+1`, `registers[29h]`, `padding+0`.
pub fn place_name(place: usize) -> String {
    match FIELDS.iter().find(|(_, start, length)| (*start..start + length).contains(&place)) {
        Some((name, _, 1)) => (*name).to_string(),
        Some((name, start, _)) if place >= ARRAYS => format!("{name}[{:02X}h]", place - start + first_of(name)),
        Some((name, start, _)) => format!("{name}+{}", place - start),
        None => format!("padding+{}", place - PADDING),
    }
}

const PADDING: usize = offset_of!(ChipMemory, eeprom) + 512;

/// The places that a name means, as `place_name` gives it, or a field's own name for all of its bytes.
pub fn places_of(name: &str) -> Option<std::ops::Range<usize>> {
    if let Some((name, number)) = name.split_once('+') {
        let (start, length) = if name == "padding" { (PADDING, SIZE - PADDING) } else { field(name)? };
        let number: usize = number.parse().ok().filter(|number| *number < length)?;
        return Some(start + number..start + number + 1);
    }
    if let Some((name, number)) = name.split_once('[') {
        let (start, length) = field(name)?;
        let number = usize::from_str_radix(number.strip_suffix("h]")?, 16).ok()?.checked_sub(first_of(name))?;
        return (number < length).then_some(start + number..start + number + 1);
    }
    field(name).map(|(start, length)| start..start + length)
}

// ---- Memory to plain chip --------------------------------------------------------------------------------------------------------------

/// The command of a stage, as it rests; none where no command has that stage.
fn command_of(stage: u8) -> Option<Command> {
    Some(match stage {
        0x00 => Command::Idle,
        0x01 => Command::WriteE2(Writing::Unaddressed),
        0x41 => Command::WriteE2(Writing::Ready { next: 0 }),
        0x03 => Command::ReadE2,
        0x07 => Command::LoadConfig,
        0x0B => Command::LoadKeyE2,
        0x12 => Command::CalcCrc,
        0x19 => Command::LoadKey,
        0x5A => Command::Transmit,
        0x96 => Command::Receive,
        0x5E => Command::Transceive { receiving: false },
        0x9E => Command::Transceive { receiving: true },
        _ => return None,
    })
}

/// The stage of a command. While WriteE2 programs, 01h is the same.
fn stage_of(command: Command) -> u8 {
    match command {
        Command::WriteE2(Writing::Ready { .. } | Writing::Programming { .. }) => 0x41,
        command if command.sends() => 0x40 | command.code(),
        command if command.receives() => 0x80 | command.code(),
        command => command.code(),
    }
}

/// The latched bytes are a batch: between 1 and 16 of them, in one block that is not block 0. They end right before the next address, which is below 200h.
fn batch_waits(next: u16, latched: u8) -> bool {
    if !(1..=16).contains(&latched) {
        return false;
    }
    let block = |back: u16| (next + 0x200 - back) % 0x200 / 16;
    let (first, last) = (block(u16::from(latched)), block(1));
    first == last && first >= 1
}

/// A mode's number: bit 15 is set in hold, and below it stand the clocks that a leaving has to go.
pub const HOLD: u16 = 0x8000;
const TO_GO: u16 = HOLD - 1;

/// Why a chip is malformed by a power mode.
pub const NOT_HELD: &str = "a power bit without hold, and without a programming for which it could wait";
pub const NO_BIT: &str = "a hold whose power bit is 0";
pub const NO_HOLD: &str = "clocks of a leaving to go without hold";
pub const OVER_COUNT: &str = "a leaving with more clocks to go than it takes";

/// A power mode by its bit of Control and its number.
fn mode_of<const FAULT: u8>(place: usize, chip: &ChipMemory) -> Result<Mode, &'static str> {
    let bit = chip.control & power::BITS[place] != 0;
    let number = [chip.stand_by, chip.power_down][place];
    let (hold, to_go) = (number & HOLD != 0, number & TO_GO);
    let programs = chip.programming_left > 0;
    let most = match FAULT {
        fault::ONE_CLOCK_TOO_MANY_IS_WELL_FORMED => power::LEAVING[place] + 1,
        fault::WHOLE_LEAVING_IS_MALFORMED => power::LEAVING[place] - 1,
        fault::STAND_BY_JUDGED_BY_512 => 512,
        _ => power::LEAVING[place],
    };
    let waits = match FAULT {
        fault::WAITING_ALONE_IS_WELL_FORMED => true,
        fault::WAITING_BESIDE_WRITE_E2_IS_WELL_FORMED => chip.stage & 0x3F == 0x01,
        fault::WAITING_IS_MALFORMED => false,
        _ => programs,
    };
    judge(!bit || hold || waits, NOT_HELD)?;
    judge(!hold || bit || FAULT == fault::HOLD_WITHOUT_A_BIT_IS_WELL_FORMED, NO_BIT)?;
    judge(to_go == 0 || hold || FAULT == fault::LEAVING_WITHOUT_A_HOLD_IS_WELL_FORMED, NO_HOLD)?;
    judge(to_go <= most, OVER_COUNT)?;
    if FAULT == fault::HOLD_OVER_A_BEGUN_PROGRAMMING_IS_MALFORMED {
        judge(!hold || !programs || chip.programming_left == PROGRAMMING_CLOCKS, "a hold over a programming that has begun")?;
    }
    Ok(match (bit, hold, to_go) {
        (true, true, 0) => Mode::Held,
        (true, true, to_go) => Mode::Leaving { to_go },
        (true, false, _) => Mode::Waiting,
        (false, ..) => Mode::Off,
    })
}

/// The number of a mode.
pub fn number_of(mode: Mode) -> u16 {
    match mode {
        Mode::Off | Mode::Waiting => 0,
        Mode::Held => HOLD,
        Mode::Leaving { to_go } => HOLD | to_go,
    }
}

/// Why a chip is malformed by its edition: the number is none's, or the type bytes are not those of the edition.
pub const NO_EDITION: &str = "no edition has this number";
pub const OTHER_TYPE: &str = "the EEPROM's first four bytes are not the edition's";

/// The plain chip of a memory; the reason when the memory is no chip's state, which is refusal 7.
///
/// Manual 10.3, one clause after the other, and nothing else: what the active command does not use is judged only where a clause names it.
pub fn plain_of<const FAULT: u8>(chip: &ChipMemory) -> Result<FaultyChip<FAULT>, &'static str> {
    let flag = |byte: u8, name| match byte {
        0 => Ok(false),
        1 => Ok(true),
        _ => Err(name),
    };

    let held = chip.fifo_write.wrapping_sub(chip.fifo_read);
    judge(held <= Fifo::SIZE, "more than 64 bytes held")?;

    let timer = if flag(chip.timer_running, "timer_running is no flag")? {
        judge(chip.timer_value != 0, "a running timer at 0")?;
        judge(chip.timer_prescaler <= 21, "a kept prescaler above 21")?;
        let period = 1u32 << chip.timer_prescaler;
        let full = FAULT == fault::FULL_PHASE_IS_WELL_FORMED && chip.timer_phase == period;
        judge(chip.timer_phase < period || full, "a phase of 2^prescaler or more")?;
        Timer { value: chip.timer_value, run: Some(Run { prescaler: chip.timer_prescaler, phase: chip.timer_phase }) }
    } else {
        judge(chip.timer_prescaler == 0 && chip.timer_phase == 0, "a stopped timer with prescaler or phase")?;
        Timer { value: chip.timer_value, run: None }
    };

    let stage = if FAULT == fault::STAGE_81_IS_LISTED && chip.stage == 0x81 { 0x41 } else { chip.stage };
    let mut command = command_of(stage).ok_or("no command has this stage")?;

    let ChipMemory { next_address: next, latched, programming_left: left, .. } = *chip;
    judge(left <= PROGRAMMING_CLOCKS, "more than 78,648 clocks left")?;
    let writes = matches!(command, Command::WriteE2(_));
    if FAULT != fault::NEXT_ADDRESS_JUDGED_FOR_WRITE_E2_ALONE || writes {
        judge(next < 0x200, "the next address is 200h or above")?;
    }
    if FAULT == fault::LEFT_OVER_COUNT_IS_MALFORMED {
        judge(left > 0 || latched == 0, "a latched count left over")?;
    }
    if left > 0 {
        judge(writes, "programming clocks left without WriteE2")?;
        judge(batch_waits(next, latched), "programming clocks left, and not 1 to 16 bytes of one block at 010h or above for them")?;
        judge(FAULT != fault::STAGE_01_DOES_NOT_PROGRAM || stage != 0x01, "programming without an address")?;
        command = Command::WriteE2(Writing::Programming { next, latched, left });
    } else if writes {
        let none = FAULT == fault::BATCH_WITHOUT_CLOCKS_IS_WELL_FORMED;
        judge(!batch_waits(next, latched) || none, "latched bytes wait in WriteE2, and no programming clocks are left")?;
        if stage == 0x41 {
            command = Command::WriteE2(Writing::Ready { next });
        }
    }

    judge(held <= command.waits(), "bytes wait that the command would take, or end over")?;

    judge(chip.crc_mode & 0x10 == 0 || chip.crc_register < 0x100, "a CRC8 checksum of 100h or above")?;
    judge(chip.interrupt_en & !request::ALL == 0, "InterruptEn bits that read 0")?;
    judge(chip.interrupt_rq & !request::ALL == 0, "InterruptRq bits that read 0")?;
    judge(chip.page & !0x87 == 0, "Page bits that read 0")?;
    judge(chip.error_flag & !error::ALL == 0, "ErrorFlag bits that read 0")?;
    judge(chip.control & !0x30 == 0, "Control bits that read 0")?;
    judge(chip.rx_last_bits < 8, "RxLastBits above 7")?;
    let loaded = flag(chip.key_loaded, "key_loaded is no flag")?;
    judge(FAULT != fault::RESERVED_IS_JUDGED || reserved_is_zero(chip), "a reserved field that is not 0")?;

    let modes = [mode_of::<FAULT>(power::STAND_BY, chip)?, mode_of::<FAULT>(power::POWER_DOWN, chip)?];

    // The last, so that where these are the reason there is no other.
    let number = if FAULT == fault::EDITION_ABOVE_1_IS_WELL_FORMED { chip.edition & 1 } else { chip.edition };
    let edition = Edition::of_number(number).ok_or(NO_EDITION)?;
    let same = chip.eeprom[..4] == edition.type_bytes() || FAULT == fault::TYPE_BYTES_ARE_NOT_JUDGED;
    judge(same, OTHER_TYPE)?;

    let mut fifo = Fifo::new();
    for place in 0..held {
        fifo.push(chip.slots[usize::from(chip.fifo_read.wrapping_add(place) % 64)]);
    }
    Ok(FaultyChip {
        edition,
        fifo,
        timer,
        command,
        latch: chip.latch,
        checksum: Checksum { value: chip.crc_register, mode: chip.crc_mode },
        page: chip.page,
        enables: chip.interrupt_en,
        requests: chip.interrupt_rq,
        errors: chip.error_flag,
        lost_sum: chip.lost_sum,
        modes,
        halted: [0; 2],
        rx_last_bits: chip.rx_last_bits,
        bit_framing: chip.bit_framing,
        key: loaded.then_some(chip.key),
        registers: chip.registers,
        eeprom: chip.eeprom,
    })
}

fn judge(holds: bool, else_reason: &'static str) -> Result<(), &'static str> {
    if holds {
        Ok(())
    } else {
        Err(else_reason)
    }
}

/// What is kept for later requests is 0: a start leaves it so.
pub fn reserved_is_zero(chip: &ChipMemory) -> bool {
    chip.reserved_number == 0 && chip.reserved_17 == [0; 7]
}

// ---- The comparison --------------------------------------------------------------------------------------------------------------------

/// The first difference between a plain chip and the library's chip after an accepted call; `before` is the library's chip before it.
///
/// Not compared, since no definition decides it: ring positions, slots beyond the held bytes, latch bytes beyond the count, the latched count
/// while nothing is programmed, WriteE2's next address while it has none, bit 6 of its stage while it programs, reserved fields, padding.
/// Of a key that is not loaded: it is zeros, or as it was before the call.
pub fn difference<const FAULT: u8>(plain: &FaultyChip<FAULT>, chip: &ChipMemory, before: &ChipMemory) -> Option<String> {
    // It is well formed again, so that the next call is not refused.
    if let Err(reason) = plain_of::<{ fault::NONE }>(chip) {
        return Some(format!("the library's chip is malformed after an accepted call: {reason}"));
    }
    let run = plain.timer.run.unwrap_or(Run { prescaler: 0, phase: 0 });
    let (next, latched, left) = match plain.command {
        Command::WriteE2(Writing::Ready { next }) => (Some(next), None, 0),
        Command::WriteE2(Writing::Programming { next, latched, left }) => (Some(next), Some(latched), left),
        _ => (None, None, 0),
    };
    let stage = if left > 0 { chip.stage | 0x40 } else { chip.stage };
    let [stand_by, power_down] = plain.modes.map(number_of);
    let fields: [(&str, u32, u32); 24] = [
        ("edition", plain.edition as u32, u32::from(chip.edition)),
        ("held count", u32::from(plain.fifo.held()), u32::from(chip.fifo_write.wrapping_sub(chip.fifo_read))),
        ("timer_running", u32::from(plain.timer.run.is_some()), u32::from(chip.timer_running)),
        ("timer_value", u32::from(plain.timer.value), u32::from(chip.timer_value)),
        ("timer_prescaler", u32::from(run.prescaler), u32::from(chip.timer_prescaler)),
        ("timer_phase", run.phase, chip.timer_phase),
        ("crc_register", u32::from(plain.checksum.value), u32::from(chip.crc_register)),
        ("crc_mode", u32::from(plain.checksum.mode), u32::from(chip.crc_mode)),
        ("stage", u32::from(stage_of(plain.command)), u32::from(stage)),
        ("next_address", u32::from(next.unwrap_or(chip.next_address)), u32::from(chip.next_address)),
        ("latched", u32::from(latched.unwrap_or(chip.latched)), u32::from(chip.latched)),
        ("programming_left", left, chip.programming_left),
        ("interrupt_en", u32::from(plain.enables), u32::from(chip.interrupt_en)),
        ("interrupt_rq", u32::from(plain.requests), u32::from(chip.interrupt_rq)),
        ("page", u32::from(plain.page), u32::from(chip.page)),
        ("error_flag", u32::from(plain.errors), u32::from(chip.error_flag)),
        ("lost_sum", u32::from(plain.lost_sum), u32::from(chip.lost_sum)),
        ("control", u32::from(plain.control()), u32::from(chip.control)),
        ("stand_by", u32::from(stand_by), u32::from(chip.stand_by)),
        ("power_down", u32::from(power_down), u32::from(chip.power_down)),
        ("rx_last_bits", u32::from(plain.rx_last_bits), u32::from(chip.rx_last_bits)),
        ("bit_framing", u32::from(plain.bit_framing), u32::from(chip.bit_framing)),
        ("key_loaded", u32::from(plain.key.is_some()), u32::from(chip.key_loaded)),
        ("key", 0, u32::from(!key_agrees(plain.key, chip, before))),
    ];
    for (name, ours, theirs) in fields {
        if ours != theirs {
            return Some(format!("{name}: plain {ours:X}h, library {theirs:X}h"));
        }
    }
    let held = plain.fifo.bytes().enumerate().map(|(place, byte)| {
        let slot = usize::from(chip.fifo_read.wrapping_add(place as u8) % 64);
        ("held byte", place, byte, chip.slots[slot])
    });
    let latch = (0..usize::from(latched.unwrap_or(0))).map(|place| ("latched byte", place, plain.latch[place], chip.latch[place]));
    if let Some((name, place, ours, theirs)) = held.chain(latch).find(|(_, _, ours, theirs)| ours != theirs) {
        return Some(format!("{name} {place}: plain {ours:02X}h, library {theirs:02X}h"));
    }
    array_difference("register", 0x10, &plain.registers, &chip.registers)
        .or_else(|| array_difference("EEPROM", 0, &plain.eeprom, &chip.eeprom))
}

fn key_agrees(key: Option<[u8; 6]>, chip: &ChipMemory, before: &ChipMemory) -> bool {
    match key {
        Some(key) => key == chip.key,
        None => chip.key == [0; 6] || before.key_loaded == 0 && chip.key == before.key,
    }
}

fn array_difference(name: &str, first: usize, ours: &[u8], theirs: &[u8]) -> Option<String> {
    if ours == theirs {
        return None;
    }
    let place = ours.iter().zip(theirs).position(|(ours, theirs)| ours != theirs)?;
    Some(format!("{name} {:02X}h: plain {:02X}h, library {:02X}h", first + place, ours[place], theirs[place]))
}

// ---- Plain chip to memory --------------------------------------------------------------------------------------------------------------

/// Writes a plain chip into a memory, for the stand-in of the library. `position` is where the FIFO's read position shall be.
///
/// What no definition decides stays as it was, or is one thing at some positions and another at others.
#[cfg_attr(not(feature = "stub"), allow(dead_code))]
pub fn store<const FAULT: u8>(plain: &FaultyChip<FAULT>, position: u8, chip: &mut ChipMemory) {
    let run = plain.timer.run;
    chip.edition = plain.edition as u8;
    chip.fifo_read = position;
    chip.fifo_write = position.wrapping_add(plain.fifo.held());
    chip.timer_running = u8::from(run.is_some());
    chip.timer_value = plain.timer.value;
    chip.timer_prescaler = run.map_or(0, |run| run.prescaler);
    chip.timer_phase = run.map_or(0, |run| run.phase);
    chip.crc_register = plain.checksum.value;
    chip.crc_mode = plain.checksum.mode;
    chip.stage = stage_of(plain.command);
    chip.programming_left = 0;
    chip.next_address %= 0x200;
    if let Command::WriteE2(writing) = plain.command {
        chip.latched = 0;
        match writing {
            Writing::Unaddressed => {}
            Writing::Ready { next } => chip.next_address = next,
            Writing::Programming { next, latched, left } => {
                (chip.next_address, chip.latched, chip.programming_left) = (next, latched, left);
                chip.stage = [0x01, 0x41][usize::from(position % 2)];
            }
        }
    }
    chip.interrupt_en = plain.enables;
    chip.interrupt_rq = plain.requests;
    chip.page = plain.page;
    chip.error_flag = plain.errors;
    chip.lost_sum = plain.lost_sum;
    chip.control = plain.control();
    [chip.stand_by, chip.power_down] = plain.modes.map(number_of);
    chip.rx_last_bits = plain.rx_last_bits;
    chip.bit_framing = plain.bit_framing;
    chip.key_loaded = u8::from(plain.key.is_some());
    for (place, byte) in plain.fifo.bytes().enumerate() {
        chip.slots[usize::from(position.wrapping_add(place as u8) % 64)] = byte;
    }
    chip.registers = plain.registers;
    chip.latch = plain.latch;
    chip.key = plain.key.unwrap_or([0; 6]);
    chip.eeprom = plain.eeprom;
}
