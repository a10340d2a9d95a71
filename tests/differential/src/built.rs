//! Chips that are built field by field, well formed or not. The library gives refusal 7 exactly where the clauses of manual 10.3 do, as
//! `chip_memory::plain_of` has them; 7 goes before every other refusal, and a refused call leaves every byte of the chip. From well-formed
//! ones calls are made on both chips. All of this for both editions.

use crate::answer;
use crate::call::{Call, Fill, Image};
use crate::chip_memory::{field, number_of, plain_of, Memory, ARRAYS, HOLD, NOT_HELD, NO_BIT, NO_HOLD, OVER_COUNT, SIZE};
use crate::library;
use crate::plain::{error, power, Edition, FaultyChip, Mode, PROGRAMMING_CLOCKS};
use crate::random::Random;
use crate::registers::{COMMAND, CONTROL, FIFO_DATA, PRIMARY_STATUS, SECONDARY_STATUS};
use crate::session::Session;
use std::ops::AddAssign;

/// The stages of commands.
const LISTED: [u8; 12] = [0x00, 0x01, 0x41, 0x03, 0x07, 0x0B, 0x12, 0x19, 0x5A, 0x96, 0x5E, 0x9E];

/// Next addresses around the ends of blocks, of block 0 and of the memory, and beyond it.
const NEXT: [u16; 22] = [
    0x000, 0x001, 0x002, 0x00E, 0x00F, 0x010, 0x011, 0x018, 0x01F, 0x020, 0x021, 0x0FF, 0x100, 0x1F0, 0x1F1, 0x1FF, 0x200, 0x201, 0x210,
    0x220, 0x8020, 0xFFFF,
];

const LEFT: [u32; 8] = [0, 1, 0x1_0000, PROGRAMMING_CLOCKS, PROGRAMMING_CLOCKS + 1, 0x100_0000, 0x8000_0000, u32::MAX];

const HELD: [u8; 11] = [0, 1, 2, 3, 11, 12, 63, 64, 65, 128, 255];

/// Sums of lost bytes: none, one, as many below the limit as one call can lose, one below it, the limit.
pub const SUMS: [u16; 5] = [0, 1, 65_410, 65_534, 65_535];

/// Those, and another one.
fn sums(random: &mut Random) -> impl Iterator<Item = u16> {
    SUMS.into_iter().chain([random.number() as u16])
}

/// Numbers of a power mode: without hold and with it, each with no clock of a leaving to go, about as many as StandBy and PowerDown take, and what
/// fewer bits would take for such.
pub const NUMBERS: [u16; 30] = [
    0,
    1,
    2,
    3,
    4,
    5,
    255,
    256,
    511,
    512,
    513,
    516,
    0x1000,
    0x4004,
    0x7FFF,
    HOLD,
    HOLD + 1,
    HOLD + 2,
    HOLD + 3,
    HOLD + 4,
    HOLD + 5,
    HOLD + 255,
    HOLD + 256,
    HOLD + 511,
    HOLD + 512,
    HOLD + 513,
    HOLD + 516,
    HOLD + 0x1000,
    HOLD + 0x4004,
    0xFFFF,
];

/// Latched counts: what fits a block, one more, and what eight bits or a remainder would take for such.
fn latched() -> impl Iterator<Item = u8> {
    (0..=18).chain([31, 32, 33, 48, 128, 240, 255])
}

/// The image that built chips of an edition begin with.
fn image(edition: Edition) -> Image {
    Image::whole(Fill::Keys, 7, edition)
}

/// A started chip's memory, with linear addresses and with bytes in every array.
pub fn started(edition: Edition) -> Memory {
    let mut memory = Memory([0; SIZE]);
    let image = image(edition).bytes();
    // SAFETY: the chip is whole, and the image has its length.
    unsafe {
        library::mfrc531_start(memory.as_mut_ptr(), image.as_ptr(), image.len());
        library::mfrc531_write(memory.as_mut_ptr(), 0x00, 0x00);
    }
    (0..64).for_each(|place| memory.chip_mut().slots[place] = place as u8 | 0x80);
    (0..16).for_each(|place| memory.chip_mut().latch[place] = place as u8 | 0x40);
    memory
}

/// The fields that say how far a command is. `read` is the FIFO's read position.
fn with(base: &Memory, stage: u8, latched: u8, left: u32, next: u16, read: u8, held: u8) -> Memory {
    let mut memory = *base;
    let chip = memory.chip_mut();
    (chip.stage, chip.latched, chip.programming_left, chip.next_address) = (stage, latched, left, next);
    (chip.fifo_read, chip.fifo_write) = (read, read.wrapping_add(held));
    memory
}

/// A sum of lost bytes, with FIFOOvfl clear or set.
fn with_sum(base: &Memory, sum: u16, overflow: bool) -> Memory {
    let mut memory = *base;
    let chip = memory.chip_mut();
    chip.lost_sum = sum;
    chip.error_flag = chip.error_flag & !error::OVERFLOW | if overflow { error::OVERFLOW } else { 0 };
    memory
}

/// Control and the numbers of the two power modes.
fn with_numbers(base: &Memory, control: u8, [stand_by, power_down]: [u16; 2]) -> Memory {
    let mut memory = *base;
    let chip = memory.chip_mut();
    (chip.control, chip.stand_by, chip.power_down) = (control, stand_by, power_down);
    memory
}

/// The two power modes.
pub fn with_modes(base: &Memory, modes: [Mode; 2]) -> Memory {
    let bits = modes.iter().zip(power::BITS).filter(|(mode, _)| **mode != Mode::Off).map(|(_, bit)| bit).sum();
    with_numbers(base, bits, modes.map(number_of))
}

// ---- The edition -----------------------------------------------------------------------------------------------------------------------

/// What arithmetic makes of a number where it makes the editions' type bytes of 0 and 1: as one number, low byte first, in equal steps.
pub fn type_by_arithmetic(number: u8) -> [u8; 4] {
    let [first, second] = Edition::BOTH.map(|edition| u32::from_le_bytes(edition.type_bytes()));
    first.wrapping_add(second.wrapping_sub(first).wrapping_mul(number.into())).to_le_bytes()
}

/// The edition's type bytes, and such as are nearly those: one byte with every value, one or two bits changed, bytes of both editions, the bytes in
/// every order, and two bytes changed so that their sum stays.
pub fn near_types(edition: Edition) -> Vec<[u8; 4]> {
    let own = edition.type_bytes();
    let changed = |change: &dyn Fn(&mut [u8; 4])| {
        let mut bytes = own;
        change(&mut bytes);
        bytes
    };
    let mut types = Vec::new();
    for place in 0..4 {
        types.extend((0..=255).map(|byte| changed(&|bytes| bytes[place] = byte)));
    }
    for one in 0..32 {
        for other in 0..=one {
            types.push(changed(&|bytes| {
                bytes[one / 8] ^= 1 << (one % 8);
                bytes[other / 8] ^= u8::from(one != other) << (other % 8);
            }));
        }
    }
    for choice in 0..16usize {
        types.push(std::array::from_fn(|place| Edition::BOTH[choice >> place & 1].type_bytes()[place]));
    }
    for order in 0..256usize {
        let places: [usize; 4] = std::array::from_fn(|place| order >> (2 * place) & 3);
        if (0..4).all(|place| places.contains(&place)) {
            types.push(places.map(|place| own[place]));
        }
    }
    for one in 0..4 {
        for other in (0..4).filter(|other| *other != one) {
            types.push(changed(&|bytes| {
                bytes[one] = bytes[one].wrapping_add(1);
                bytes[other] = bytes[other].wrapping_sub(1);
            }));
        }
    }
    types
}

/// Type bytes to be judged with a number: those of both editions, none's, and what could be taken for those of a number above 1.
fn types_for(number: u8) -> [[u8; 4]; 10] {
    let [first, second] = Edition::BOTH.map(Edition::type_bytes);
    let each = |of: &dyn Fn(u8, u8) -> u8| std::array::from_fn(|place| of(first[place], second[place]));
    [
        first,
        second,
        [0; 4],
        [0xFF; 4],
        [number; 4],
        [number, 0, 0, 0],
        type_by_arithmetic(number),
        each(&|first, second| first.wrapping_add(second.wrapping_sub(first).wrapping_mul(number))),
        each(&|first, second| first ^ (first ^ second).wrapping_mul(number)),
        each(&|first, second| first ^ (first ^ second) & number),
    ]
}

/// The edition's number and the type bytes.
fn with_edition(base: &Memory, number: u8, type_bytes: [u8; 4]) -> Memory {
    let mut memory = *base;
    let chip = memory.chip_mut();
    chip.edition = number;
    chip.eeprom[..4].copy_from_slice(&type_bytes);
    memory
}

// ---- The judging -----------------------------------------------------------------------------------------------------------------------

/// How many states were judged, and of those: how many have a sum of lost bytes above 0, and how many have FIFOOvfl clear beside one, or set beside 0;
/// how many are well formed with a power mode that is not off, and how many of those no list of calls leads to; how many are malformed by a mode.
#[derive(Clone, Copy, Default)]
pub struct States {
    pub all: u64,
    pub summed: u64,
    pub apart: u64,
    pub in_modes: u64,
    pub begun: u64,
    pub by_modes: u64,
}

impl AddAssign for States {
    fn add_assign(&mut self, other: Self) {
        self.all += other.all;
        self.summed += other.summed;
        self.apart += other.apart;
        self.in_modes += other.in_modes;
        self.begun += other.begun;
        self.by_modes += other.by_modes;
    }
}

/// Judges states one by one, and counts them.
struct Judge<const FAULT: u8> {
    edition: Edition,
    base: Memory,
    states: States,
}

impl<const FAULT: u8> Judge<FAULT> {
    /// Calls that are refused on any chip, with 7 where it is malformed, an advance by no clock, which leaves every chip, and the call for the sum of
    /// lost bytes; then a poll.
    fn judge(&mut self, mut memory: Memory) -> Result<(), String> {
        let plain = plain_of::<FAULT>(memory.chip());
        self.count(&memory, plain.as_ref());
        let sum = plain.as_ref().map_or(0, |plain| answer::of_sum(plain.lost_sum()));
        let before = memory;
        let chip = memory.as_mut_ptr();
        let mut buffer = [0; 65];
        // SAFETY: the chip is whole, and each pointer has as many bytes behind it as its length says.
        let answers = unsafe {
            [
                ("a read at 64", 1, library::mfrc531_read(chip, 64)),
                ("a write at 64", 1, library::mfrc531_write(chip, 64, 0)),
                ("an advance by 0", 0, library::mfrc531_advance(chip, 0)),
                ("a take into 65 bytes", 6, library::mfrc531_take(chip, buffer.as_mut_ptr(), buffer.len())),
                ("a delivery of nothing", 5, library::mfrc531_deliver(chip, buffer.as_ptr(), 0, buffer.as_ptr(), 0, 0)),
                ("the call for the sum of lost bytes", sum, library::mfrc531_lost_sum(chip)),
            ]
        };
        if memory != before {
            let calls = "a refused call, an advance by 0 or the call for the sum of lost bytes";
            return Err(format!("{calls} has changed the chip: {}", self.line(&before)));
        }
        let why = plain.as_ref().err().unwrap_or(&"well formed");
        let poll = match plain.clone() {
            Ok(mut plain) => answer::of_byte(plain.read(PRIMARY_STATUS)),
            Err(_) => 7,
        };
        // SAFETY: the chip is whole.
        let polled = ("a poll", poll, unsafe { library::mfrc531_read(memory.as_mut_ptr(), PRIMARY_STATUS) });
        for (what, number, answer) in answers.into_iter().chain([polled]) {
            let wanted = if plain.is_ok() { number } else { 7 };
            if answer != wanted {
                return Err(format!("{what} answers {answer:X}h, and {wanted:X}h is wanted ({why}): {}", self.line(&before)));
            }
        }
        Ok(())
    }

    fn count(&mut self, memory: &Memory, plain: Result<&FaultyChip<FAULT>, &&'static str>) {
        let summed = memory.chip().lost_sum > 0;
        let overflow = memory.chip().error_flag & error::OVERFLOW != 0;
        let in_modes = plain.is_ok_and(|plain| plain.control() != 0);
        let begun = plain.is_ok_and(|plain| plain.stands_begun());
        let by_modes = plain.is_err_and(|reason| [NOT_HELD, NO_BIT, NO_HOLD, OVER_COUNT].contains(reason));
        self.states += States {
            all: 1,
            summed: u64::from(summed),
            apart: u64::from(summed != overflow),
            in_modes: u64::from(in_modes),
            begun: u64::from(begun),
            by_modes: u64::from(by_modes),
        };
    }

    /// The state as lines of a list.
    fn line(&self, memory: &Memory) -> String {
        let differs = |place: &usize| memory.0[*place] != self.base.0[*place];
        let edits = (0..SIZE).filter(differs).map(|place| (place as u16, memory.0[place])).collect();
        format!("{}, write 00 00, {}", Call::Start { image: image(self.edition) }, Call::Corrupt { edits })
    }
}

/// Refusal 7, on every state that is built, of both editions. Answers how many those were.
pub fn judged<const FAULT: u8>(seed: u64) -> Result<States, String> {
    let mut states = States::default();
    for edition in Edition::BOTH {
        states += judged_of::<FAULT>(edition, seed)?;
    }
    states += judged_in_modes::<FAULT>()?;
    Ok(states)
}

/// Refusal 7 on the states that are built for the power modes.
pub fn judged_in_modes<const FAULT: u8>() -> Result<States, String> {
    let mut states = States::default();
    for edition in Edition::BOTH {
        states += judged_modes_of::<FAULT>(edition)?;
    }
    Ok(states)
}

fn judged_modes_of<const FAULT: u8>(edition: Edition) -> Result<States, String> {
    let base = started(edition);
    let mut judge = Judge::<FAULT> { edition, base, states: States::default() };
    let chips = some_chips(&base);
    // Both bits of Control, and others that read 0, with numbers of both modes on chips that program, more or less of it behind them, and on such that
    // do not.
    let programming = [1, 77_000, PROGRAMMING_CLOCKS - 1, PROGRAMMING_CLOCKS].map(|left| with(&base, 0x41, 5, left, 0x025, 60, 20));
    for chip in chips.iter().chain(&programming) {
        for control in [0x00, 0x10, 0x20, 0x30, 0x01, 0x22, 0x34, 0x78, 0xB0] {
            for stand_by in NUMBERS {
                for power_down in NUMBERS {
                    judge.judge(with_numbers(chip, control, [stand_by, power_down]))?;
                }
            }
        }
    }
    // Every number of one of them, the other one off or in hold.
    for chip in [&chips[0], &chips[2]] {
        for number in 0..=u16::MAX {
            for (control, other) in [(0x00, 0), (0x30, HOLD)] {
                judge.judge(with_numbers(chip, control | 0x20, [number, other]))?;
                judge.judge(with_numbers(chip, control & 0x10, [number, other]))?;
                judge.judge(with_numbers(chip, control | 0x10, [other, number]))?;
                judge.judge(with_numbers(chip, control & 0x20, [other, number]))?;
            }
        }
    }
    Ok(judge.states)
}

fn judged_of<const FAULT: u8>(edition: Edition, seed: u64) -> Result<States, String> {
    let base = started(edition);
    let mut random = Random::new(seed);
    let mut judge = Judge::<FAULT> { edition, base, states: States::default() };

    // Stage, latched count, clocks left, next address and held bytes: every combination for the stages of commands and for their neighbours.
    let close = [0x81, 0xC1, 0x40, 0x80, 0x52, 0x92, 0x1A, 0x16, 0x1E];
    for stage in LISTED.into_iter().chain(close) {
        for latched in latched() {
            for left in LEFT {
                for next in NEXT {
                    for held in HELD {
                        judge.judge(with(&base, stage, latched, left, next, 250, held))?;
                    }
                }
            }
        }
    }
    // Every other stage.
    for stage in 0..=255 {
        for latched in [0, 1, 16, 17] {
            for left in [0, 1] {
                for next in [0x000, 0x020, 0x200] {
                    for held in [0, 1, 64, 65] {
                        judge.judge(with(&base, stage, latched, left, next, 3, held))?;
                    }
                }
            }
        }
    }
    // WriteE2 at every address.
    for stage in [0x01, 0x41] {
        for latched in 0..=33 {
            for next in 0..0x210 {
                for left in [0, 1, PROGRAMMING_CLOCKS, PROGRAMMING_CLOCKS + 1] {
                    for held in [0, 1, 2, 64, 65] {
                        judge.judge(with(&base, stage, latched, left, next, 0, held))?;
                    }
                }
            }
        }
    }
    // Every number of held bytes at every stage of a command, from several positions.
    for stage in LISTED {
        for held in 0..=255 {
            for read in [0, 1, 63, 192, 255] {
                judge.judge(with(&base, stage, 0, 0, 0x020, read, held))?;
                judge.judge(with(&base, stage, 16, 1, 0x020, read, held))?;
            }
        }
    }

    // Every byte before the arrays, with every value, on chips in different stages.
    let chips = some_chips(&base);
    for chip in &chips {
        for place in 0..ARRAYS {
            for byte in 0..=255 {
                let mut memory = *chip;
                memory.0[place] = byte;
                judge.judge(memory)?;
            }
        }
    }
    // Every two bits of the bytes that have bits which read 0.
    let first = 8 * field("page").map_or(0, |(start, _)| start);
    for chip in &chips[..3] {
        for one in first..first + 64 {
            for other in first..one {
                let mut memory = *chip;
                memory.0[one / 8] ^= 1 << (one % 8);
                memory.0[other / 8] ^= 1 << (other % 8);
                judge.judge(memory)?;
            }
        }
    }
    // The timer.
    for running in [0, 1, 2, 3, 128, 255] {
        for value in [0, 1, 2, 255] {
            for prescaler in 0..=255u8 {
                let period = 1u32 << (prescaler % 32);
                for phase in [0, 1, period - 1, period, period.wrapping_add(1), (1 << 21) - 1, 1 << 21, u32::MAX] {
                    let mut memory = base;
                    let chip = memory.chip_mut();
                    (chip.timer_running, chip.timer_value, chip.timer_prescaler, chip.timer_phase) = (running, value, prescaler, phase);
                    judge.judge(memory)?;
                }
            }
        }
    }
    // The checksum.
    for stage in [0x00, 0x12, 0x41] {
        for mode in 0..=255 {
            for register in [0, 1, 0x7F, 0xFF, 0x100, 0x1FF, 0x8000, 0xFFFF] {
                let mut memory = base;
                let chip = memory.chip_mut();
                (chip.stage, chip.crc_mode, chip.crc_register) = (stage, mode, register);
                judge.judge(memory)?;
            }
        }
    }
    // The edition: every number with type bytes that could be taken for its own, and nearly right ones with some numbers.
    for chip in &chips[..3] {
        for number in 0..=255 {
            for type_bytes in types_for(number) {
                judge.judge(with_edition(chip, number, type_bytes))?;
            }
        }
        for type_bytes in near_types(edition) {
            for number in [0, 1, 2, 3, 128, 255] {
                judge.judge(with_edition(chip, number, type_bytes))?;
            }
        }
    }
    // No other byte of the EEPROM is judged: the version with every value, and each with another.
    for byte in 0..=255 {
        let mut memory = base;
        memory.chip_mut().eeprom[4] = byte;
        judge.judge(memory)?;
    }
    for place in 4..512 {
        let mut memory = base;
        memory.chip_mut().eeprom[place] ^= 0xFF;
        judge.judge(memory)?;
    }
    // No sum of lost bytes is judged: each beside FIFOOvfl clear and set, at every stage, with batches and held bytes that are well formed and not.
    for stage in 0..=255 {
        for (latched, left, next) in [(0, 0, 0x000), (16, 1, 0x020), (16, 0, 0x020), (0, 0, 0x200)] {
            for held in HELD {
                let memory = with(&base, stage, latched, left, next, 250, held);
                for sum in sums(&mut random) {
                    judge.judge(with_sum(&memory, sum, false))?;
                    judge.judge(with_sum(&memory, sum, true))?;
                }
            }
        }
    }
    // Several fields at once.
    for _ in 0..200_000 {
        let mut memory = random.of(&chips);
        for _ in 0..=random.below(4) {
            let place = random.below(ARRAYS as u64) as usize;
            memory.0[place] = random.of(&[0, 1, 2, 16, 0x40, 0x41, 0x80, 255, random.clone().byte()]);
        }
        judge.judge(memory)?;
    }
    Ok(judge.states)
}

/// Well-formed chips: Idle, CalcCRC, the stages of WriteE2, other commands with as many bytes as may wait, a running timer, a CRC8 checksum.
fn some_chips(base: &Memory) -> Vec<Memory> {
    let mut chips = vec![
        with(base, 0x00, 0, 0, 0x000, 0, 0),
        with(base, 0x12, 0, 0, 0x000, 77, 0),
        with(base, 0x41, 16, 1, 0x020, 200, 64),
        with(base, 0x01, 1, PROGRAMMING_CLOCKS, 0x000, 0, 0),
        with(base, 0x01, 0, 0, 0x1FF, 255, 1),
        with(base, 0x41, 0, 0, 0x000, 9, 0),
        with(base, 0x00, 16, 0, 0x020, 250, 64),
        with(base, 0x03, 0, 0, 0x000, 0, 2),
        with(base, 0x19, 255, 0, 0x000, 0, 11),
        with(base, 0x9E, 0, 0, 0x000, 100, 64),
    ];
    for stage in [0x00, 0x12] {
        let mut memory = with(base, stage, 0, 0, 0x000, 0, 0);
        let chip = memory.chip_mut();
        (chip.timer_running, chip.timer_value, chip.timer_prescaler, chip.timer_phase) = (1, 1, 21, (1 << 21) - 1);
        (chip.crc_mode, chip.crc_register) = (0x3F, 0xFF);
        chips.push(memory);
    }
    chips
}

/// Calls on both chips, from states of both editions that are well formed: WriteE2 with and without a batch, latched counts that other commands
/// have left, sums of lost bytes, and power modes. Answers how many calls those were.
pub fn worked<const FAULT: u8>() -> Result<u64, String> {
    let mut count = 0;
    for edition in Edition::BOTH {
        count += batches::<FAULT>(edition)? + losses::<FAULT>(edition)?;
    }
    Ok(count + worked_in_modes::<FAULT>()?)
}

/// Those on power modes alone.
pub fn worked_in_modes<const FAULT: u8>() -> Result<u64, String> {
    Edition::BOTH.into_iter().try_fold(0, |count, edition| Ok(count + modes::<FAULT>(edition)?))
}

/// Each of the calls, from the state, if it is well formed. Answers how many calls those were.
fn made<const FAULT: u8>(edition: Edition, base: Memory, memory: &Memory, calls: &[Call]) -> Result<u64, String> {
    if plain_of::<FAULT>(memory.chip()).is_err() {
        return Ok(0);
    }
    for call in calls {
        let mut session = Session::<FAULT>::of(*memory);
        // The call, and then a poll and clocks on what it has left.
        for call in [call, &Call::Read { address: PRIMARY_STATUS }, &Call::Advance { clocks: 2 }] {
            session.perform(call).map_err(|difference| {
                let judge = Judge::<FAULT> { edition, base, states: States::default() };
                format!("{call} after {}: {difference}", judge.line(memory))
            })?;
        }
    }
    Ok(3 * calls.len() as u64)
}

fn batches<const FAULT: u8>(edition: Edition) -> Result<u64, String> {
    let base = started(edition);
    let calls = [
        Call::Advance { clocks: 1 },
        Call::Advance { clocks: 65_535 },
        Call::Advance { clocks: 2 * PROGRAMMING_CLOCKS },
        Call::Advance { clocks: u32::MAX },
        Call::Write { address: COMMAND, byte: 0x00 },
        Call::Write { address: COMMAND, byte: 0x01 },
        Call::Write { address: COMMAND, byte: 0x12 },
        Call::Write { address: COMMAND, byte: 0x1E },
        Call::Write { address: COMMAND, byte: 0x3F },
        Call::Write { address: FIFO_DATA, byte: 0x55 },
        Call::Write { address: CONTROL, byte: 0x01 },
        Call::Read { address: FIFO_DATA },
        Call::Take { length: 66, fill: 0 },
        Call::Deliver { bytes: vec![0x26], parities: vec![0], last_bits: 0 },
    ];
    let mut count = 0;
    for stage in LISTED {
        for latched in [0, 1, 2, 15, 16, 17, 255] {
            for left in [0, 1, PROGRAMMING_CLOCKS] {
                for next in NEXT {
                    for held in [0, 1, 2, 11, 63, 64] {
                        count += made::<FAULT>(edition, base, &with(&base, stage, latched, left, next, 240, held), &calls)?;
                    }
                }
            }
        }
    }
    Ok(count)
}

/// All six events, accepted and refused, with sums of lost bytes that a start leads to and others. The first held bytes are ReadE2's arguments for 128
/// bytes from 000h.
fn losses<const FAULT: u8>(edition: Edition) -> Result<u64, String> {
    let base = started(edition);
    let other = Edition::BOTH[1 - edition as usize];
    let deliver = |length| Call::Deliver { bytes: vec![0x26; length], parities: vec![0; length], last_bits: 0 };
    let calls = [
        Call::Start { image: image(other) },
        Call::Start { image: Image { length: 511, ..image(other) } },
        Call::Start { image: Image { type_bytes: [0; 4], ..image(other) } },
        Call::Read { address: FIFO_DATA },
        Call::Read { address: 64 },
        Call::Write { address: FIFO_DATA, byte: 0x80 },
        Call::Write { address: COMMAND, byte: 0x00 },
        Call::Write { address: COMMAND, byte: 0x03 },
        Call::Write { address: COMMAND, byte: 0x12 },
        Call::Write { address: COMMAND, byte: 0x3F },
        Call::Write { address: CONTROL, byte: 0x36 },
        Call::Write { address: CONTROL, byte: 0x01 },
        Call::Write { address: 64, byte: 0x01 },
        Call::Advance { clocks: 2 * PROGRAMMING_CLOCKS },
        Call::Take { length: 66, fill: 0 },
        Call::Take { length: 65, fill: 0 },
        deliver(0),
        deliver(1),
        deliver(4),
        deliver(64),
    ];
    let mut random = Random::new(9);
    let mut count = 0;
    for stage in LISTED {
        for (latched, left, next) in [(0, 0, 0x020), (16, 1, 0x020), (1, PROGRAMMING_CLOCKS, 0x000)] {
            for held in [0, 1, 2, 3, 11, 60, 61, 62, 63, 64] {
                let mut memory = with(&base, stage, latched, left, next, 254, held);
                (memory.chip_mut().slots[62], memory.chip_mut().slots[63], memory.chip_mut().slots[0]) = (0x00, 0x00, 0x80);
                for redundancy in [0x00, 0x08] {
                    memory.chip_mut().registers[0x22 - 0x10] = redundancy;
                    for sum in sums(&mut random) {
                        for overflow in [false, true] {
                            count += made::<FAULT>(edition, base, &with_sum(&memory, sum, overflow), &calls)?;
                        }
                    }
                }
            }
        }
    }
    Ok(count)
}

/// Every kind of call, accepted and refused, in every two states of the power modes, over programmings of which all clocks are left or fewer, and over
/// none, with a timer at rest, running, and at its end.
fn modes<const FAULT: u8>(edition: Edition) -> Result<u64, String> {
    let base = started(edition);
    let calls = mode_calls(edition);
    let stand_by = [1, 2, 3, 4].map(|to_go| Mode::Leaving { to_go });
    let power_down = [1, 3, 4, 5, 511, 512].map(|to_go| Mode::Leaving { to_go });
    let resting = [Mode::Off, Mode::Waiting, Mode::Held];
    let mut count = 0;
    for chip in mode_chips(&base) {
        for stand_by in resting.iter().chain(&stand_by) {
            for power_down in resting.iter().chain(&power_down) {
                count += made::<FAULT>(edition, base, &with_modes(&chip, [*stand_by, *power_down]), &calls)?;
            }
        }
    }
    Ok(count)
}

fn mode_calls(edition: Edition) -> Vec<Call> {
    let other = Edition::BOTH[1 - edition as usize];
    let deliver = |length| Call::Deliver { bytes: vec![0x26; length], parities: vec![0; length], last_bits: 0 };
    let most = PROGRAMMING_CLOCKS;
    let clocks = [0, 1, 2, 3, 4, 5, 6, 510, 511, 512, 513, 514, 600, most, most + 4, most + 512, 2 * most + 513, u32::MAX];
    let mut calls = vec![
        Call::Start { image: image(other) },
        Call::Start { image: Image { length: 511, ..image(other) } },
        Call::Read { address: CONTROL },
        Call::Read { address: SECONDARY_STATUS },
        Call::Read { address: FIFO_DATA },
        Call::Read { address: 64 },
        Call::Write { address: FIFO_DATA, byte: 0x55 },
        Call::Write { address: COMMAND, byte: 0x00 },
        Call::Write { address: COMMAND, byte: 0x01 },
        Call::Write { address: COMMAND, byte: 0x12 },
        Call::Write { address: COMMAND, byte: 0x1E },
        Call::Write { address: COMMAND, byte: 0x3F },
        Call::Write { address: 64, byte: 0x30 },
        Call::Take { length: 66, fill: 0 },
        Call::Take { length: 65, fill: 0 },
        deliver(0),
        deliver(3),
    ];
    calls.extend(clocks.map(|clocks| Call::Advance { clocks }));
    // All of bits 5, 4, 2, 1 and 0; the others of a write count for nothing.
    calls.extend((0..0x40).filter(|byte| byte & 0x08 == 0).map(|byte| Call::Write { address: CONTROL, byte }));
    calls.push(Call::Write { address: CONTROL, byte: 0xC8 });
    calls
}

fn mode_chips(base: &Memory) -> Vec<Memory> {
    let mut chips = vec![
        with(base, 0x00, 0, 0, 0x000, 5, 0),
        with(base, 0x12, 0, 0, 0x000, 5, 0),
        with(base, 0x01, 0, 0, 0x000, 5, 1),
        with(base, 0x41, 0, 0, 0x02F, 5, 0),
        with(base, 0x41, 0, 0, 0x000, 5, 0),
        with(base, 0x5A, 0, 0, 0x000, 5, 0),
        with(base, 0x5A, 0, 0, 0x000, 5, 3),
        with(base, 0x5E, 0, 0, 0x000, 5, 64),
        with(base, 0x96, 0, 0, 0x000, 5, 0),
        with(base, 0x9E, 0, 0, 0x000, 5, 63),
        // A programming: its last one, with one behind it, with two, and with bytes that meet block 0.
        with(base, 0x41, 3, PROGRAMMING_CLOCKS, 0x033, 5, 0),
        with(base, 0x01, 3, PROGRAMMING_CLOCKS, 0x033, 5, 13),
        with(base, 0x41, 3, 1, 0x033, 5, 14),
        with(base, 0x41, 3, 2, 0x033, 5, 0),
        with(base, 0x41, 3, 5, 0x000, 5, 1),
        with(base, 0x41, 3, 512, 0x033, 5, 1),
        with(base, 0x41, 3, PROGRAMMING_CLOCKS - 1, 0x033, 5, 64),
    ];
    // No timer, one that runs, and one that ends with each clock.
    for (place, memory) in chips.iter_mut().enumerate() {
        let chip = memory.chip_mut();
        let (clock, reload, value) = [(0x00, 0x00, 0), (0x00, 0xFF, 0xFF), (0x20, 0x01, 1)][place % 3];
        (chip.registers[0x2A - 0x10], chip.registers[0x2C - 0x10]) = (clock, reload);
        (chip.timer_running, chip.timer_value) = (u8::from(value > 0), value);
    }
    chips
}
