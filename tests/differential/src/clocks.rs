//! Clocks in parts, through the library's own calls: an advance by a sum leaves what two advances by its parts do, and an advance by n what n
//! advances by one do, to the byte, over ends of programmings and of leavings and over holds that modes take between. The plain chip takes no part in
//! this; `built` and the random lists compare with it.

use crate::built::{started, with_modes};
use crate::chip_memory::{number_of, Memory, SIZE};
use crate::library;
use crate::plain::{power, Edition, Mode, PROGRAMMING_CLOCKS};
use crate::random::Random;
use std::fmt;

/// A well-formed chip with a timer and a programming, either of which may rest, and with power modes. With `near` each has few clocks to its next end.
fn chip(random: &mut Random, base: &Memory, near: bool) -> Memory {
    let mut memory = *base;
    let chip = memory.chip_mut();
    chip.registers[0x29 - 0x10] = random.byte() & 0x3F;
    chip.registers[0x2A - 0x10] = random.byte();
    chip.registers[0x2C - 0x10] = random.of(&[0, 1, 2, 3, 7, 64, 254, 255]);
    (chip.interrupt_en, chip.interrupt_rq) = (random.byte() & 0x3F, random.byte() & 0x3F);
    if !random.one_in(4) {
        let prescaler = random.of(&[0, 0, 1, 2, 5, 13, 20, 21].map(|prescaler| if near { prescaler % 4 } else { prescaler }));
        let period = 1 << prescaler;
        chip.timer_running = 1;
        chip.timer_prescaler = prescaler;
        chip.timer_value = random.of(&[1, 1, 2, 3, 100, 254, 255]);
        chip.timer_phase = random.of(&[0, period / 2, period - 1]);
    }
    if !random.one_in(4) {
        let latched = 1 + random.below(16) as u16;
        let block = random.of(&[1, 2, 14, 15, 27, 30, 31, 31]) as u16;
        let end = 16 * block + latched + random.below(u64::from(17 - latched)) as u16;
        chip.stage = random.of(&[0x01, 0x41]);
        chip.latched = latched as u8;
        chip.next_address = end % 0x200;
        chip.programming_left = if near { 1 + random.below(9) as u32 } else { 1 + random.below(u64::from(PROGRAMMING_CLOCKS)) as u32 };
        chip.fifo_read = random.byte();
        let held = random.of(&[0, 1, 15, 16, 17, 33, 63, 64]);
        chip.fifo_write = chip.fifo_read.wrapping_add(held);
    }
    let modes = power::LEAVING.map(|whole| {
        let to_go = 1 + random.below(if near { 12 } else { 512 }.min(whole.into())) as u16;
        match random.below(9) {
            0 => Mode::Held,
            1 => Mode::Leaving { to_go: whole },
            2 | 3 => Mode::Leaving { to_go },
            4 | 5 if memory.chip().programming_left > 0 => Mode::Waiting,
            _ => Mode::Off,
        }
    });
    with_modes(&memory, modes)
}

/// How many advances were made, and of the chips that were advanced by all clocks at once, for StandBy and PowerDown: in how many a hold was taken, and
/// in how many a leaving ended.
#[derive(Clone, Copy, Default)]
pub struct Advances {
    pub made: u64,
    pub taken: [u64; 2],
    pub left: [u64; 2],
}

impl Advances {
    fn count(&mut self, before: &Memory, after: &Memory) {
        let held = |memory: &Memory| [memory.chip().stand_by, memory.chip().power_down].map(|number| number >= number_of(Mode::Held));
        let (before, after) = (held(before), held(after));
        for place in 0..2 {
            self.taken[place] += u64::from(!before[place] && after[place]);
            self.left[place] += u64::from(before[place] && !after[place]);
        }
    }
}

impl fmt::Display for Advances {
    fn fmt(&self, out: &mut fmt::Formatter<'_>) -> fmt::Result {
        let ([taken_0, taken_1], [left_0, left_1]) = (self.taken, self.left);
        write!(out, "{} advances at once and in parts, with StandBy taking hold {taken_0} times and left {left_0} times, ", self.made)?;
        write!(out, "and PowerDown {taken_1} and {left_1} times")
    }
}

fn advance(memory: &mut Memory, clocks: u32) -> Result<(), String> {
    // SAFETY: the chip is whole.
    match unsafe { library::mfrc531_advance(memory.as_mut_ptr(), clocks) } {
        0 => Ok(()),
        answer => Err(format!("an advance by {clocks} is answered with {answer:X}h")),
    }
}

fn same(one: &Memory, other: &Memory, before: &Memory, how: &str) -> Result<(), String> {
    match (0..SIZE).find(|&place| one.0[place] != other.0[place]) {
        Some(place) => Err(format!(
            "{how}: byte {place} of the chip is {:02X}h, or {:02X}h in parts, from {:02X?}",
            one.0[place],
            other.0[place],
            &before.0[..56]
        )),
        None => Ok(()),
    }
}

/// So many chips, each advanced at once and in parts.
pub fn in_parts(seed: u64, chips: u64) -> Result<Advances, String> {
    let bases = Edition::BOTH.map(started);
    let mut random = Random::new(seed);
    let mut advances = Advances::default();
    for round in 0..chips {
        let base = bases[(round % 2) as usize];
        // Few clocks, one by one.
        let before = chip(&mut random, &base, true);
        let clocks = random.below(40) as u32;
        let (mut one, mut other) = (before, before);
        advance(&mut one, clocks)?;
        for _ in 0..clocks {
            advance(&mut other, 1)?;
        }
        same(&one, &other, &before, &format!("{clocks} clocks one by one"))?;
        advances.count(&before, &one);
        // Any number, in two parts.
        let before = chip(&mut random, &base, false);
        let left = u64::from(before.chip().programming_left);
        let step = 1 << before.chip().timer_prescaler;
        let leavings = [before.chip().stand_by, before.chip().power_down].map(|number| u64::from(number % number_of(Mode::Held)));
        let wakes = leavings[0].max(leavings[1]);
        let ends = wakes + left + random.below(7) * u64::from(PROGRAMMING_CLOCKS);
        let steps = wakes + random.below(600) * step;
        let any = random.number() >> 32;
        let near = random.of(&[0, 0, 1, 2]);
        let some = random.of(&[ends, steps, leavings[0], wakes]);
        let total = random.of(&[any, u64::from(u32::MAX), some + near, some.saturating_sub(near)]) as u32;
        let cut =
            random.of(&[any, left, ends, steps, leavings[0], leavings[1], 1, u64::from(total).saturating_sub(1)]).min(total.into()) as u32;
        let (mut one, mut other) = (before, before);
        advance(&mut one, total)?;
        advance(&mut other, cut)?;
        advance(&mut other, total - cut)?;
        same(&one, &other, &before, &format!("{cut} clocks and {} more (round {round})", total - cut))?;
        advances.count(&before, &one);
        advances.made += 4 + u64::from(clocks);
    }
    Ok(advances)
}
