//! Both chips side by side: a call is made on each, and everything that has to agree is compared.

use crate::answer::{self, Answer};
use crate::call::{first_memory, Call};
use crate::chip_memory::{difference, place_name, plain_of, reserved_is_zero, Memory};
use crate::library;
use crate::plain::{FaultyChip, Refusal};

/// Bytes before and after lent memory. The number is odd, so that buffers don't stand at even addresses.
pub const GUARD: usize = 61;

/// The library's chip with bytes around it that no call may touch.
#[derive(Clone, PartialEq, Eq)]
#[repr(C, align(4))]
struct Guarded {
    before: [u8; 64],
    memory: Memory,
    after: [u8; 64],
}

/// The two chips.
pub struct Session<const FAULT: u8> {
    guarded: Guarded,
    plain: Option<FaultyChip<FAULT>>,
    /// Both chips as they were before the latest corruption.
    saved: Option<(Memory, Option<FaultyChip<FAULT>>)>,
    /// Why the memory is no chip's state, for messages.
    malformed: &'static str,
    theirs: Vec<u8>,
    ours: Vec<u8>,
}

impl<const FAULT: u8> Session<FAULT> {
    /// Any memory, from a seed: most likely no chip's state.
    pub fn new(memory: u64) -> Self {
        Self::of(first_memory(memory))
    }

    /// This memory.
    pub fn of(memory: Memory) -> Self {
        let guarded = Guarded { before: [0xB4; 64], memory, after: [0x4B; 64] };
        let (plain, malformed) = match plain_of(guarded.memory.chip()) {
            Ok(plain) => (Some(plain), ""),
            Err(reason) => (None, reason),
        };
        Session { guarded, plain, saved: None, malformed, theirs: Vec::new(), ours: Vec::new() }
    }

    /// The plain chip; none when the memory is malformed.
    pub fn plain(&self) -> Option<&FaultyChip<FAULT>> {
        self.plain.as_ref()
    }

    pub fn memory(&self) -> &Memory {
        &self.guarded.memory
    }

    /// Why the memory is malformed, if it is.
    pub fn malformed(&self) -> Option<&'static str> {
        self.plain.is_none().then_some(self.malformed)
    }

    /// Makes a call on both chips, and then the call for the sum of lost bytes. The first one's answer, or what differs.
    pub fn perform(&mut self, call: &Call) -> Result<u32, String> {
        let answer = self.made(call)?;
        self.sums_agree()?;
        Ok(answer)
    }

    /// The call for the sum of lost bytes: the answer is the plain chip's, 7 where there is none, and not a byte is changed.
    fn sums_agree(&mut self) -> Result<(), String> {
        let before = self.guarded.clone();
        // SAFETY: the chip is whole.
        let theirs = unsafe { library::mfrc531_lost_sum(self.guarded.memory.as_mut_ptr()) };
        let ours = answer::of_sum(self.plain.as_ref().map_or(Err(Refusal::ChipMalformed), FaultyChip::lost_sum));
        if ours != theirs {
            return Err(format!("the call for the sum of lost bytes: plain answers {ours:08X}h, library {theirs:08X}h{}", self.reason()));
        }
        if self.guarded != before {
            return Err("the call for the sum of lost bytes has changed the library's chip, or memory beside it".to_string());
        }
        Ok(())
    }

    fn made(&mut self, call: &Call) -> Result<u32, String> {
        match call {
            Call::Corrupt { edits } => {
                if self.saved.is_none() {
                    self.saved = Some((self.guarded.memory, self.plain.clone()));
                }
                for (place, byte) in edits {
                    self.guarded.memory.0[usize::from(*place)] = *byte;
                }
                match plain_of(self.guarded.memory.chip()) {
                    Ok(plain) => self.plain = Some(plain),
                    Err(reason) => (self.plain, self.malformed) = (None, reason),
                }
                return Ok(0);
            }
            Call::Mend => {
                if let Some((memory, plain)) = self.saved.take() {
                    (self.guarded.memory, self.plain) = (memory, plain);
                }
                return Ok(0);
            }
            _ => {}
        }
        let before = self.guarded.memory;
        let theirs = self.library_answer(call);
        let ours = self.plain_answer(call);
        if ours != theirs {
            return Err(format!("answer: plain {}, library {}{}", Answer(ours), Answer(theirs), self.reason()));
        }
        if let Some(place) = self.ours.iter().zip(&self.theirs).position(|(ours, theirs)| ours != theirs) {
            let (ours, theirs) = (self.ours[place], self.theirs[place]);
            return Err(format!("byte {} of a lent buffer: plain {ours:02X}h, library {theirs:02X}h", place as isize - GUARD as isize));
        }
        if self.guarded.before != [0xB4; 64] || self.guarded.after != [0x4B; 64] {
            return Err("the library wrote beside its chip".to_string());
        }
        if ours & 0xFF != 0 {
            if let Some(place) = before.0.iter().zip(&self.guarded.memory.0).position(|(before, after)| before != after) {
                return Err(format!("refused with {}, and the library's chip has changed at {}", ours & 0xFF, place_name(place)));
            }
            return Ok(ours);
        }
        if let Call::Start { .. } = call {
            self.saved = None;
            if !reserved_is_zero(self.guarded.memory.chip()) {
                return Err("a start has left a reserved field that is not 0".to_string());
            }
        }
        match &self.plain {
            Some(plain) => match difference(plain, self.guarded.memory.chip(), before.chip()) {
                Some(difference) => Err(difference),
                None => Ok(ours),
            },
            None => Ok(ours),
        }
    }

    fn reason(&self) -> String {
        self.malformed().map_or(String::new(), |reason| format!(" (plain finds the chip malformed: {reason})"))
    }

    /// The library's answer. `theirs` is what was lent to it besides the chip, with guards around.
    fn library_answer(&mut self, call: &Call) -> u32 {
        let chip = self.guarded.memory.as_mut_ptr();
        let theirs = &mut self.theirs;
        theirs.clear();
        // SAFETY: the chip is whole and writable, and each pointer has as many bytes behind it as its length says.
        unsafe {
            match call {
                Call::Start { image } => {
                    lend(theirs, &image.bytes());
                    library::mfrc531_start(chip, theirs.as_ptr().add(GUARD), image.length)
                }
                Call::Read { address } => library::mfrc531_read(chip, *address),
                Call::Write { address, byte } => library::mfrc531_write(chip, *address, *byte),
                Call::Advance { clocks } => library::mfrc531_advance(chip, *clocks),
                Call::Take { length, fill } => {
                    lend(theirs, &take_buffer(*length, *fill));
                    library::mfrc531_take(chip, theirs.as_mut_ptr().add(GUARD), *length)
                }
                Call::Deliver { bytes, parities, last_bits } => {
                    lend(theirs, bytes);
                    lend(theirs, parities);
                    let first = theirs.as_ptr().add(GUARD);
                    let second = first.add(bytes.len() + 2 * GUARD);
                    library::mfrc531_deliver(chip, first, bytes.len(), second, parities.len(), *last_bits)
                }
                Call::Corrupt { .. } | Call::Mend => 0,
            }
        }
    }

    /// The plain chip's answer, coded as the library's. `ours` is what lent memory has to hold.
    fn plain_answer(&mut self, call: &Call) -> u32 {
        let ours = &mut self.ours;
        ours.clear();
        match call {
            Call::Start { image } => lend(ours, &image.bytes()),
            Call::Take { length, fill } => lend(ours, &take_buffer(*length, *fill)),
            Call::Deliver { bytes, parities, .. } => {
                lend(ours, bytes);
                lend(ours, parities);
            }
            _ => {}
        }
        if let Call::Start { image } = call {
            let image = &ours[GUARD..GUARD + image.length];
            let started = match &mut self.plain {
                Some(plain) => plain.start(image),
                None => FaultyChip::started(image).map(|plain| self.plain = Some(plain)),
            };
            return answer::of_nothing(started);
        }
        let Some(plain) = &mut self.plain else {
            return Refusal::ChipMalformed as u32;
        };
        match call {
            Call::Read { address } => answer::of_byte(plain.read(*address)),
            Call::Write { address, byte } => answer::of_lost(plain.write(*address, *byte)),
            Call::Advance { clocks } => answer::of_nothing(plain.advance(*clocks)),
            Call::Take { length, .. } => answer::of_taken(plain.take(&mut ours[GUARD..GUARD + length])),
            Call::Deliver { bytes, parities, last_bits } => answer::of_lost(plain.deliver(bytes, parities, *last_bits)),
            Call::Start { .. } | Call::Corrupt { .. } | Call::Mend => 0,
        }
    }
}

/// Adds lent memory with its guards.
pub fn lend(arena: &mut Vec<u8>, bytes: &[u8]) {
    arena.extend([0xC3; GUARD]);
    arena.extend(bytes);
    arena.extend([0x3C; GUARD]);
}

/// A buffer as it is before a take: neighbours differ.
fn take_buffer(length: usize, fill: u8) -> Vec<u8> {
    (0..length).map(|place| fill.wrapping_add((place as u8).wrapping_mul(7))).collect()
}
