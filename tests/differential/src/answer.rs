//! Answers as the C interface codes them (manual 9.8 and 9.9): those of plain Rust, call by call, and any for people.

use crate::plain::{Refusal, Taken};

#[inline]
fn coded<T>(answer: Result<T, Refusal>, bits: impl FnOnce(T) -> u32) -> u32 {
    answer.map_or_else(|refusal| refusal as u32, bits)
}

/// Of a start or an advance.
#[inline]
pub fn of_nothing(answer: Result<(), Refusal>) -> u32 {
    coded(answer, |()| 0)
}

/// Of a host read: the byte.
#[inline]
pub fn of_byte(answer: Result<u8, Refusal>) -> u32 {
    coded(answer, |byte| u32::from(byte) << 8)
}

/// Of a take: how many bytes it wrote, and the last bits.
#[inline]
pub fn of_taken(answer: Result<Taken, Refusal>) -> u32 {
    coded(answer, |taken| u32::from(taken.count) << 8 | u32::from(taken.last_bits) << 16)
}

/// Of a host write or a delivery: how many bytes were lost in it.
#[inline]
pub fn of_lost(answer: Result<u8, Refusal>) -> u32 {
    // A refusal goes by a call, or the compiler has every write work out which of the two numbers it answers.
    answer.map_or_else(of_refusal, |lost| u32::from(lost) << 24)
}

#[cold]
#[inline(never)]
fn of_refusal(refusal: Refusal) -> u32 {
    of_nothing(Err(refusal))
}

/// Of the call for the sum of lost bytes.
#[inline]
pub fn of_sum(answer: Result<u16, Refusal>) -> u32 {
    coded(answer, |sum| u32::from(sum) << 8)
}

/// Of a call for packs: the number of profiles, an offset or a length.
#[inline]
pub fn of_number(answer: Result<usize, Refusal>) -> u32 {
    coded(answer, |number| (number as u32) << 8)
}

/// How many bytes were lost, by an event's answer.
pub fn lost(answer: u32) -> u8 {
    (answer >> 24) as u8
}

/// An event's answer for people.
pub struct Answer(pub u32);

impl std::fmt::Display for Answer {
    fn fmt(&self, out: &mut std::fmt::Formatter<'_>) -> std::fmt::Result {
        let [refusal, value, last_bits, lost] = self.0.to_le_bytes();
        match refusal {
            0 => write!(out, "ok, value {value:02X}h, last bits {last_bits}, lost {lost}"),
            _ if self.0 < 0x100 => write!(out, "refusal {refusal}"),
            _ => write!(out, "{:08X}h", self.0),
        }
    }
}
