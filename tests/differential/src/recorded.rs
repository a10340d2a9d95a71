//! The recorded mix: a million host accesses, made from a seed, so that the list is the same on every computer. docs/PERFORMANCE.md says how,
//! and tests/instructions.c makes the same list.

use crate::random::Random;
use crate::registers::{COMMAND, FIFO_DATA, PRIMARY_STATUS};

/// The seed of the numbers, which are splitmix64's.
const SEED: u64 = 531;

/// Accesses that are drawn. Besides, Idle is written before every fiftieth.
const DRAWN: usize = 1_000_000;
const STRETCH: usize = 50;

/// One access: a read of a register, or a write of a byte to it.
#[derive(Clone, Copy)]
pub struct Access {
    pub reads: bool,
    pub address: u8,
    pub byte: u8,
}

/// The list. Of a number n, n mod 100 says what: below 50 a write of byte (n / 2^32) mod 256 to FIFOData, below 90 a poll of PrimaryStatus, else a
/// start of CalcCRC. Bytes fill an Idle chip up to the next start of CalcCRC, which takes them, and those behind it one by one.
pub fn recorded() -> Vec<Access> {
    let mut random = Random::new(SEED);
    let mut list = Vec::with_capacity(DRAWN + DRAWN / STRETCH);
    for drawn in 0..DRAWN {
        if drawn % STRETCH == 0 {
            list.push(Access { reads: false, address: COMMAND, byte: 0x00 });
        }
        let number = random.number();
        list.push(match number % 100 {
            0..50 => Access { reads: false, address: FIFO_DATA, byte: (number >> 32) as u8 },
            50..90 => Access { reads: true, address: PRIMARY_STATUS, byte: 0 },
            _ => Access { reads: false, address: COMMAND, byte: 0x12 },
        });
    }
    list
}
