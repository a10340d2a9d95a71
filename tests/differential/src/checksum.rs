//! The checksum over a slice: the library's crate `crc` beside plain Rust, bit by bit to compare, and by a table of 256 entries to race with.

use crate::library as lib;
use crate::plain::redundancy::CRC_8;
use crate::plain::TABLE_16;
use crate::random::Random;
use std::hint::black_box;
use std::time::Instant;

/// The library's register after a slice.
fn library(redundancy: u8, register: u16, bytes: &[u8]) -> u16 {
    // SAFETY: the slice is lent for the call alone, with its own length.
    unsafe { lib::crc_absorb_all(redundancy, register, bytes.as_ptr(), bytes.len()) }
}

/// The register after a slice, bit by bit: x^16 + x^12 + x^5 + 1, or with CRC8 x^8 + x^4 + x^3 + x^2 + 1, least bit first.
pub fn bit_by_bit(redundancy: u8, register: u16, bytes: &[u8]) -> u16 {
    let taps = if redundancy & CRC_8 != 0 { 0x00B8 } else { 0x8408 };
    bytes.iter().fold(register, |register, &byte| {
        (0..8).fold(register ^ u16::from(byte), |register, _| register >> 1 ^ if register & 1 == 1 { taps } else { 0 })
    })
}

/// The 16-bit register after a slice, by the table: what any Rust program would do.
#[inline(never)]
fn by_table(register: u16, bytes: &[u8]) -> u16 {
    bytes.iter().fold(register, |register, &byte| register >> 8 ^ TABLE_16[usize::from(register as u8 ^ byte)])
}

/// Compares with bit by bit: every byte at every register in both modes, then so many slices of any length, mode and register.
/// Answers how many calls that were.
pub fn compare(seed: u64, slices: u64) -> Result<u64, String> {
    let mut calls = 0;
    let mut same = |redundancy: u8, register: u16, bytes: &[u8]| {
        calls += 1;
        let (found, wanted) = (library(redundancy, register, bytes), bit_by_bit(redundancy, register, bytes));
        if found == wanted {
            return Ok(());
        }
        Err(format!("22h {redundancy:02X}h, register {register:04X}h, bytes {bytes:02X?}: {found:04X}h, and {wanted:04X}h bit by bit"))
    };
    for redundancy in [0, CRC_8] {
        for register in 0..=u16::MAX {
            for byte in 0..=u8::MAX {
                same(redundancy, register, &[byte])?;
            }
        }
    }
    let mut random = Random::new(seed);
    for _ in 0..slices {
        let length = if random.one_in(50) { 4096 } else { random.below(70) };
        same(random.byte(), random.number() as u16, &random.bytes(length as usize))?;
    }
    Ok(calls)
}

/// Nanoseconds for a slice of so many bytes, the least of many rounds in turn: the library's, and by the plain table.
fn raced(length: usize) -> [f64; 2] {
    const ROUNDS: usize = 3000;
    let bytes: Vec<u8> = (0..length).map(|i| (i * 7) as u8).collect();
    let mut least = [f64::MAX; 2];
    for round in 0..ROUNDS {
        let register = black_box(round as u16);
        let begin = Instant::now();
        let a = (0..10).fold(register, |register, _| library(0x0F, register, black_box(&bytes)));
        let middle = Instant::now();
        let b = (0..10).fold(register, |register, _| by_table(register, black_box(&bytes)));
        let end = Instant::now();
        assert_eq!(a, b, "the registers differ");
        least[0] = least[0].min((middle - begin).as_nanos() as f64 / 10.0);
        least[1] = least[1].min((end - middle).as_nanos() as f64 / 10.0);
    }
    least
}

pub fn race() {
    println!("| What | library, ns | plain Rust table, ns | ratio |");
    println!("|---|---:|---:|---:|");
    for length in [4096, 64] {
        let [library, plain] = raced(length);
        println!("| a 16-bit checksum over a slice of {length} | {library:.2} | {plain:.2} | {:.2} |", library / plain);
    }
}
