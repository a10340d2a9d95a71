//! The library raced with the plain Rust chip, and with plain Rust's packs: nanoseconds per call, in turn in one run, and their ratios, as tables in
//! Markdown.
//!
//! The plain chip runs twice: with refusal 7 judged at each call, as it is due to a chip that a host hands over as memory and as the
//! library does, and without it, since its types rule most malformed states out. All three make the same calls, each through a function that
//! is not inlined into the loop, on a chip that stays where it lies. A figure is the least of many rounds, since a busy machine only adds.

use crate::answer;
use crate::chip_memory::{number_of, Memory, SIZE};
use crate::library as lib;
use crate::packs;
use crate::plain::{fault, power, Chip, Edition, Mode, Refusal};
use crate::recorded::{recorded, Access};
use crate::registers::*;
use std::hint::black_box;
use std::time::Instant;

const ROUNDS: usize = 3000;

/// Rounds of the recorded mix, and how many of its calls are timed at once.
const RECORDED_ROUNDS: usize = 100;
const PIECE: usize = 1020;

/// The plain chip that judges its state at each call.
struct Judged(Chip);

/// The events and the call for the sum of lost bytes, answered with one number.
trait Bench {
    fn start(&mut self, image: &[u8]) -> u32;
    fn read(&mut self, address: u8) -> u32;
    fn write(&mut self, address: u8, byte: u8) -> u32;
    fn advance(&mut self, clocks: u32) -> u32;
    fn take(&mut self, buffer: &mut [u8]) -> u32;
    fn deliver(&mut self, bytes: &[u8], parities: &[u8]) -> u32;
    fn lost_sum(&mut self) -> u32;
    /// Empties the FIFO without an event.
    fn empty(&mut self);
    /// Begins a leaving of StandBy without an event.
    fn leave(&mut self);
}

/// StandBy as a write of 0 leaves it.
const LEFT: Mode = Mode::Leaving { to_go: power::LEAVING[power::STAND_BY] };

impl Bench for Memory {
    // Safety, of all seven: the chip and the slices are lent for the call alone, each with its own length.
    fn start(&mut self, image: &[u8]) -> u32 {
        unsafe { lib::mfrc531_start(self.as_mut_ptr(), image.as_ptr(), image.len()) }
    }
    fn read(&mut self, address: u8) -> u32 {
        unsafe { lib::mfrc531_read(self.as_mut_ptr(), address) }
    }
    fn write(&mut self, address: u8, byte: u8) -> u32 {
        unsafe { lib::mfrc531_write(self.as_mut_ptr(), address, byte) }
    }
    fn advance(&mut self, clocks: u32) -> u32 {
        unsafe { lib::mfrc531_advance(self.as_mut_ptr(), clocks) }
    }
    fn take(&mut self, buffer: &mut [u8]) -> u32 {
        unsafe { lib::mfrc531_take(self.as_mut_ptr(), buffer.as_mut_ptr(), buffer.len()) }
    }
    fn deliver(&mut self, bytes: &[u8], parities: &[u8]) -> u32 {
        unsafe { lib::mfrc531_deliver(self.as_mut_ptr(), bytes.as_ptr(), bytes.len(), parities.as_ptr(), parities.len(), 0) }
    }
    fn lost_sum(&mut self) -> u32 {
        unsafe { lib::mfrc531_lost_sum(self.as_mut_ptr()) }
    }
    fn empty(&mut self) {
        let chip = self.chip_mut();
        chip.fifo_read = chip.fifo_write;
    }
    fn leave(&mut self) {
        let chip = self.chip_mut();
        (chip.control, chip.stand_by) = (power::BITS[power::STAND_BY], number_of(LEFT));
    }
}

impl Bench for Chip {
    #[inline(never)]
    fn start(&mut self, image: &[u8]) -> u32 {
        answer::of_nothing(Chip::start(self, image))
    }
    #[inline(never)]
    fn read(&mut self, address: u8) -> u32 {
        answer::of_byte(Chip::read(self, address))
    }
    #[inline(never)]
    fn write(&mut self, address: u8, byte: u8) -> u32 {
        answer::of_lost(Chip::write(self, address, byte))
    }
    #[inline(never)]
    fn advance(&mut self, clocks: u32) -> u32 {
        answer::of_nothing(Chip::advance(self, clocks))
    }
    #[inline(never)]
    fn take(&mut self, buffer: &mut [u8]) -> u32 {
        answer::of_taken(Chip::take(self, buffer))
    }
    #[inline(never)]
    fn deliver(&mut self, bytes: &[u8], parities: &[u8]) -> u32 {
        answer::of_lost(Chip::deliver(self, bytes, parities, 0))
    }
    #[inline(never)]
    fn lost_sum(&mut self) -> u32 {
        answer::of_sum(Chip::lost_sum(self))
    }
    fn empty(&mut self) {
        self.fifo.clear();
    }
    fn leave(&mut self) {
        self.modes[power::STAND_BY] = LEFT;
    }
}

impl Judged {
    fn judged(&mut self, event: impl FnOnce(&mut Chip) -> u32) -> u32 {
        if self.0.well_formed() {
            event(&mut self.0)
        } else {
            Refusal::ChipMalformed as u32
        }
    }
}

impl Bench for Judged {
    #[inline(never)]
    fn start(&mut self, image: &[u8]) -> u32 {
        answer::of_nothing(self.0.start(image))
    }
    #[inline(never)]
    fn read(&mut self, address: u8) -> u32 {
        self.judged(|chip| answer::of_byte(chip.read(address)))
    }
    #[inline(never)]
    fn write(&mut self, address: u8, byte: u8) -> u32 {
        self.judged(|chip| answer::of_lost(chip.write(address, byte)))
    }
    #[inline(never)]
    fn advance(&mut self, clocks: u32) -> u32 {
        self.judged(|chip| answer::of_nothing(chip.advance(clocks)))
    }
    #[inline(never)]
    fn take(&mut self, buffer: &mut [u8]) -> u32 {
        self.judged(|chip| answer::of_taken(chip.take(buffer)))
    }
    #[inline(never)]
    fn deliver(&mut self, bytes: &[u8], parities: &[u8]) -> u32 {
        self.judged(|chip| answer::of_lost(chip.deliver(bytes, parities, 0)))
    }
    #[inline(never)]
    fn lost_sum(&mut self) -> u32 {
        self.judged(|chip| answer::of_sum(Chip::lost_sum(chip)))
    }
    fn empty(&mut self) {
        self.0.fifo.clear();
    }
    fn leave(&mut self) {
        self.0.leave();
    }
}

/// One round of calls; answers a sum of all answers, so that none is left out and both chips can be compared.
type Round<B> = fn(&mut B) -> u64;

fn status_poll<B: Bench>(chip: &mut B) -> u64 {
    (0..1000).map(|_| u64::from(chip.read(black_box(PRIMARY_STATUS)))).sum()
}

fn register_reads<B: Bench>(chip: &mut B) -> u64 {
    (0..1000u32).map(|i| u64::from(chip.read(black_box((0x11 + i % 7) as u8)))).sum()
}

fn register_writes<B: Bench>(chip: &mut B) -> u64 {
    (0..1000u32).map(|i| u64::from(chip.write(black_box((0x11 + i % 7) as u8), i as u8))).sum()
}

fn fifo_pairs<B: Bench>(chip: &mut B) -> u64 {
    (0..500u32).map(|i| u64::from(chip.write(black_box(FIFO_DATA), i as u8)) + u64::from(chip.read(black_box(FIFO_DATA)))).sum()
}

/// What a driver does for a command: write its code and arguments, poll, read the requests and the answer, clear the requests.
fn mix<B: Bench>(chip: &mut B) -> u64 {
    let mut sum = 0;
    for i in 0..50u32 {
        sum += u64::from(chip.write(black_box(INTERRUPT_RQ), 0x7F));
        sum += u64::from(chip.write(COMMAND, 0x12));
        for k in 0..4 {
            sum += u64::from(chip.write(FIFO_DATA, (i + k) as u8));
        }
        for _ in 0..6 {
            sum += u64::from(chip.read(PRIMARY_STATUS)) + u64::from(chip.read(FIFO_LENGTH));
        }
        sum += u64::from(chip.read(0x0D)) + u64::from(chip.read(0x0E));
    }
    sum
}

/// Bytes for an Idle chip, up to a full FIFO, and a flush.
fn fifo_fills<B: Bench>(chip: &mut B) -> u64 {
    let mut sum = 0;
    for _ in 0..15 {
        for byte in 0..64 {
            sum += u64::from(chip.write(black_box(FIFO_DATA), byte));
        }
        sum += u64::from(chip.write(black_box(CONTROL), 0x01));
    }
    sum
}

fn lost_sums<B: Bench>(chip: &mut B) -> u64 {
    (0..1000).map(|_| u64::from(black_box(&mut *chip).lost_sum())).sum()
}

fn crc_starts<B: Bench>(chip: &mut B) -> u64 {
    (0..1000).map(|_| u64::from(chip.write(black_box(COMMAND), 0x12))).sum()
}

/// Bytes that all go the same way: CalcCRC takes them, or a full FIFO loses them.
fn byte_writes<B: Bench>(chip: &mut B) -> u64 {
    (0..1000u32).map(|i| u64::from(chip.write(black_box(FIFO_DATA), i as u8))).sum()
}

fn thousand_clocks<B: Bench>(chip: &mut B) -> u64 {
    (0..1000).map(|_| u64::from(chip.advance(black_box(1000)))).sum()
}

fn single_clocks<B: Bench>(chip: &mut B) -> u64 {
    (0..1000).map(|_| u64::from(chip.advance(black_box(1)))).sum()
}

fn most_clocks<B: Bench>(chip: &mut B) -> u64 {
    (0..1000).map(|_| u64::from(chip.advance(black_box(u32::MAX)))).sum()
}

/// Advances over the end of a leaving of StandBy, by one clock that counts again.
fn leavings<B: Bench>(chip: &mut B) -> u64 {
    let advance = |_| {
        chip.leave();
        u64::from(chip.advance(black_box(5)))
    };
    (0..1000).map(advance).sum()
}

fn exchanges<B: Bench>(chip: &mut B) -> u64 {
    let mut buffer = [0; 66];
    let mut sum = 0;
    for _ in 0..50 {
        chip.write(FIFO_DATA, 0x12);
        chip.write(FIFO_DATA, 0x34);
        chip.write(COMMAND, 0x1E);
        sum += u64::from(chip.take(black_box(&mut buffer)));
        sum += u64::from(chip.deliver(black_box(&[0x12, 0x34, 0x26, 0xCF]), &[1, 0, 0, 1]));
        chip.write(CONTROL, 0x01);
    }
    sum + buffer.iter().map(|&byte| u64::from(byte)).sum::<u64>()
}

/// An image of an MFRC531, with this byte elsewhere.
fn filled(byte: u8) -> [u8; 512] {
    let mut image = [byte; 512];
    image[..4].copy_from_slice(&Edition::Mfrc531.type_bytes());
    image
}

fn starts<B: Bench>(chip: &mut B) -> u64 {
    let image = black_box(filled(7));
    (0..100).map(|_| u64::from(chip.start(&image))).sum()
}

struct Line {
    what: &'static str,
    calls: f64,
    prepare: &'static [(u8, u8)],
    library: Round<Memory>,
    plain: Round<Chip>,
    judged: Round<Judged>,
}

macro_rules! line {
    ($what:literal, $calls:literal, $prepare:expr, $round:ident) => {
        Line {
            what: $what,
            calls: $calls as f64,
            prepare: $prepare,
            library: $round::<Memory>,
            plain: $round::<Chip>,
            judged: $round::<Judged>,
        }
    };
}

/// A timer that restarts: with a step each 64 clocks, from 255 on, and with a step each clock, from 1 on.
const TIMER_RUNS: &[(u8, u8)] = &[(0x2C, 255), (0x2A, 0x26), (CONTROL, 0x02)];
const TIMER_ENDS: &[(u8, u8)] = &[(0x2C, 1), (0x2A, 0x20), (CONTROL, 0x02)];

/// The first of them, in PowerDown.
const TIMER_STANDS: &[(u8, u8)] = &[(0x2C, 255), (0x2A, 0x26), (CONTROL, 0x12)];

/// As many bytes as the FIFO holds.
const FULL: &[(u8, u8)] = &[(FIFO_DATA, 0x55); 64];

/// What is raced, beside the recorded mix; the numbers are how many calls, or clocks, a round has. The first is the driver's mix.
const LINES: [Line; 19] = [
    line!("mix of host accesses: a command, its bytes, polls, the answer", 1000, &[], mix),
    line!("status poll (host read of PrimaryStatus)", 1000, &[], status_poll),
    line!("status poll while the chip receives", 1000, &[(COMMAND, 0x16)], status_poll),
    line!("host read of a stored register", 1000, &[], register_reads),
    line!("host write of a stored register", 1000, &[], register_writes),
    line!("host write and host read of FIFOData, each", 1000, &[], fifo_pairs),
    line!("host write of FIFOData to an Idle chip, a flush after 64", 975, &[], fifo_fills),
    line!("host write of FIFOData to a full FIFO", 1000, FULL, byte_writes),
    line!("the sum of lost bytes", 1000, FULL, lost_sums),
    line!("CalcCRC, a start", 1000, &[], crc_starts),
    line!("CalcCRC, per byte written", 1000, &[(COMMAND, 0x12)], byte_writes),
    line!("advance by 1 with the timer running", 1000, TIMER_RUNS, single_clocks),
    line!("advance by 1,000 with the timer running", 1000, TIMER_RUNS, thousand_clocks),
    line!("advance by 1, the timer at its end with each clock", 1000, TIMER_ENDS, single_clocks),
    line!("advance by 4,294,967,295, the timer at its end with each clock", 1000, TIMER_ENDS, most_clocks),
    line!("advance by 1 in PowerDown", 1000, TIMER_STANDS, single_clocks),
    line!("advance by 5 over the end of a leaving of StandBy", 1000, TIMER_RUNS, leavings),
    line!("an exchange: four host writes, take and deliver, per exchange", 50, &[(CHANNEL_REDUNDANCY, 0x0F)], exchanges),
    line!("start from an image", 100, &[], starts),
];

fn prepared<B: Bench>(chip: &mut B, prepare: &[(u8, u8)]) {
    let mut image = filled(0);
    image[0x23] = 0x63;
    image[0x24] = 0x63;
    image[0x29] = 0x08;
    assert_eq!(chip.start(&image), 0);
    assert_eq!(chip.write(0x00, 0x00), 0);
    for &(address, byte) in prepare {
        assert_eq!(chip.write(address, byte), 0);
    }
}

/// The three chips, prepared alike.
fn three(prepare: &[(u8, u8)]) -> (Memory, Chip, Judged) {
    let mut library = Memory([0; SIZE]);
    let mut plain = Chip::started(&filled(0)).unwrap();
    let mut judged = Judged(plain.clone());
    prepared(&mut library, prepare);
    prepared(&mut plain, prepare);
    prepared(&mut judged, prepare);
    (library, plain, judged)
}

fn timed<B>(round: Round<B>, chip: &mut B, least: &mut f64) -> u64 {
    let begin = Instant::now();
    let sum = black_box(round(chip));
    *least = least.min(begin.elapsed().as_nanos() as f64);
    sum
}

/// A row of the table, from nanoseconds per call: the library, the plain chip that judges nothing, the one that judges.
fn row(what: &str, [a, b, c]: [f64; 3]) {
    println!("| {what} | {a:.2} | {c:.2} | {:.2} | {b:.2} | {:.2} |", a / c, a / b);
}

fn race(line: &Line) {
    let (mut library, mut plain, mut judged) = three(line.prepare);
    let mut least = [f64::MAX; 3];
    for _ in 0..ROUNDS {
        let a = timed(line.library, &mut library, &mut least[0]);
        let b = timed(line.plain, &mut plain, &mut least[1]);
        let c = timed(line.judged, &mut judged, &mut least[2]);
        assert!(a == b && a == c, "{}: the chips answer differently", line.what);
    }
    row(line.what, least.map(|nanoseconds| nanoseconds / line.calls));
}

// ---- The recorded mix ------------------------------------------------------------------------------------------------------------------

fn access<B: Bench>(chip: &mut B, access: &Access) -> u32 {
    if access.reads {
        chip.read(access.address)
    } else {
        chip.write(access.address, access.byte)
    }
}

#[inline(never)]
fn played<B: Bench>(chip: &mut B, piece: &[Access]) -> u64 {
    piece.iter().map(|call| u64::from(access(chip, call))).sum()
}

fn timed_piece<B: Bench>(chip: &mut B, piece: &[Access], least: &mut f64) -> u64 {
    let begin = Instant::now();
    let sum = black_box(played(chip, black_box(piece)));
    *least = least.min(begin.elapsed().as_nanos() as f64);
    sum
}

/// The whole list on the three chips: every answer compared, one by one, and then its pieces timed in turn. The time of the list is the sum of the
/// least that each piece took.
fn race_recorded() {
    let list = recorded();
    let (mut library, mut plain, mut judged) = three(&[]);
    for (place, call) in list.iter().enumerate() {
        let answers = [access(&mut library, call), access(&mut plain, call), access(&mut judged, call)];
        assert!(answers.iter().all(|answer| *answer == answers[0]), "the recorded mix: the chips answer differently at call {place}");
    }
    let mut least = vec![[f64::MAX; 3]; list.len().div_ceil(PIECE)];
    for _ in 0..RECORDED_ROUNDS {
        for (piece, least) in list.chunks(PIECE).zip(&mut least) {
            let a = timed_piece(&mut library, piece, &mut least[0]);
            let b = timed_piece(&mut plain, piece, &mut least[1]);
            let c = timed_piece(&mut judged, piece, &mut least[2]);
            assert!(a == b && a == c, "the recorded mix: the chips answer differently");
        }
    }
    let sum = |chip: usize| least.iter().map(|least| least[chip]).sum::<f64>() / list.len() as f64;
    row("recorded mix: a million host accesses from a seed", [sum(0), sum(1), sum(2)]);
}

// ---- Instructions ----------------------------------------------------------------------------------------------------------------------

/// Bytes for an Idle chip, 64 at a time, and nothing else.
fn fifo_writes<B: Bench>(chip: &mut B) -> u64 {
    let mut sum = 0;
    for byte in 0..16 * 64u32 {
        if byte % 64 == 0 {
            chip.empty();
        }
        sum += u64::from(chip.write(black_box(FIFO_DATA), byte as u8));
    }
    sum
}

/// From one end of the timer to the next.
fn timer_lap<B: Bench>(chip: &mut B) -> u64 {
    (0..64 * 255).map(|_| u64::from(chip.advance(black_box(1)))).sum()
}

/// The kinds of calls whose instructions tests/instructions counts, by the names that tests/instructions.c has, with the same calls.
const COUNTED: [Line; 16] = [
    line!("driver-mix", 1000, &[], mix),
    line!("poll", 1000, &[], status_poll),
    line!("poll-receiving", 1000, &[(COMMAND, 0x16)], status_poll),
    line!("fifo-write", 1024, &[], fifo_writes),
    line!("fifo-full", 1000, FULL, byte_writes),
    line!("lost-sum", 1000, FULL, lost_sums),
    line!("crc-start", 1000, &[], crc_starts),
    line!("crc-byte", 1000, &[(COMMAND, 0x12)], byte_writes),
    line!("register-read", 1000, &[], register_reads),
    line!("register-write", 1000, &[], register_writes),
    line!("advance", 16_320, TIMER_RUNS, timer_lap),
    line!("advance-1000", 1000, TIMER_RUNS, thousand_clocks),
    line!("advance-end", 1000, TIMER_ENDS, single_clocks),
    line!("advance-most", 1000, TIMER_ENDS, most_clocks),
    line!("advance-held", 1000, TIMER_STANDS, single_clocks),
    line!("advance-left", 1000, TIMER_RUNS, leavings),
];

/// Makes so many rounds of calls of one kind on a plain chip, `judging` or `judging-nothing`, or on plain `packs`. Answers how many calls that were, if
/// kind and chip are known.
pub fn count(chip: &str, kind: &str, rounds: u64) -> Option<u64> {
    if chip == "packs" {
        let line = PACK_LINES.iter().find(|line| line.kind == kind)?;
        let mut packed = Packed::new();
        return Some((0..rounds).map(|_| black_box((line.plain)(&mut packed)).0).sum());
    }
    let (mut plain, mut judged) = {
        let (_, plain, judged) = three(&[]);
        (plain, judged)
    };
    if kind == "recorded-mix" {
        let list = recorded();
        for _ in 0..rounds {
            match chip {
                "judging" => black_box(played(&mut judged, black_box(&list))),
                "judging-nothing" => black_box(played(&mut plain, black_box(&list))),
                _ => return None,
            };
        }
        return Some(rounds * list.len() as u64);
    }
    let line = COUNTED.iter().find(|line| line.what == kind)?;
    prepared(&mut plain, line.prepare);
    prepared(&mut judged, line.prepare);
    for _ in 0..rounds {
        match chip {
            "judging" => black_box((line.judged)(&mut judged)),
            "judging-nothing" => black_box((line.plain)(&mut plain)),
            _ => return None,
        };
    }
    Some(rounds * line.calls as u64)
}

// ---- Profile packs ---------------------------------------------------------------------------------------------------------------------

/// The functions for packs, answered with one number.
trait PackBench {
    fn write(names: &[u8], bodies: &[u8], buffer: &mut [u8]) -> u32;
    fn read(pack: &[u8]) -> u32;
    fn find(pack: &[u8], name: &[u8]) -> u32;
    fn find_checked(pack: &[u8], name: &[u8]) -> u32;
}

struct LibraryPacks;
struct PlainPacks;

impl PackBench for LibraryPacks {
    // Safety, of all four: the slices are lent for the call alone, each with its own length.
    fn write(names: &[u8], bodies: &[u8], buffer: &mut [u8]) -> u32 {
        let (names_at, bodies_at) = (names.as_ptr(), bodies.as_ptr());
        unsafe { lib::mfrc531_pack_write(names_at, names.len(), bodies_at, bodies.len(), buffer.as_mut_ptr(), buffer.len()) }
    }
    fn read(pack: &[u8]) -> u32 {
        unsafe { lib::mfrc531_pack_read(pack.as_ptr(), pack.len()) }
    }
    fn find(pack: &[u8], name: &[u8]) -> u32 {
        unsafe { lib::mfrc531_pack_find(pack.as_ptr(), pack.len(), name.as_ptr(), name.len()) }
    }
    fn find_checked(pack: &[u8], name: &[u8]) -> u32 {
        unsafe { lib::mfrc531_pack_find_checked(pack.as_ptr(), pack.len(), name.as_ptr(), name.len()) }
    }
}

impl PackBench for PlainPacks {
    #[inline(never)]
    fn write(names: &[u8], bodies: &[u8], buffer: &mut [u8]) -> u32 {
        answer::of_number(packs::write::<{ fault::NONE }>(names, bodies, buffer))
    }
    #[inline(never)]
    fn read(pack: &[u8]) -> u32 {
        answer::of_number(packs::read::<{ fault::NONE }>(pack).map(|pack| pack.count()))
    }
    #[inline(never)]
    fn find(pack: &[u8], name: &[u8]) -> u32 {
        answer::of_number(packs::read::<{ fault::NONE }>(pack).and_then(|_| packs::find_checked(pack, name)))
    }
    #[inline(never)]
    fn find_checked(pack: &[u8], name: &[u8]) -> u32 {
        answer::of_number(packs::find_checked(pack, name))
    }
}

/// A pack of 256 profiles, what it is written from, and names to ask for: before, between and behind those of the pack, and its own. They are the names
/// of tests/instructions.c, which differ in the last two bytes alone.
struct Packed {
    names: Vec<u8>,
    bodies: Vec<u8>,
    pack: Vec<u8>,
    asked: Vec<[u8; packs::NAME]>,
}

impl Packed {
    fn new() -> Self {
        let name = |first: u8, second: u8| {
            let mut name = [0x5A; packs::NAME];
            name[packs::NAME - 2..].copy_from_slice(&[first, second]);
            name
        };
        let names: Vec<u8> = (0..=255).flat_map(|first| name(first, 0x80)).collect();
        let bodies = vec![0; packs::BODY * packs::MOST];
        let mut pack = vec![0; packs::length_of(packs::MOST)];
        assert_eq!(packs::write::<{ fault::NONE }>(&names, &bodies, &mut pack), Ok(pack.len()));
        let mut asked: Vec<[u8; packs::NAME]> = (0..=255).flat_map(|first| [name(first, 0x00), name(first, 0x80)]).collect();
        asked.push(name(255, 0xFF));
        Packed { names, bodies, pack, asked }
    }
}

/// How many calls a round has made, and a sum of all answers.
type PackRound = fn(&mut Packed) -> (u64, u64);

fn pack_writes<P: PackBench>(packed: &mut Packed) -> (u64, u64) {
    (10, (0..10).map(|_| u64::from(P::write(black_box(&packed.names), &packed.bodies, &mut packed.pack))).sum())
}

fn pack_reads<P: PackBench>(packed: &mut Packed) -> (u64, u64) {
    (10, (0..10).map(|_| u64::from(P::read(black_box(&packed.pack)))).sum())
}

fn pack_finds<P: PackBench>(packed: &mut Packed) -> (u64, u64) {
    let answers = packed.asked.iter().map(|name| u64::from(P::find(black_box(&packed.pack), name)));
    (packed.asked.len() as u64, answers.sum())
}

fn checked_finds<P: PackBench>(packed: &mut Packed) -> (u64, u64) {
    let answers = packed.asked.iter().map(|name| u64::from(P::find_checked(black_box(&packed.pack), name)));
    (packed.asked.len() as u64, answers.sum())
}

struct PackLine {
    what: &'static str,
    /// The name that tests/instructions.c has.
    kind: &'static str,
    library: PackRound,
    plain: PackRound,
}

macro_rules! pack_line {
    ($what:literal, $kind:literal, $round:ident) => {
        PackLine { what: $what, kind: $kind, library: $round::<LibraryPacks>, plain: $round::<PlainPacks> }
    };
}

const PACK_LINES: [PackLine; 4] = [
    pack_line!("write of a pack of 256 profiles", "pack-write", pack_writes),
    pack_line!("read of a pack of 256 profiles", "pack-read", pack_reads),
    pack_line!("find among 256 profiles", "pack-find", pack_finds),
    pack_line!("find among 256 profiles that have been read before", "pack-find-checked", checked_finds),
];

/// Packs raced with plain Rust, which finds by `binary_search_by`; of finds the mean over names that are there and names that are not.
pub fn packs() {
    println!("| What | library, ns | plain Rust, ns | ratio |");
    println!("|---|---:|---:|---:|");
    for line in &PACK_LINES {
        let mut packed = Packed::new();
        let mut least = [f64::MAX; 2];
        for _ in 0..ROUNDS {
            let [a, b] = [(line.library, 0), (line.plain, 1)].map(|(round, side)| {
                let begin = Instant::now();
                let (calls, sum) = black_box(round(&mut packed));
                least[side] = least[side].min(begin.elapsed().as_nanos() as f64 / calls as f64);
                sum
            });
            assert!(a == b, "{}: the two answer differently", line.what);
        }
        let [library, plain] = least;
        println!("| {} | {library:.2} | {plain:.2} | {:.2} |", line.what, library / plain);
    }
}

// ---- The tables ------------------------------------------------------------------------------------------------------------------------

fn heading() {
    println!("| What | library, ns | plain Rust chip, ns | ratio | judging nothing, ns | ratio |");
    println!("|---|---:|---:|---:|---:|---:|");
}

/// Everything that is raced.
pub fn run() {
    heading();
    race_recorded();
    LINES.iter().for_each(race);
}

/// The two mixes alone.
pub fn mixes() {
    heading();
    race_recorded();
    race(&LINES[0]);
}
