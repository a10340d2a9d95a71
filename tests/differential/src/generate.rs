//! Call lists that get somewhere. The generator looks at the plain chip as it stands, makes small plans (a command with its arguments, a frame
//! with its CRC, a programming to its last clock ...), and strays from them now and then.

use crate::built::{type_by_arithmetic, NUMBERS, SUMS};
use crate::call::{lively, near_type, some_type, Call, Fill, Image};
use crate::chip_memory::{field, Memory, ARRAYS, HOLD, SIZE};
use crate::plain::{power, stored_nibble, Checksum, Command, Edition, FaultyChip, Fifo, Mode, Timer, Writing, PROGRAMMING_CLOCKS};
use crate::random::Random;
use std::collections::VecDeque;

/// A part of a plan. It becomes a call when its turn comes, by the chip of that moment.
enum Step {
    /// A write to a register, whatever Page says.
    Set(u8, u8),
    /// A read of a register, whatever Page says.
    Get(u8),
    /// Clocks up to the end of the programming, and so many more.
    ProgrammingEnd(i64),
    /// Clocks up to the timer's next end, and so many more.
    TimerEnd(i64),
    /// Clocks up to the next end of a leaving, or to the later one of two, and so many more.
    LeavingEnd(bool, i64),
    /// Calls until both power modes are off, without a flush.
    Awake,
    /// A delivery that fits the settings, or nearly.
    Deliver,
    /// Calls until so many bytes are held, without a flush.
    Hold(u8),
    /// So many calls of which most lose as many bytes as a call can, without a flush.
    Flood(u32),
    Call(Call),
}

/// What is looked at of the plain chip, whichever fault it has: so there is one generator for all of them.
struct Seen<'a> {
    command: Command,
    fifo: &'a Fifo,
    timer: Timer,
    modes: [Mode; 2],
    page: u8,
    registers: &'a [u8; 32],
}

impl<'a> Seen<'a> {
    fn of<const FAULT: u8>(chip: &'a FaultyChip<FAULT>) -> Self {
        let FaultyChip { command, fifo, timer, modes, page, registers, .. } = chip;
        Seen { command: *command, fifo, timer: *timer, modes: *modes, page: *page, registers }
    }

    fn holds(&self) -> bool {
        self.modes.iter().any(|mode| mode.holds())
    }

    /// Clocks up to the next end of a leaving, and to the last one; 0 where no mode is being left.
    fn waking(&self) -> (i64, i64) {
        let to_go = self.modes.iter().filter_map(|mode| if let Mode::Leaving { to_go } = mode { Some(i64::from(*to_go)) } else { None });
        (to_go.clone().min().unwrap_or(0), to_go.max().unwrap_or(0))
    }
}

/// ReadE2's arguments for all that it may read: 128 bytes from 000h.
const MOST_READ: [u8; 3] = [0x00, 0x00, 0x80];

pub struct Generator {
    random: Random,
    plan: VecDeque<Step>,
    /// Calls until a corruption is mended; 0: none is to be.
    mend_in: u64,
    /// What is to follow a forged state.
    after_forging: Vec<Step>,
    /// One call in so many writes into the chip's memory, besides the plans that do; 0: none.
    hostile: u64,
}

const COMMANDS: [u8; 10] = [0x00, 0x01, 0x03, 0x07, 0x0B, 0x12, 0x16, 0x19, 0x1A, 0x1E];
/// Clocks of a programming, to be added to others.
const PROGRAMMING: i64 = PROGRAMMING_CLOCKS as i64;
/// Clocks around the ends of leavings and programmings, and of what 16 and 32 bits hold.
const CLOCKS: [u32; 14] = [0, 1, 2, 3, 4, 5, 512, 65_535, 65_536, 78_648, 131_072, 235_944, 1 << 24, u32::MAX];
const STAGES: [u8; 12] = [0x00, 0x01, 0x41, 0x03, 0x07, 0x0B, 0x12, 0x19, 0x5A, 0x96, 0x5E, 0x9E];
const SETTINGS: [u8; 8] = [0x0F, 0x22, 0x23, 0x24, 0x29, 0x2A, 0x2B, 0x2C];
const EDGES: [u16; 31] = [
    0x000, 0x001, 0x002, 0x003, 0x004, 0x00F, 0x010, 0x011, 0x01F, 0x020, 0x05F, 0x060, 0x061, 0x070, 0x07E, 0x07F, 0x080, 0x081, 0x0F8,
    0x100, 0x16C, 0x16F, 0x170, 0x1E8, 0x1F0, 0x1F3, 0x1F4, 0x1F5, 0x1F8, 0x1FE, 0x1FF,
];

impl Generator {
    pub fn new(mut random: Random) -> Self {
        let hostile = random.of(&[0, 0, 40, 10]);
        Generator { random, plan: VecDeque::new(), mend_in: 0, after_forging: Vec::new(), hostile }
    }

    /// The next call, by the plain chip; none is for a malformed memory.
    pub fn next<const FAULT: u8>(&mut self, plain: Option<&FaultyChip<FAULT>>, memory: &Memory) -> Call {
        self.next_by(plain.map(Seen::of).as_ref(), memory)
    }

    fn next_by(&mut self, plain: Option<&Seen>, memory: &Memory) -> Call {
        if self.mend_in > 0 {
            self.mend_in -= 1;
            if self.mend_in == 0 {
                return if self.random.one_in(10) { self.start() } else { Call::Mend };
            }
        }
        let Some(chip) = plain else {
            return if self.mend_in == 0 && self.random.one_in(3) { self.start() } else { self.stray() };
        };
        if self.random.one_in(14) {
            return self.stray();
        }
        if self.hostile > 0 && self.random.one_in(self.hostile) {
            return self.corrupt(memory);
        }
        loop {
            match self.plan.pop_front() {
                Some(step) => {
                    if let Some(call) = self.turn(step, chip) {
                        return call;
                    }
                }
                None if chip.command != Command::Idle && self.random.one_in(3) => self.go_on(chip),
                None => {
                    if let Some(call) = self.make_plan(memory) {
                        return call;
                    }
                }
            }
        }
    }

    /// A step as a call of this moment; it may put itself off and another before it.
    fn turn(&mut self, step: Step, chip: &Seen) -> Option<Call> {
        let random = &mut self.random;
        match step {
            Step::Call(call) => Some(call),
            Step::Set(register, _) | Step::Get(register) => {
                let paging = chip.page & 0x80 != 0;
                let address = match (register % 8, paging) {
                    (0, _) => random.byte() & 0x38,
                    (low, true) if chip.page & 7 == register >> 3 => random.byte() & 0x38 | low,
                    (_, false) => register,
                    _ => {
                        // Another page first, or no paging.
                        let junk = random.byte() & random.of(&[0, 0, 0x78]);
                        let page = if random.one_in(5) { 0x80 | register >> 3 } else { random.byte() & 7 };
                        let call = Call::Write { address: random.byte() & 0x38, byte: page | junk };
                        self.plan.push_front(step);
                        return Some(call);
                    }
                };
                Some(match step {
                    Step::Set(_, byte) => Call::Write { address, byte },
                    _ => Call::Read { address },
                })
            }
            Step::ProgrammingEnd(more) => {
                let left = match chip.command {
                    Command::WriteE2(Writing::Programming { left, .. }) => i64::from(left),
                    _ => return random.one_in(4).then(|| Call::Advance { clocks: random.below(40) as u32 }),
                };
                // A mode in hold keeps it from its end.
                if chip.modes.contains(&Mode::Held) && !random.one_in(4) {
                    self.plan.push_front(step);
                    return self.turn(Step::Awake, chip);
                }
                Some(self.clocks(chip.waking().1 + left + more, Step::ProgrammingEnd(more)))
            }
            Step::TimerEnd(more) => {
                let run = chip.timer.run?;
                let left = (i64::from(chip.timer.value) << run.prescaler) - i64::from(run.phase);
                Some(self.clocks(chip.waking().1 + left + more, Step::TimerEnd(more)))
            }
            Step::LeavingEnd(later, more) => {
                let (sooner, latest) = chip.waking();
                let left = if later { latest } else { sooner };
                (left > 0).then(|| self.clocks(left + more, Step::LeavingEnd(later, more)))
            }
            Step::Awake => {
                let next = match chip.modes {
                    [Mode::Off, Mode::Off] => return None,
                    modes if modes.contains(&Mode::Held) || modes.contains(&Mode::Waiting) => Step::Set(0x09, 0x00),
                    _ => Step::LeavingEnd(true, 0),
                };
                self.plan.push_front(step);
                self.turn(next, chip)
            }
            Step::Deliver => Some(self.frame(chip)),
            Step::Hold(wanted) => {
                let next = self.towards(wanted, chip)?;
                self.plan.push_front(step);
                self.turn(next, chip)
            }
            Step::Flood(calls) => {
                if calls > 1 {
                    self.plan.push_front(Step::Flood(calls - 1));
                }
                let next = match chip.command {
                    _ if chip.holds() => Step::Awake,
                    Command::Idle if chip.fifo.bytes().take(3).eq(MOST_READ) => Step::Set(0x01, 0x03),
                    command if command.receives() => pass_whole(MOST_READ.into_iter().cycle().take(64).collect()),
                    // The next round's arguments come into an empty FIFO.
                    _ => self.towards(0, chip).unwrap_or(Step::Set(0x01, 0x16)),
                };
                self.turn(next, chip)
            }
        }
    }

    /// A call that brings the FIFO nearer to so many bytes held; none where they are. Over three that are missing are delivered, and over three that are
    /// too many go with a take: neither a flush nor a start is among the calls, so that the sum of lost bytes stays.
    fn towards(&mut self, wanted: u8, chip: &Seen) -> Option<Step> {
        let held = chip.fifo.held();
        let (missing, more) = (wanted.saturating_sub(held), held.saturating_sub(wanted));
        Some(match chip.command {
            _ if held == wanted => return None,
            // In a mode frames are refused, and a programming may stand still.
            _ if chip.holds() => Step::Awake,
            // No other command can be written before its end.
            Command::WriteE2(Writing::Programming { .. }) => Step::ProgrammingEnd(0),
            command if command.receives() && missing > 0 => pass_whole(self.random.bytes(missing.into())),
            command if command.sends() && more > 0 => Step::Call(Call::Take { length: 66, fill: self.random.byte() }),
            _ if missing > 3 => Step::Set(0x01, 0x16),
            _ if more > 3 => Step::Set(0x01, 0x1A),
            Command::Idle if missing > 0 => Step::Set(0x02, self.random.byte()),
            Command::Idle => Step::Get(0x02),
            _ => Step::Set(0x01, 0x00),
        })
    }

    /// So many clocks, or a first part of them with the step again behind it.
    fn clocks(&mut self, clocks: i64, again: Step) -> Call {
        let clocks = clocks.clamp(0, u32::MAX.into()) as u32;
        if clocks < 2 || !self.random.one_in(4) {
            return Call::Advance { clocks };
        }
        self.plan.push_front(again);
        let part = self.random.of(&[1, 65_535, clocks / 2, clocks - 1]);
        Call::Advance { clocks: part.min(clocks - 1) }
    }

    /// A call out of line.
    fn stray(&mut self) -> Call {
        let random = &mut self.random;
        match random.below(16) {
            0..=3 => Call::Read { address: random.byte() & 0x3F },
            4..=7 => Call::Write { address: random.byte() & 0x3F, byte: random.byte() },
            8 => Call::Read { address: random.of(&[63, 64, 65, 127, 128, 255, 0x42]) },
            9 => Call::Write { address: random.of(&[63, 64, 65, 127, 128, 255, 0x42]), byte: random.byte() },
            10 => Call::Advance { clocks: if random.one_in(15) { random.number() as u32 } else { random.of(&CLOCKS) } },
            11 => Call::Advance { clocks: random.below(66_000) as u32 },
            12 | 13 => self.take(),
            14 => {
                let length = random.of(&[0, 1, 2, 3, 64, 65, 66, 128, 256, 257, 320]);
                let parity_length = if random.one_in(3) { random.of(&[0, 1, length + 1, length + 256, 64]) } else { length };
                let bytes = random.bytes(length);
                let mut parities: Vec<u8> = (0..parity_length).map(|_| random.byte() & 1).collect();
                if random.one_in(3) && !parities.is_empty() {
                    let place = random.below(parities.len() as u64) as usize;
                    parities[place] = random.of(&[1, 2, 3, 128, 255]);
                }
                Call::Deliver { bytes, parities, last_bits: random.of(&[0, 0, 1, 7, 8, 9, 255]) }
            }
            _ => {
                // A length that is refused, whatever the type bytes are, or type bytes that are, nearly always.
                let length = random.of(&[0, 1, 3, 4, 32, 511, 512, 512, 512, 513, 544, 1024]);
                let type_bytes = if length == 512 || random.one_in(2) { near_type(random) } else { some_type(random) };
                Call::Start { image: Image { fill: Fill::Noise, seed: random.number() & 0xFFFF_FFFF, length, type_bytes } }
            }
        }
    }

    fn start(&mut self) -> Call {
        let random = &mut self.random;
        let fill = random.of(&[Fill::Noise, Fill::Shipped, Fill::Keys, Fill::Keys, Fill::Keys]);
        let length = if random.one_in(8) { random.of(&[511, 513]) } else { 512 };
        let type_bytes = some_type(random);
        Call::Start { image: Image { fill, seed: random.number() & 0xFFFF_FFFF, length, type_bytes } }
    }

    fn take(&mut self) -> Call {
        let random = &mut self.random;
        let length = match random.below(40) {
            0 => random.of(&[0, 1, 64, 255, 256, 300]),
            1 => random.of(&[65_536, 65_536 + 65]),
            2..=5 => 65,
            6..=15 => 67,
            16..=20 => 100,
            _ => 66,
        };
        Call::Take { length, fill: random.byte() }
    }

    fn set(&mut self, register: u8, byte: u8) {
        self.plan.push_back(Step::Set(register, byte));
    }

    fn call(&mut self, call: Call) {
        self.plan.push_back(Step::Call(call));
    }

    /// A change of one setting that the chip looks at.
    fn setting(&mut self) {
        let register = self.random.of(&SETTINGS);
        let byte = lively(register, &mut self.random);
        self.set(register, byte);
    }

    fn address(&mut self) -> u16 {
        let address = match self.random.below(10) {
            0..=6 => self.random.of(&EDGES),
            7 => (self.random.of(&EDGES) + self.random.below(16) as u16) % 0x200,
            _ => self.random.below(0x200) as u16,
        };
        // Above 1FFh it is the same.
        if self.random.one_in(6) {
            address | (u16::from(self.random.byte()) << 9)
        } else {
            address
        }
    }

    /// A command with bytes for it: before it, after it, or some before and some after.
    fn command(&mut self, code: u8, bytes: &[u8]) {
        if !self.random.one_in(5) {
            // Nothing left over: Idle, and a flush; then no mode, mostly, after which clocks count and frames pass again.
            self.set(0x01, 0x00);
            let control = self.random.of(&[0x01, 0x01, 0x01, 0x01, 0x01, 0x31, 0x11, 0x21]);
            self.set(0x09, control);
        }
        if !self.random.one_in(6) {
            self.plan.push_back(Step::Awake);
        }
        if self.random.one_in(3) {
            // Requests cleared, so that new ones are seen.
            self.set(0x07, 0x3F);
        }
        let code = code | self.random.of(&[0, 0, 0, 0x40, 0x80, 0xC0]);
        let before = match self.random.below(3) {
            0 => bytes.len(),
            1 => 0,
            _ => self.random.below(bytes.len() as u64 + 1) as usize,
        };
        bytes[..before].iter().for_each(|&byte| self.set(0x02, byte));
        self.set(0x01, code);
        bytes[before..].iter().for_each(|&byte| self.set(0x02, byte));
    }

    fn data(&mut self, most: u64) -> Vec<u8> {
        let count = match self.random.below(20) {
            0 => self.random.of(&[1, 2, 3, 15, 16, 17, 32, 33, 62, 63, 64, 65, 66, 70]).min(most),
            1 => 1 + self.random.below(most),
            2..=5 => 1 + self.random.below(most.min(20)),
            _ => 1 + self.random.below(4),
        };
        let mut bytes = self.random.bytes(count as usize);
        if self.random.one_in(6) {
            bytes.fill(0);
        }
        bytes
    }

    /// Twelve bytes in the format of a key, or nearly.
    fn stored_key(&mut self) -> Vec<u8> {
        let mut stored: Vec<u8> = (0..12).map(|_| stored_nibble(self.random.byte())).collect();
        if self.random.one_in(3) {
            let place = self.random.below(12) as usize;
            stored[place] ^= 1 << self.random.below(8);
        }
        stored
    }

    /// A new plan, or a call right away.
    fn make_plan(&mut self, memory: &Memory) -> Option<Call> {
        match self.random.below(130) {
            0..=9 => {
                for _ in 0..=self.random.below(4) {
                    self.setting();
                }
            }
            10..=13 => {
                let data = self.data(70);
                if self.random.one_in(2) {
                    self.set(0x01, 0x00);
                }
                data.iter().for_each(|&byte| self.set(0x02, byte));
                if self.random.one_in(2) {
                    let gets = self.random.below(data.len() as u64 + 2);
                    (0..gets).for_each(|_| self.plan.push_back(Step::Get(0x02)));
                }
            }
            14..=20 => {
                let address = self.address();
                let room = 0x80i32 - i32::from(address % 0x200);
                let count = match self.random.below(6) {
                    0 => self.random.of(&[0, 0, 1, 2, 63, 64, 65, 128, 129, 255]),
                    1 => self.random.byte(),
                    2 => (room + 1).clamp(0, 255) as u8,
                    _ => (room - self.random.below(8) as i32).clamp(1, 70) as u8,
                };
                let [low, high] = address.to_le_bytes();
                let mut bytes = vec![low, high, count];
                if self.random.one_in(5) {
                    bytes.extend(self.data(64));
                }
                self.command(0x03, &bytes);
            }
            21..=24 => {
                let [low, high] = self.address().to_le_bytes();
                self.command(0x07, &[low, high]);
            }
            25..=29 => {
                let [low, high] = self.address().to_le_bytes();
                self.command(0x0B, &[low, high]);
            }
            30..=35 => {
                let mut key = self.stored_key();
                if self.random.one_in(5) {
                    key.push(self.random.byte());
                }
                self.command(0x19, &key);
            }
            36..=47 => self.plan_write(),
            48..=55 => {
                (0..self.random.below(3)).for_each(|_| self.setting());
                let data = self.data(20);
                self.command(0x12, &data);
                self.plan.extend([Step::Get(0x0D), Step::Get(0x0E)]);
                if self.random.one_in(3) {
                    self.setting();
                    let byte = self.random.byte();
                    self.set(0x02, byte);
                    self.plan.push_back(Step::Get(0x0D));
                }
            }
            56..=67 => {
                (0..self.random.below(4)).for_each(|_| self.setting());
                let data = self.data(66);
                let code = self.random.of(&[0x1A, 0x1E, 0x1E]);
                self.command(code, &data);
                let take = self.take();
                self.call(take);
                if self.random.one_in(4) {
                    self.plan.push_back(Step::TimerEnd(0));
                }
                if code == 0x1E || self.random.one_in(4) {
                    self.plan.push_back(Step::Deliver);
                }
            }
            68..=74 => {
                (0..self.random.below(4)).for_each(|_| self.setting());
                let data = if self.random.one_in(3) { self.data(64) } else { Vec::new() };
                self.command(0x16, &data);
                self.plan.push_back(Step::Deliver);
            }
            75..=83 => {
                self.set(0x07, 0x3F);
                for register in [0x2A, 0x2C] {
                    let byte = lively(register, &mut self.random);
                    self.set(register, byte);
                }
                let control = self.random.of(&[0x02, 0x02, 0x02, 0x06, 0x07]);
                self.set(0x09, control);
                if !self.random.one_in(6) {
                    self.plan.push_back(Step::Awake);
                }
                let more = self.random.of(&[-1, -1, 0, 1, 2, 7, 300]);
                self.plan.push_back(Step::TimerEnd(more));
                for _ in 0..self.random.below(4) {
                    match self.random.below(4) {
                        0 => self.setting(),
                        1 => self.plan.push_back(Step::Get(0x0C)),
                        2 => self.set(0x09, 0x04),
                        _ => {
                            let clocks = self.random.of(&[0, 1, 1, 2, 3, 5, 8, 64, 1000, 65_535, 1 << 31, u32::MAX]);
                            self.call(Call::Advance { clocks });
                        }
                    }
                }
            }
            84..=87 => {
                for _ in 0..=self.random.below(3) {
                    let register = self.random.of(&[0x06, 0x07, 0x07, 0x09]);
                    let byte = self.random.byte();
                    self.set(register, byte);
                }
            }
            88 if self.random.one_in(4) => (0..=0x3F).for_each(|register| self.plan.push_back(Step::Get(register))),
            89 => {
                let byte = self.random.of(&[0x00, 0x07, 0x78, 0x80, 0x81, 0x85, 0xFF, 0x7F]);
                self.set(0x00, byte);
            }
            90 | 91 => {
                let code = if self.random.one_in(2) { self.random.of(&COMMANDS) } else { self.random.byte() };
                self.set(0x01, code);
            }
            92..=96 => return Some(self.corrupt(memory)),
            100..=109 => self.plan_loss(),
            110..=129 => self.plan_modes(),
            88 | 97 | 98 => {
                let register = self.random.byte() & 0x3F;
                let byte = self.random.byte();
                self.set(register, byte);
                self.plan.push_back(Step::Get(register));
            }
            _ => {
                // As either edition, at once or after others that may be refused.
                for _ in 0..self.random.below(3) {
                    let start = self.start();
                    self.call(start);
                }
                return Some(self.start());
            }
        }
        None
    }

    /// What the active command waits for, whichever way it became active.
    fn go_on(&mut self, chip: &Seen) {
        let held = usize::from(chip.fifo.held());
        if self.random.one_in(3) {
            // PrimaryStatus shows ModemState, which goes by the command.
            self.plan.push_back(Step::Get(0x03));
        }
        match chip.command {
            Command::Idle => {}
            Command::LoadKey => {
                let key = self.stored_key();
                key[held.min(11)..].iter().for_each(|&byte| self.set(0x02, byte));
            }
            Command::WriteE2(Writing::Programming { .. }) => {
                let more = self.random.of(&[-1, 0, 0, 1, 3 * PROGRAMMING, 1 << 32]);
                self.plan.push_back(Step::ProgrammingEnd(more));
            }
            Command::WriteE2(Writing::Ready { .. }) | Command::CalcCrc => {
                let data = self.data(20);
                data.iter().for_each(|&byte| self.set(0x02, byte));
            }
            Command::WriteE2(Writing::Unaddressed) | Command::ReadE2 | Command::LoadConfig | Command::LoadKeyE2 => {
                let [low, high] = self.address().to_le_bytes();
                let bytes = [low, high, self.random.of(&[1, 2, 16])];
                let wanted = if chip.command == Command::ReadE2 { 3 } else { 2 };
                bytes[held.min(2)..wanted].iter().for_each(|&byte| self.set(0x02, byte));
            }
            command if command.sends() => {
                if held == 0 {
                    let data = self.data(20);
                    data.iter().for_each(|&byte| self.set(0x02, byte));
                }
                let take = self.take();
                self.call(take);
            }
            _ => self.plan.push_back(Step::Deliver),
        }
    }

    /// More bytes than the FIFO has room for, by each of the ways in; then a call that clears the sum of lost bytes, or does not.
    fn plan_loss(&mut self) {
        let nearly = 60 + self.random.below(5) as u8;
        let any = self.random.of(&[nearly, nearly, self.random.clone().below(65) as u8]);
        let few = 1 + self.random.below(6);
        match self.random.below(200) {
            0 | 1 => self.plan.push_back(Step::Flood(720)),
            2..=49 => {
                self.plan.push_back(Step::Hold(nearly));
                for _ in 0..few {
                    let byte = self.random.byte();
                    self.set(0x02, byte);
                    if self.random.one_in(4) {
                        self.plan.push_back(Step::Get(0x02));
                    }
                }
            }
            50..=89 => {
                // ReadE2 by its code, with its arguments before others, or by its last argument.
                let [from, count] =
                    self.random.of(&[[0x00, 0x80], [0x00, 0x80], [0x01, 0x7F], [0x40, 0x40], [0x00, 0x41], [0x00, 0x40], [0x00, 0x81]]);
                self.plan.push_back(Step::Hold(0));
                let by_code = !self.random.one_in(3);
                self.set(0x01, if by_code { 0x00 } else { 0x03 });
                [from, 0x00, count].iter().for_each(|&byte| self.set(0x02, byte));
                if by_code {
                    self.plan.push_back(Step::Hold(any.max(3)));
                    self.set(0x01, 0x03);
                }
            }
            90..=149 => {
                if self.random.one_in(2) {
                    let mode = lively(0x22, &mut self.random);
                    self.set(0x22, mode);
                }
                self.plan.push_back(Step::Hold(any));
                self.set(0x01, 0x16);
                self.plan.push_back(Step::Deliver);
            }
            _ => {
                // A take of a full FIFO, bytes behind it, and a reply.
                self.plan.push_back(Step::Hold(64));
                let code = self.random.of(&[0x1A, 0x1E]);
                self.set(0x01, code);
                (0..few).for_each(|byte| self.set(0x02, byte as u8));
                let take = self.take();
                self.call(take);
                if few == 1 {
                    let behind = self.random.below(70);
                    (0..behind).for_each(|byte| self.set(0x02, byte as u8));
                }
                self.plan.push_back(Step::Deliver);
            }
        }
        match self.random.below(12) {
            0 => self.set(0x09, 0x01),
            1 => {
                let control = self.random.byte();
                self.set(0x09, control);
            }
            2 => {
                let start = self.start();
                self.call(start);
            }
            3 => {
                let stray = self.stray();
                self.call(stray);
            }
            4 => {
                let code = self.random.of(&COMMANDS);
                self.set(0x01, code);
            }
            _ => {}
        }
    }

    /// WriteE2 with data, clocks to the end of each programming, and disturbances between.
    fn plan_write(&mut self) {
        let address = self.address();
        let [low, high] = address.to_le_bytes();
        let mut bytes = vec![low, high];
        bytes.extend(if self.random.one_in(3) { self.stored_key() } else { self.data(66) });
        self.command(0x01, &bytes);
        for _ in 0..self.random.below(5) {
            match self.random.below(10) {
                0..=5 => {
                    let more = self.random.of(&[-1, -1, 0, 0, 0, 1, 5, PROGRAMMING - 1, PROGRAMMING, 2 * PROGRAMMING, 5 * PROGRAMMING]);
                    self.plan.push_back(Step::ProgrammingEnd(more));
                    if more < 0 {
                        self.call(Call::Advance { clocks: 1 });
                    }
                }
                6 => {
                    let data = self.data(24);
                    data.iter().for_each(|&byte| self.set(0x02, byte));
                }
                7 => {
                    let code = self.random.of(&COMMANDS);
                    self.set(0x01, code);
                }
                8 => self.plan.extend([Step::Get(0x05), Step::Get(0x02), Step::Get(0x07)]),
                _ => {
                    let control = self.random.of(&[0x01, 0x01, 0x00, 0x10, 0x20, 0x30]);
                    self.set(0x09, control);
                }
            }
        }
        if self.random.one_in(3) {
            self.plan.extend([Step::ProgrammingEnd(0), Step::ProgrammingEnd(0), Step::ProgrammingEnd(0)]);
            self.command(if address % 0x200 < 0x80 { 0x07 } else { 0x0B }, &[low, high]);
        }
    }

    /// Writes of Control and clocks, with a timer, a programming of several batches or a frame beside them, or with nothing.
    fn plan_modes(&mut self) {
        if self.random.one_in(2) {
            let clock = self.random.of(&[0x00, 0x00, 0x01, 0x02, 0x20, 0x21, 0x28]);
            let reload = self.random.of(&[1, 2, 5, 100, 255, 255]);
            self.set(0x2A, clock);
            self.set(0x2C, reload);
            self.set(0x09, 0x02);
        }
        let beside = self.random.below(10);
        match beside {
            0..=4 => {
                // Bytes of one block, up to its end and beyond it, and beyond the memory's.
                let address: u16 = self.random.of(&[0x010, 0x01D, 0x03F, 0x16C, 0x1E9, 0x1F0, 0x1FE, 0x1FF, 0x1FF, 0x1FF]);
                let count = self.random.of(&[0, 1, 1, 2, 3, 4, 8, 17, 20, 33]);
                let [low, high] = address.to_le_bytes();
                let bytes = [vec![low, high], self.random.bytes(count)].concat();
                if self.random.one_in(3) {
                    // In a mode from its beginning on.
                    let control = self.random.of(&[0x11, 0x21, 0x31]);
                    self.plan.extend([Step::Set(0x01, 0x00), Step::Set(0x09, control), Step::Set(0x01, 0x01)]);
                    bytes.iter().for_each(|&byte| self.set(0x02, byte));
                } else {
                    self.command(0x01, &bytes);
                }
            }
            5 | 6 => {
                let code = self.random.of(&[0x1A, 0x1E]);
                let data = self.data(4);
                self.command(code, &data);
            }
            7 => self.command(0x16, &[]),
            8 => {
                let code = self.random.of(&COMMANDS);
                self.set(0x01, code);
            }
            _ => {}
        }
        for _ in 0..3 + self.random.below(14) {
            if (5..=7).contains(&beside) && self.random.one_in(3) {
                let take = self.take();
                self.plan.push_back(if beside == 7 { Step::Deliver } else { Step::Call(take) });
            }
            match self.random.below(24) {
                0..=8 => {
                    let control = self.power_bits();
                    self.set(0x09, control);
                    if self.random.one_in(3) {
                        self.plan.push_back(Step::Get(0x09));
                    }
                }
                9 | 10 => {
                    let later = self.random.one_in(2);
                    let more = self.random.of(&[-2, -1, -1, 0, 0, 1, 2, PROGRAMMING - 1, PROGRAMMING]);
                    self.plan.push_back(Step::LeavingEnd(later, more));
                }
                11..=13 => {
                    let more = self.random.of(&[-1, -1, 0, 0, 1, 4, 512, PROGRAMMING - 1, PROGRAMMING, PROGRAMMING + 1]);
                    self.plan.push_back(Step::ProgrammingEnd(more));
                }
                14 | 15 => {
                    let leaving = self.random.of(&[0, 0, 1, 4, 4, 508, 512, 512]);
                    let programmings = self.random.of(&[0, 0, 0, PROGRAMMING, 2 * PROGRAMMING]);
                    let near = self.random.of(&[-1, 0, 0, 1, 2]);
                    self.call(Call::Advance { clocks: (leaving + programmings + near).max(0) as u32 });
                }
                16 => {
                    let clocks = self.random.of(&[0, 1, 1, 2, 3, 5, 1000, u32::MAX]);
                    self.call(Call::Advance { clocks });
                }
                17 => self.plan.push_back(Step::TimerEnd(0)),
                18 | 19 => {
                    let data = self.data(20);
                    data.iter().for_each(|&byte| self.set(0x02, byte));
                }
                20 => {
                    let code = self.random.of(&[0x00, 0x01, 0x12, 0x16, 0x1A, 0x1E, 0x3F]);
                    self.set(0x01, code);
                }
                21 => {
                    let take = self.take();
                    self.call(take);
                }
                22 => self.plan.push_back(Step::Deliver),
                _ => {
                    let register = self.random.of(&[0x03, 0x05, 0x07, 0x09, 0x0C]);
                    self.plan.push_back(Step::Get(register));
                }
            }
        }
        match self.random.below(10) {
            0..=5 => self.plan.push_back(Step::Awake),
            6 => {
                let start = self.start();
                self.call(start);
            }
            _ => {}
        }
    }

    /// A byte for Control: any of bits 5, 4, 2, 1 and 0, the power bits alone most often.
    fn power_bits(&mut self) -> u8 {
        let bits = self.random.of(&[0x00, 0x00, 0x10, 0x20, 0x30]);
        bits | match self.random.below(8) {
            0..=4 => 0,
            5 => self.random.of(&[0x01, 0x02, 0x04]),
            6 => self.random.byte() & 0x07,
            _ => self.random.byte() & 0xCF,
        }
    }

    /// A frame for the settings of now: CRC and parity right or, now and then, wrong.
    fn frame(&mut self, chip: &Seen) -> Call {
        let mode = chip.registers[0x12];
        let mut checksum = Checksum::begin(mode, chip.registers[0x13], chip.registers[0x14]);
        let mut bytes = self.data(64);
        bytes.truncate(64);
        if self.random.one_in(3) {
            // About as many as there is room for, and the CRC.
            let room = u64::from(Fifo::SIZE - chip.fifo.held());
            let count = (room + self.random.below(6)).clamp(1, 64) as usize;
            bytes = self.random.bytes(count);
        }
        if mode & 0x08 != 0 && !self.random.one_in(6) {
            let width = checksum.width();
            bytes.truncate(64 - width);
            if self.random.one_in(8) {
                bytes.clear();
            }
            bytes.iter().for_each(|&byte| checksum.add(byte));
            bytes.extend(&checksum.result().to_le_bytes()[..width]);
            if self.random.one_in(4) {
                let place = bytes.len() - 1 - self.random.below(bytes.len().min(3) as u64) as usize;
                bytes[place] ^= 1 << self.random.below(8);
            }
        }
        let odd = mode >> 1 & 1;
        let mut parities: Vec<u8> = bytes.iter().map(|byte| (byte.count_ones() as u8 ^ odd) & 1).collect();
        if self.random.one_in(3) {
            let place = match self.random.below(3) {
                0 => parities.len() - 1,
                1 => 0,
                _ => self.random.below(parities.len() as u64) as usize,
            };
            parities[place] ^= 1;
        }
        Call::Deliver { bytes, parities, last_bits: self.random.of(&[0, 0, 0, 0, 0, 1, 3, 7]) }
    }

    // ---- Memory that the caller has written into --------------------------------------------------------------------------------------

    fn corrupt(&mut self, memory: &Memory) -> Call {
        let mut edits = Vec::new();
        match self.random.below(8) {
            0 => edits.push((self.random.below(ARRAYS as u64) as u16, self.random.byte())),
            1 => {
                let place = self.random.below(ARRAYS as u64) as u16;
                let old = memory.0[usize::from(place)];
                let new = match self.random.below(3) {
                    0 => old.wrapping_add(1),
                    1 => old.wrapping_sub(1),
                    _ => old ^ 1 << self.random.below(8),
                };
                edits.push((place, new));
            }
            2 => {
                for _ in 0..=self.random.below(4) {
                    edits.push((self.random.below(SIZE as u64) as u16, self.random.byte()));
                }
            }
            3 => {
                // Registers, slots, latch, key, and some of the EEPROM: any bytes are well formed, but for the EEPROM's first four.
                for _ in 0..=self.random.below(4) {
                    edits.push((ARRAYS as u16 + self.random.below(150) as u16, self.random.byte()));
                }
            }
            4 => (0..=self.random.below(3)).for_each(|_| self.forge(&mut edits)),
            _ => self.forge(&mut edits),
        }
        self.mend_in = 2 + self.random.below(8);
        if self.random.one_in(3) {
            self.mend_in = 0;
        }
        self.plan.clear();
        self.plan.extend(self.after_forging.drain(..));
        Call::Corrupt { edits }
    }

    /// Writes one part of a chip anew: well formed, or just not.
    fn forge(&mut self, edits: &mut Vec<(u16, u8)>) {
        let random = &mut self.random;
        let mut put = |name: &str, value: u32| {
            let (start, length) = field(name).unwrap_or_else(|| panic!("no field {name}"));
            edits.extend((0..length).map(|place| ((start + place) as u16, value.checked_shr(8 * place as u32).unwrap_or(0) as u8)));
        };
        match random.below(20) {
            0 | 1 => {
                let prescaler = random.of(&[0, 0, 1, 2, 5, 12, 20, 21, 21, 22, 23, 31, 32, 33, 53, 64, 128, 254, 255]);
                let period = 1u32.checked_shl(prescaler).unwrap_or(0);
                put("timer_running", random.of(&[1, 1, 1, 1, 1, 1, 2, 255, 0]));
                put("timer_value", random.of(&[0, 1, 1, 1, 2, 3, 100, 255]));
                put("timer_prescaler", prescaler);
                let within = random.below(u64::from(period).max(1)) as u32;
                put("timer_phase", random.of(&[0, within, within, period.wrapping_sub(1), period.wrapping_sub(1), period, u32::MAX]));
            }
            2 => {
                put("timer_running", 0);
                put("timer_value", u32::from(random.byte()));
                put("timer_prescaler", random.of(&[0, 0, 0, 0, 1, 21, 128]));
                put("timer_phase", random.of(&[0, 0, 0, 0, 1, 0x0100, 0x1_0000, 0x100_0000]));
            }
            3..=5 => {
                // WriteE2 with a batch, or a little beside it.
                let next = batch_end(random);
                let fitting = (next + 15) % 16 + 1;
                let within = 1 + random.below(u64::from(fitting)) as u32;
                let any = random.below(u64::from(PROGRAMMING_CLOCKS)) as u32;
                put("stage", random.of(&[0x01, 0x01, 0x01, 0x41, 0x41, 0x41, 0x41, 0x41, 0x81, 0xC1, 0x00, 0x03, 0x12]));
                put("next_address", next);
                put(
                    "latched",
                    random.of(&[fitting, fitting, within, within, 1, fitting + 1, 1 + random.clone().below(16) as u32, 0, 16, 17, 255]),
                );
                let most = PROGRAMMING_CLOCKS;
                let left = [any, any, 1, 1, 1, 2, 65_535, 65_536, most, most, most + 1, 0, 0, 0x100_0001, 0x8000_0000, u32::MAX];
                put("programming_left", random.of(&left));
                if random.one_in(3) {
                    let (read, held) = (random.byte(), random.of(&[0, 0, 1, 2, 16, 63, 64, 64, 65, 128, 255]));
                    put("fifo_read", u32::from(read));
                    put("fifo_write", u32::from(read.wrapping_add(held)));
                }
            }
            6 => {
                // A latched count left over, and then WriteE2 again, or the end of one.
                let next = batch_end(random);
                let fitting = (next + 15) % 16 + 1;
                put("stage", u32::from(random.of(&STAGES)));
                put("next_address", next);
                put("latched", random.of(&[fitting, fitting, 1, 16, 17, 255]));
                put("programming_left", random.of(&[0, 0, 0, 0, 0, 0, 0, 1]));
                let read = random.byte();
                put("fifo_read", u32::from(read));
                put("fifo_write", u32::from(read.wrapping_add(random.of(&[0, 0, 0, 0, 1, 2, 64]))));
                let code = random.of(&[None, Some(0x01), Some(0x01), Some(0x12), Some(0x00)]);
                self.after_forging = code.map(|code| Step::Set(0x01, code)).into_iter().collect();
            }
            7..=9 => {
                // A stage, and about as many bytes as may wait.
                let stage = match random.below(6) {
                    0 => random.byte(),
                    1 => random.of(&COMMANDS) | random.of(&[0x40, 0x80, 0xC0]),
                    _ => random.of(&STAGES),
                };
                let limit = match stage & 0x3F {
                    0x01 => random.of(&[0, 1]),
                    0x07 | 0x0B => 1,
                    0x03 => 2,
                    0x12 => 0,
                    0x19 => 11,
                    _ => 64,
                };
                let read = random.byte();
                let held = random.of(&[0, 0, 0, limit, limit, limit, limit + 1, 64, 65, 128, 255]);
                put("stage", u32::from(stage));
                put("fifo_read", u32::from(read));
                put("fifo_write", u32::from(read.wrapping_add(held)));
                put("programming_left", 0);
                if random.one_in(2) {
                    put("latched", 0);
                }
                put("error_flag", u32::from(random.byte() & 0x7A));
            }
            10 => {
                put("crc_mode", u32::from(random.byte()));
                let value = random.of(&[random.clone().byte() as u32, random.clone().number() as u32, 0xFF, 0x100]);
                put("crc_register", value);
            }
            11 => put("next_address", batch_end(random)),
            12 | 13 => {
                // The edition's number and the type bytes: of one edition, of the other, of none.
                let edition = random.of(&Edition::BOTH);
                let own = edition as u8;
                let number = random.of(&[own, own, own, own, 1 - own, 1 - own, 2, 3, 0x80, 0xFF, random.clone().byte()]);
                let mut bytes = edition.type_bytes();
                match random.below(6) {
                    0 => bytes[random.below(4) as usize] ^= 1 << random.below(8),
                    1 => bytes = near_type(random),
                    2 => bytes = type_by_arithmetic(number),
                    _ => {}
                }
                put("edition", u32::from(number));
                let (start, _) = field("eeprom").unwrap_or_default();
                edits.extend((start as u16..).zip(bytes));
                if random.one_in(3) {
                    // The version, of which any is well formed.
                    edits.push((start as u16 + 4, random.byte()));
                }
            }
            14 | 15 => {
                // A sum of lost bytes beside any FIFOOvfl, with a FIFO that is full, or nearly, or not. The first held are ReadE2's arguments.
                let sum = if random.one_in(4) { random.number() as u16 } else { random.of(&SUMS) };
                put("lost_sum", u32::from(sum));
                put("error_flag", u32::from(random.byte() & 0x7A));
                let read = random.byte();
                let held = random.of(&[0, 2, 61, 62, 63, 64, 64, 64]);
                put("stage", random.of(&[0x00, 0x00, 0x00, 0x96, 0x9E, 0x5A]));
                put("programming_left", 0);
                put("fifo_read", u32::from(read));
                put("fifo_write", u32::from(read.wrapping_add(held)));
                let (slots, _) = field("slots").unwrap_or_default();
                edits.extend((0..3).map(|place| (slots as u16 + u16::from(read.wrapping_add(place) % 64), MOST_READ[usize::from(place)])));
                self.after_forging = match random.below(4) {
                    0 => vec![Step::Set(0x01, 0x03)],
                    1 => vec![Step::Set(0x02, random.byte()), Step::Set(0x02, random.byte())],
                    2 => vec![Step::Set(0x01, 0x16), Step::Deliver],
                    _ => Vec::new(),
                };
            }
            16 | 17 => {
                // Power modes: of each the bit and the number, mostly such as belong together, over a programming with any clocks left, or over none.
                let programs = random.one_in(2);
                let left = random.of(&[1, 1, 2, 3, 5, 78_647, 78_648, random.clone().below(78_648) as u32 + 1]);
                if programs {
                    let latched = 1 + random.below(16) as u32;
                    put("stage", random.of(&[0x01, 0x41]));
                    put("latched", latched);
                    put("next_address", random.of(&[0x030, 0x030, 0x170, 0x000]));
                }
                put("programming_left", if programs { left } else { 0 });
                let mut control = 0;
                for (place, name) in ["stand_by", "power_down"].into_iter().enumerate() {
                    let whole = power::LEAVING[place];
                    let some = 1 + random.below(whole.into()) as u16;
                    let (bit, number) = match random.below(12) {
                        0..=2 => (false, 0),
                        3 | 4 => (true, HOLD),
                        5 | 6 => (true, HOLD + random.of(&[1, some, some, whole])),
                        7 | 8 => (true, 0),
                        9 => (random.one_in(2), HOLD + random.of(&[0, whole, whole + 1])),
                        10 => (random.one_in(2), random.of(&[1, some, whole])),
                        _ => (random.one_in(2), if random.one_in(2) { random.of(&NUMBERS) } else { random.number() as u16 }),
                    };
                    control |= if bit { power::BITS[place] } else { 0 };
                    put(name, u32::from(number));
                }
                put("control", u32::from(control));
                self.after_forging = match random.below(4) {
                    0 => vec![Step::Set(0x09, random.of(&[0x00, 0x10, 0x20, 0x30])), Step::LeavingEnd(false, 0)],
                    1 => vec![Step::LeavingEnd(random.one_in(2), random.of(&[-1, 0, 1, 2])), Step::ProgrammingEnd(0)],
                    2 => vec![Step::ProgrammingEnd(random.of(&[-1, 0, 1, 600]))],
                    _ => Vec::new(),
                };
            }
            18 => {
                let name = random.of(&["reserved_number", "reserved_17"]);
                let (start, length) = field(name).unwrap_or_default();
                for place in start..start + length {
                    if random.one_in(2) {
                        edits.push((place as u16, random.byte()));
                    }
                }
            }
            _ => {
                let (name, mask) = random.of(&[
                    ("page", 0x87),
                    ("error_flag", 0x7A),
                    ("control", 0x30),
                    ("interrupt_en", 0x3F),
                    ("interrupt_rq", 0x3F),
                    ("rx_last_bits", 0x07),
                    ("key_loaded", 0x01),
                    ("bit_framing", 0xFF),
                ]);
                let byte = random.byte() & mask;
                let byte = if random.one_in(3) { byte ^ 1 << random.below(8) } else { byte };
                put(name, u32::from(byte));
            }
        }
    }
}

/// A delivery whose bytes all pass, whatever the settings are: with last bits no CRC is dropped.
fn pass_whole(bytes: Vec<u8>) -> Step {
    Step::Call(Call::Deliver { parities: vec![0; bytes.len()], bytes, last_bits: 1 })
}

/// A next address, at the ends of blocks and of the memory, and beyond it. Before it stand (next + 15) mod 16 + 1 bytes of its block.
fn batch_end(random: &mut Random) -> u32 {
    match random.below(4) {
        0 => random.of(&[0x000, 0x001, 0x00F, 0x010, 0x011, 0x012, 0x01F, 0x020, 0x021, 0x1F0, 0x1FF]),
        1 => random.of(&[0x1FF, 0x1FF, 0x200, 0x200, 0x201, 0x20F, 0x210, 0x400, 0x8000, 0xFE20, 0xFFF0, 0xFFFF]),
        2 => 16 * random.below(33) as u32,
        _ => random.below(0x200) as u32,
    }
}
