//! What a run has reached, for its last line.

use crate::answer;
use crate::call::Call;
use crate::chip_memory::{NOT_HELD, NO_BIT, NO_EDITION, NO_HOLD, OTHER_TYPE, OVER_COUNT};
use crate::plain::{error, power, request, Command, Edition, FaultyChip, Mode, Writing};
use crate::registers::{COMMAND, CONTROL};
use std::fmt;

const COMMANDS: [(u8, &str); 9] = [
    (0x01, "WriteE2"),
    (0x03, "ReadE2"),
    (0x07, "LoadConfig"),
    (0x0B, "LoadKeyE2"),
    (0x12, "CalcCRC"),
    (0x16, "Receive"),
    (0x19, "LoadKey"),
    (0x1A, "Transmit"),
    (0x1E, "Transceive"),
];

/// What is looked at of a chip before and after a call.
#[derive(Clone, Copy)]
pub struct Glance {
    edition: Edition,
    command: Command,
    errors: u8,
    lost_sum: u16,
    requests: u8,
    runs: bool,
    page: u8,
    held: u8,
    modes: [Mode; 2],
    /// A programming stands still of which clocks have passed.
    begun: bool,
}

impl Glance {
    pub fn of<const FAULT: u8>(chip: &FaultyChip<FAULT>) -> Self {
        Glance {
            edition: chip.edition,
            command: chip.command,
            errors: chip.errors,
            lost_sum: chip.lost_sum,
            requests: chip.requests,
            runs: chip.timer.run.is_some(),
            page: chip.page,
            held: chip.fifo.held(),
            modes: chip.modes,
            begun: chip.stands_begun(),
        }
    }

    /// The byte, if the call is a write to this register, which is no Page.
    fn written(&self, call: &Call, register: u8) -> Option<u8> {
        let Call::Write { address, byte } = call else { return None };
        let pages = self.page & 0x80 != 0;
        let meant = if pages { address % 8 == register % 8 && self.page & 7 == register / 8 } else { *address == register };
        (meant && *address < 64).then_some(*byte)
    }

    /// The code, if the call is a write to Command that counts.
    fn written_command(&self, call: &Call) -> Option<u8> {
        self.written(call, COMMAND).filter(|_| !self.command.programs()).map(|byte| byte & 0x3F)
    }

    fn holds(&self) -> bool {
        self.modes.iter().any(|mode| mode.holds())
    }
}

#[derive(Default)]
pub struct Statistics {
    pub calls: u64,
    pub lists: u64,
    events: [u64; 8],
    pub refusals: [u64; 23],
    /// Calls on well-formed chips of each edition, and accepted starts as each.
    pub on: [u64; 2],
    pub started: [u64; 2],
    /// Accepted starts of a well-formed chip as the other edition.
    pub changed: u64,
    /// Calls refused with 7 because of the edition alone: its number is none's, the type bytes are not its own.
    pub by_edition: [u64; 2],
    /// Ends by itself, without and with an error flag set by it.
    ended: [[u64; 2]; 9],
    left: [u64; 9],
    unknown: u64,
    programmings: u64,
    chained: u64,
    timer_ends: u64,
    timer_restarts: u64,
    overflows: u64,
    pub losses: Losses,
    pub modes: Modes,
    still_formed: u64,
    malformed: u64,
}

/// Lost bytes and their sums, on well-formed chips.
#[derive(Default)]
pub struct Losses {
    /// Calls that lost bytes: writes of FIFOData, of Command, of ReadE2's last argument; deliveries.
    pub calls: [u64; 4],
    pub bytes: u64,
    /// The most that one call lost.
    pub most: u8,
    /// Calls after which the sum is at its limit; those that brought it there, and of them those from 0 on by calls alone; those that lost more than it
    /// had room for.
    pub limit: [u64; 4],
    /// Since the sum was 0, no write into the chip's memory has changed it.
    alone: bool,
    /// Sums above 0 that a flush cleared, or a start.
    pub cleared: [u64; 2],
    /// Takes, writes of Command and refused calls that left a sum above 0.
    pub left: [u64; 3],
    /// Calls on chips whose FIFOOvfl is clear beside a sum above 0, or set beside 0: no start leads there.
    pub apart: [u64; 2],
}

impl Losses {
    /// What stands in the chip after any step of a list, an event or not.
    fn follow(&mut self, event: bool, before: Option<Glance>, after: Option<Glance>) {
        let sum = |glance: Option<Glance>| glance.map(|glance| glance.lost_sum);
        self.alone = sum(after) == Some(0) || self.alone && (event || sum(before) == sum(after));
    }

    fn count(&mut self, call: &Call, answer: u32, before: Glance, after: Glance) {
        let lost = answer::lost(answer);
        let accepted = answer & 0xFF == 0;
        let commands = before.written_command(call).is_some();
        let add = |to: &mut u64, holds: bool| *to += u64::from(holds);
        let (overflowed, summed) = (before.errors & error::OVERFLOW != 0, before.lost_sum > 0);
        add(&mut self.apart[0], summed && !overflowed);
        add(&mut self.apart[1], overflowed && !summed);
        let leaves = summed && after.lost_sum >= before.lost_sum;
        add(&mut self.left[0], leaves && accepted && matches!(call, Call::Take { .. }));
        add(&mut self.left[1], leaves && accepted && commands);
        add(&mut self.left[2], leaves && !accepted);
        let starts = matches!(call, Call::Start { .. });
        add(&mut self.cleared[usize::from(starts)], summed && after.lost_sum == 0);
        let limited = |sum: u16| sum == u16::MAX;
        add(&mut self.limit[0], limited(after.lost_sum));
        let reached = limited(after.lost_sum) && !limited(before.lost_sum);
        add(&mut self.limit[1], reached);
        add(&mut self.limit[2], reached && self.alone);
        add(&mut self.limit[3], before.lost_sum.checked_add(lost.into()).is_none());
        if lost > 0 {
            let place = match call {
                Call::Deliver { .. } => 3,
                _ if commands => 1,
                _ if before.command == Command::ReadE2 => 2,
                _ => 0,
            };
            self.calls[place] += 1;
            self.bytes += u64::from(lost);
            self.most = self.most.max(lost);
        }
    }
}

impl fmt::Display for Losses {
    fn fmt(&self, out: &mut fmt::Formatter<'_>) -> fmt::Result {
        let [data, commands, arguments, deliveries] = self.calls;
        write!(out, "bytes lost by {data} writes of FIFOData, {commands} of Command, {arguments} of ReadE2's last argument and {deliveries} deliveries: ")?;
        write!(out, "{} bytes, up to {} in a call", self.bytes, self.most)?;
        let [at, reached, alone, beyond] = self.limit;
        write!(out, "; their sum at its limit after {at} calls, brought there by {reached}, {alone} times from 0 by calls alone, ")?;
        write!(out, "and passed by {beyond}")?;
        let [flushes, starts] = self.cleared;
        write!(out, "; sums cleared by {flushes} flushes and {starts} starts")?;
        let [takes, commands, refused] = self.left;
        write!(out, ", left by {takes} takes, {commands} writes of Command and {refused} refused calls")?;
        let [clear, set] = self.apart;
        write!(out, "; calls with a sum above 0 and FIFOOvfl clear {clear}, with a sum of 0 and FIFOOvfl set {set}")
    }
}

/// What can become of a power mode, by its state: in a write of Control that has its bit 1 or 0, and in an advance by at least one clock.
pub const ROWS: [&str; 18] = [
    "off, 1: in hold",
    "off, 1 over a programming that runs: waits",
    "off, 1 over a programming that stands still: waits",
    "off, 0",
    "off, clocks",
    "waits, 1",
    "waits, 0: off",
    "waits, clocks before the programming's end",
    "waits, clocks to the end of all: in hold",
    "waits, clocks to the end of a batch before another: in hold",
    "waits, clocks to the end before block 0: in hold",
    "in hold, 1",
    "in hold, 0: being left",
    "in hold, clocks",
    "being left, 1: in hold",
    "being left, 0",
    "being left, clocks, some to go",
    "being left, clocks, off",
];

/// Power modes, on well-formed chips.
#[derive(Default)]
pub struct Modes {
    /// How often each row was met, for StandBy and for PowerDown.
    pub rows: [[u64; ROWS.len()]; 2],
    /// Takes and deliveries that a mode alone has refused, in hold, and while every mode that is not off is being left.
    pub takes: [u64; 2],
    pub deliveries: [u64; 2],
    /// Writes of Command that were ignored over a programming that stands still, and batches latched in hold by a write.
    pub ignored: u64,
    pub latched: u64,
    /// Advances in a hold or into one while a timer runs, and advances in which both modes were left.
    pub kept: u64,
    pub both: u64,
    /// Flushes, stops and starts of the timer in a hold.
    pub controls: [u64; 3],
    /// Accepted starts out of a mode that was not off.
    pub started: u64,
    /// Calls on programmings that stand still with clocks behind them, which no start leads to.
    pub begun: u64,
    /// Calls refused with 7 by each clause on modes.
    pub refused: [u64; 4],
}

impl Modes {
    fn count(&mut self, call: &Call, answer: u32, before: Glance, after: Glance) {
        let accepted = answer & 0xFF == 0;
        let add = |to: &mut u64, holds: bool| *to += u64::from(holds);
        let holds = before.holds();
        let programs = before.command.programs();
        add(&mut self.begun, before.begun);
        add(&mut self.started, accepted && matches!(call, Call::Start { .. }) && before.modes != [Mode::Off; 2]);
        // A take or a delivery that nothing but a mode has refused.
        let held = before.modes.contains(&Mode::Held);
        let by_mode = holds && answer == 4;
        add(&mut self.takes[usize::from(!held)], by_mode && matches!(call, Call::Take { .. }) && before.command.sends() && before.held > 0);
        add(&mut self.deliveries[usize::from(!held)], by_mode && matches!(call, Call::Deliver { .. }) && before.command.receives());
        let command = before.written(call, COMMAND).is_some();
        add(&mut self.ignored, holds && programs && command);
        add(&mut self.latched, holds && !programs && after.command.programs());
        let control = before.written(call, CONTROL);
        for (place, bit) in [1, 4, 2].into_iter().enumerate() {
            add(&mut self.controls[place], holds && control.is_some_and(|byte| byte & bit != 0));
        }
        let clocks = match call {
            Call::Advance { clocks } => *clocks,
            _ => 0,
        };
        add(&mut self.kept, before.runs && clocks > 0 && (holds || after.holds()));
        add(&mut self.both, before.modes.iter().all(|mode| mode.holds()) && clocks > 0 && after.modes == [Mode::Off; 2]);
        for place in 0..2 {
            let row = match control {
                Some(byte) => row_of_write(before, place, byte & power::BITS[place] != 0),
                None if clocks > 0 => row_of_clocks(before, after, place),
                None => continue,
            };
            self.rows[place][row] += 1;
        }
    }
}

/// The row of a write of a power bit.
fn row_of_write(before: Glance, place: usize, bit: bool) -> usize {
    match (before.modes[place], bit) {
        (Mode::Off, true) => match (before.command.programs(), before.holds()) {
            (false, _) => 0,
            (true, false) => 1,
            (true, true) => 2,
        },
        (Mode::Off, false) => 3,
        (Mode::Waiting, true) => 5,
        (Mode::Waiting, false) => 6,
        (Mode::Held, true) => 11,
        (Mode::Held, false) => 12,
        (Mode::Leaving { .. }, true) => 14,
        (Mode::Leaving { .. }, false) => 15,
    }
}

/// The row of clocks given, which bring a mode no further than from one state to the next.
fn row_of_clocks(before: Glance, after: Glance, place: usize) -> usize {
    match (before.modes[place], after.modes[place]) {
        (Mode::Off, _) => 4,
        (Mode::Waiting, Mode::Held) => match after.command {
            Command::WriteE2(Writing::Programming { .. }) => 9,
            Command::WriteE2(_) => 8,
            _ => 10,
        },
        (Mode::Waiting, _) => 7,
        (Mode::Held, _) => 13,
        (Mode::Leaving { .. }, Mode::Off) => 17,
        (Mode::Leaving { .. }, _) => 16,
    }
}

impl fmt::Display for Modes {
    fn fmt(&self, out: &mut fmt::Formatter<'_>) -> fmt::Result {
        write!(out, "StandBy/PowerDown")?;
        let [stand_by, power_down] = &self.rows;
        for (place, row) in ROWS.iter().enumerate() {
            write!(out, "{} {row} {}/{}", if place == 0 { "" } else { "," }, stand_by[place], power_down[place])?;
        }
        let ([takes, takes_left], [deliveries, deliveries_left]) = (self.takes, self.deliveries);
        write!(out, "; refused with 4 by a mode alone in hold {takes} takes and {deliveries} deliveries, ")?;
        write!(out, "being left {takes_left} and {deliveries_left}")?;
        let [flushes, stops, starts] = self.controls;
        write!(
            out,
            "; in a hold {flushes} flushes, {stops} stops and {starts} starts of the timer, {} batches latched by a write",
            self.latched
        )?;
        write!(out, ", {} Command writes ignored", self.ignored)?;
        write!(out, "; advances in a hold or into one while a timer runs {}, with both modes left {}", self.kept, self.both)?;
        write!(
            out,
            "; starts out of a mode {}, calls on a programming that stands still with clocks behind it {}",
            self.started, self.begun
        )?;
        let [not_held, no_bit, no_hold, over_count] = self.refused;
        write!(
            out,
            "; 7 by the modes: no hold and no programming {not_held}, no bit {no_bit}, no hold {no_hold}, over the count {over_count}"
        )
    }
}

impl Statistics {
    /// Counts a call with what it answered. `malformed` is why the chip was malformed before it, if it was.
    pub fn count(&mut self, call: &Call, answer: u32, before: Option<Glance>, after: Option<Glance>, malformed: Option<&str>) {
        self.calls += 1;
        let event = match call {
            Call::Start { .. } => 0,
            Call::Read { .. } => 1,
            Call::Write { .. } => 2,
            Call::Advance { .. } => 3,
            Call::Take { .. } => 4,
            Call::Deliver { .. } => 5,
            Call::Corrupt { .. } => 6,
            Call::Mend => 7,
        };
        self.events[event] += 1;
        self.losses.follow(event < 6, before, after);
        if let Call::Corrupt { .. } = call {
            *(if after.is_some() { &mut self.still_formed } else { &mut self.malformed }) += 1;
        }
        if event >= 6 {
            return;
        }
        let refusal = (answer & 0xFF) as usize;
        if let Some(count) = self.refusals.get_mut(refusal) {
            *count += 1;
        }
        if let (7, Some(place)) = (refusal, [NO_EDITION, OTHER_TYPE].iter().position(|reason| malformed == Some(*reason))) {
            self.by_edition[place] += 1;
        }
        let clauses = [NOT_HELD, NO_BIT, NO_HOLD, OVER_COUNT];
        if let (7, Some(place)) = (refusal, clauses.iter().position(|reason| malformed == Some(*reason))) {
            self.modes.refused[place] += 1;
        }
        if let Some(before) = before {
            self.on[before.edition as usize] += 1;
        }
        if let (0, 0, Some(after)) = (event, refusal, after) {
            self.started[after.edition as usize] += 1;
            self.changed += u64::from(before.is_some_and(|before| before.edition != after.edition));
        }
        let (Some(before), Some(after)) = (before, after) else { return };
        self.losses.count(call, answer, before, after);
        self.modes.count(call, answer, before, after);
        if event == 0 || refusal != 0 {
            return;
        }
        let place = |code: u8| COMMANDS.iter().position(|(known, _)| *known == code);
        let errors = after.errors & !before.errors;
        let running = match before.written_command(call) {
            Some(code) => {
                if let Some(place) = place(before.command.code()) {
                    self.left[place] += 1;
                }
                self.unknown += u64::from(Command::of_code(code).is_none());
                code
            }
            None => before.command.code(),
        };
        if after.command == Command::Idle {
            if let Some(place) = place(running) {
                let failure = match running {
                    0x0B | 0x19 => error::KEY,
                    _ => error::ACCESS | error::CRC | error::PARITY,
                };
                let failed = after.errors & failure != 0;
                self.ended[place][usize::from(failed)] += 1;
            }
        }
        self.overflows += u64::from(errors & error::OVERFLOW != 0);
        if let (Call::Advance { .. }, Command::WriteE2(Writing::Programming { next, .. })) = (call, before.command) {
            // Another batch has another address behind it.
            let ended = !matches!(after.command, Command::WriteE2(Writing::Programming { next: later, .. }) if later == next);
            self.programmings += u64::from(ended);
            self.chained += u64::from(ended && after.command.programs());
        }
        if event == 3 && after.requests & !before.requests & request::TIMER != 0 {
            self.timer_ends += 1;
            self.timer_restarts += u64::from(after.runs);
        }
    }
}

impl fmt::Display for Statistics {
    fn fmt(&self, out: &mut fmt::Formatter<'_>) -> fmt::Result {
        let names = ["start", "read", "write", "advance", "take", "deliver", "corrupt", "mend"];
        write!(out, "{} calls in {} lists:", self.calls, self.lists)?;
        names.iter().zip(self.events).try_for_each(|(name, count)| write!(out, " {name} {count}"))?;
        write!(out, "; refused with")?;
        (1..8).chain([22]).try_for_each(|number| write!(out, " {number}: {}", self.refusals[number]))?;
        let [numbers, types] = self.by_edition;
        write!(out, "; 7 by the edition alone: no edition's number {numbers}, not its type bytes {types}")?;
        let ([calls_531, calls_530], [starts_531, starts_530]) = (self.on, self.started);
        write!(out, "; calls on an MFRC531 {calls_531}, on an MF RC530 {calls_530}")?;
        write!(out, "; starts as an MFRC531 {starts_531}, as an MF RC530 {starts_530}, {} of them change the edition", self.changed)?;
        write!(out, "; commands ended by themselves well/with an error/left for another:")?;
        for (place, (_, name)) in COMMANDS.iter().enumerate() {
            write!(out, " {name} {}/{}/{}", self.ended[place][0], self.ended[place][1], self.left[place])?;
        }
        write!(out, ", unknown codes {}", self.unknown)?;
        write!(out, "; programmings ended {}, {} of them into the next", self.programmings, self.chained)?;
        write!(out, "; timer ends {}, {} of them restarted", self.timer_ends, self.timer_restarts)?;
        write!(out, "; overflows {}; {}; {}", self.overflows, self.losses, self.modes)?;
        write!(out, "; corruptions: {} malformed, {} not", self.malformed, self.still_formed)
    }
}
