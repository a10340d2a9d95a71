//! A waveform of a chip over clocks, as a value change dump (IEEE 1364) that GTKWave shows.
use crate::registers::linear_copy;
use mfrc531::bits::primary_status::{MODEM_STATE, MODEM_STATE_SHIFT};
use mfrc531::bits::timer_clock::T_AUTO_RESTART;
use mfrc531::{Chip, PowerMode, Register};
use std::fs::File;
use std::io::{self, BufWriter, Write};
use std::path::Path;

/// What the waveform shows of a chip.
#[derive(Clone, Copy, PartialEq, Eq)]
struct Seen {
    values: [u16; SIGNALS.len()],
}

/// Name, number of bits, and identifier in the file.
const SIGNALS: [(&str, usize, char); 10] = [
    ("IRq", 1, 'i'),
    ("E2Ready", 1, 'e'),
    ("TRunning", 1, 't'),
    ("held", 7, 'h'),
    ("timer_value", 8, 'v'),
    ("command", 6, 'c'),
    ("ModemState", 3, 'm'),
    ("lost_sum", 16, 'l'),
    ("StandBy", 2, 's'),
    ("PowerDown", 2, 'p'),
];

impl Seen {
    fn of(chip: &Chip) -> Seen {
        let memory = chip.memory();
        Seen {
            values: [
                u16::from(memory.interrupt_en & memory.interrupt_rq & 0x3F != 0),
                u16::from(memory.programming_left == 0),
                u16::from(memory.timer_running != 0),
                memory.held().into(),
                memory.timer_value.into(),
                (memory.stage & 0x3F).into(),
                modem_state(chip).into(),
                memory.lost_sum,
                power_mode(chip.stand_by_mode()),
                power_mode(chip.power_down_mode()),
            ],
        }
    }
}

/// ModemState, which is no part of the chip's memory: it is what a read of PrimaryStatus shows.
fn modem_state(chip: &Chip) -> u8 {
    let status = linear_copy(chip).read(Register::PrimaryStatus).unwrap_or(0);
    (status & MODEM_STATE) >> MODEM_STATE_SHIFT
}

/// A power mode in two bits.
fn power_mode(mode: Option<PowerMode>) -> u16 {
    match mode {
        None | Some(PowerMode::Off) => 0,
        Some(PowerMode::Waiting) => 1,
        Some(PowerMode::Hold) => 2,
        Some(PowerMode::Leaving(_)) => 3,
    }
}

fn power_modes(chip: &Chip) -> impl Iterator<Item = PowerMode> {
    [chip.stand_by_mode(), chip.power_down_mode()].into_iter().flatten()
}

/// Clocks up to which no signal changes: those of the timer's step and of the programming, whichever ends first; while a power mode has hold, those
/// of the leaving that ends first. A mode that waits takes hold where the programming ends.
pub fn clocks_to_change(chip: &Chip) -> u32 {
    let memory = chip.memory();
    let held = power_modes(chip).filter_map(|mode| match mode {
        PowerMode::Off | PowerMode::Waiting => None,
        PowerMode::Hold => Some(u32::MAX),
        PowerMode::Leaving(clocks) => Some(clocks.into()),
    });
    if let Some(left) = held.min() {
        return left;
    }
    let step = if memory.timer_running == 0 { u32::MAX } else { (1 << memory.timer_prescaler) - memory.timer_phase };
    let programming = if memory.programming_left == 0 { u32::MAX } else { memory.programming_left };
    step.min(programming)
}

/// Of so many clocks, those that reach the timer: none while a power mode has hold, so only those after the leavings; and where a mode waits, those up
/// to the programming's end.
fn reaching(chip: &Chip, clocks: u32) -> u32 {
    let (mut before, mut most) = (0, u32::MAX);
    for mode in power_modes(chip) {
        match mode {
            PowerMode::Off => {}
            PowerMode::Waiting => most = chip.memory().programming_left,
            PowerMode::Hold => return 0,
            PowerMode::Leaving(left) => before = before.max(left.into()),
        }
    }
    clocks.saturating_sub(before).min(most)
}

/// Timer steps that so many clocks make.
pub fn timer_steps(chip: &Chip, clocks: u32) -> u64 {
    let memory = chip.memory();
    if memory.timer_running == 0 {
        return 0;
    }
    let steps = (u64::from(memory.timer_phase) + u64::from(reaching(chip, clocks))) >> memory.timer_prescaler;
    let (timer_clock, reload) = (memory.registers[0x2A - 0x10], memory.registers[0x2C - 0x10]);
    if timer_clock & T_AUTO_RESTART != 0 && reload != 0 {
        steps
    } else {
        steps.min(memory.timer_value.into())
    }
}

pub struct Waveform {
    file: BufWriter<File>,
    /// The latest time written, and what the chip was then.
    time: u128,
    seen: Option<Seen>,
}

/// When a clock begins: 13.56 MHz is 339 clocks in 25 microseconds. Each time is rounded by itself, so no error adds up.
fn picoseconds(clock: u64) -> u128 {
    (u128::from(clock) * 25_000_000 + 169) / 339
}

impl Waveform {
    pub fn create(name: &Path) -> io::Result<Waveform> {
        let mut file = BufWriter::new(File::create(name)?);
        writeln!(file, "$version mfrc531 {} $end", env!("CARGO_PKG_VERSION"))?;
        writeln!(file, "$comment")?;
        writeln!(
            file,
            "  The clock is 13.56 MHz, 73.746.. ns, which no time scale divides: clock n stands at n * 25000000 / 339 ps, rounded."
        )?;
        writeln!(file, "  Calls at one clock stand 1 ps apart, in their order. IRq, ModemState: of PrimaryStatus. held: bytes in the FIFO. command: the code in Command.")?;
        writeln!(file, "  lost_sum: bytes lost since the latest flush or start, at most 65535.")?;
        writeln!(file, "  StandBy, PowerDown: 0 off, 1 waits for the programming, 2 in hold, 3 being left.")?;
        writeln!(file, "$end")?;
        writeln!(file, "$timescale 1 ps $end")?;
        writeln!(file, "$scope module mfrc531 $end")?;
        for (name, bits, identifier) in SIGNALS {
            let range = if bits == 1 { String::new() } else { format!(" [{}:0]", bits - 1) };
            writeln!(file, "$var wire {bits} {identifier} {name}{range} $end")?;
        }
        writeln!(file, "$upscope $end")?;
        writeln!(file, "$enddefinitions $end")?;
        Ok(Waveform { file, time: 0, seen: None })
    }

    /// Writes what has changed at a clock.
    pub fn sample(&mut self, clock: u64, chip: &Chip) -> io::Result<()> {
        let seen = Seen::of(chip);
        let Some(before) = self.seen.replace(seen) else {
            self.time = picoseconds(clock);
            writeln!(self.file, "#{}\n$dumpvars", self.time)?;
            self.values(&seen, None)?;
            return writeln!(self.file, "$end");
        };
        if before == seen {
            return Ok(());
        }
        // A call comes after those before it, and still within its clock.
        let time = picoseconds(clock).max((self.time + 1).min(picoseconds(clock + 1) - 1));
        if time > self.time {
            self.time = time;
            writeln!(self.file, "#{time}")?;
        }
        self.values(&seen, Some(&before))
    }

    fn values(&mut self, seen: &Seen, before: Option<&Seen>) -> io::Result<()> {
        for (place, (_, bits, identifier)) in SIGNALS.iter().enumerate() {
            let value = seen.values[place];
            if before.is_some_and(|before| before.values[place] == value) {
                continue;
            }
            match bits {
                1 => writeln!(self.file, "{value}{identifier}")?,
                _ => writeln!(self.file, "b{value:b} {identifier}")?,
            }
        }
        Ok(())
    }

    pub fn flush(&mut self) -> io::Result<()> {
        self.file.flush()
    }

    /// The last time of the file, so that the last values are seen to last.
    pub fn finish(&mut self, clock: u64) -> io::Result<()> {
        let time = picoseconds(clock).max(self.time + 1);
        writeln!(self.file, "#{time}")?;
        self.file.flush()
    }
}
