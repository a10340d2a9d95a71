//! A chip as a person reads it.
use crate::bits::{error_flag, interrupt_rq};
use crate::memory::ChipMemory;
use crate::{Chip, Command, Edition, PowerMode};
use core::fmt;

const REQUESTS: [(u8, &str); 6] = [
    (interrupt_rq::TIMER, "Timer"),
    (interrupt_rq::TX, "Tx"),
    (interrupt_rq::RX, "Rx"),
    (interrupt_rq::IDLE, "Idle"),
    (interrupt_rq::HI_ALERT, "HiAlert"),
    (interrupt_rq::LO_ALERT, "LoAlert"),
];

const ERRORS: [(u8, &str); 5] = [
    (error_flag::KEY_ERR, "KeyErr"),
    (error_flag::ACCESS_ERR, "AccessErr"),
    (error_flag::FIFO_OVFL, "FIFOOvfl"),
    (error_flag::CRC_ERR, "CRCErr"),
    (error_flag::PARITY_ERR, "ParityErr"),
];

/// The names of the bits that are set, and in digits what no name has.
struct Flags(u8, &'static [(u8, &'static str)]);

impl fmt::Debug for Flags {
    fn fmt(&self, f: &mut fmt::Formatter<'_>) -> fmt::Result {
        let (mut left, mut between) = (self.0, "");
        write!(f, "[")?;
        for &(bit, name) in self.1.iter().filter(|(bit, _)| self.0 & bit != 0) {
            write!(f, "{between}{name}")?;
            (left, between) = (left & !bit, " ");
        }
        if left != 0 {
            write!(f, "{between}{left:02X}")?;
        }
        write!(f, "]")
    }
}

/// Bytes in hexadecimal digits.
struct Digits<I>(I);

impl<I: Iterator<Item = u8> + Clone> fmt::Debug for Digits<I> {
    fn fmt(&self, f: &mut fmt::Formatter<'_>) -> fmt::Result {
        write!(f, "[")?;
        for (place, byte) in self.0.clone().enumerate() {
            write!(f, "{}{byte:02X}", if place == 0 { "" } else { " " })?;
        }
        write!(f, "]")
    }
}

/// The edition, or what makes it none: the number, and the EEPROM's first four bytes.
struct EditionShown<'a>(&'a ChipMemory);

impl fmt::Debug for EditionShown<'_> {
    fn fmt(&self, f: &mut fmt::Formatter<'_>) -> fmt::Result {
        let ChipMemory { edition: number, eeprom, .. } = self.0;
        match Edition::of(eeprom) {
            Some(edition) if u8::from(edition) == *number => write!(f, "{edition}"),
            _ => write!(f, "number {number} with {:?}, malformed", Digits(eeprom[..4].iter().copied())),
        }
    }
}

/// The active command, and how far it is.
struct Stage<'a>(&'a ChipMemory);

impl fmt::Debug for Stage<'_> {
    fn fmt(&self, f: &mut fmt::Formatter<'_>) -> fmt::Result {
        let ChipMemory { stage, programming_left, .. } = *self.0;
        match (Command::try_from(stage & 0x3F), stage >> 6) {
            (Ok(command), 0) if programming_left == 0 => write!(f, "{command}"),
            (Ok(Command::WriteE2), 0 | 1) if programming_left > 0 => write!(f, "WriteE2, programs for {programming_left} clocks more"),
            (Ok(Command::WriteE2), 1) => write!(f, "WriteE2, waits for data"),
            (Ok(command @ (Command::Transmit | Command::Transceive)), 1) => write!(f, "{command}, sends"),
            (Ok(command @ (Command::Receive | Command::Transceive)), 2) => write!(f, "{command}, receives"),
            _ => write!(f, "stage {stage:02X}, malformed"),
        }
    }
}

/// A power mode, or the number that makes it none.
struct Mode(Option<PowerMode>, u16);

impl fmt::Debug for Mode {
    fn fmt(&self, f: &mut fmt::Formatter<'_>) -> fmt::Result {
        match self.0 {
            Some(mode) => write!(f, "{mode}"),
            None => write!(f, "number {:04X}, malformed", self.1),
        }
    }
}

struct Timer<'a>(&'a ChipMemory);

impl fmt::Debug for Timer<'_> {
    fn fmt(&self, f: &mut fmt::Formatter<'_>) -> fmt::Result {
        let ChipMemory { timer_value, timer_running, timer_prescaler, timer_phase, .. } = *self.0;
        match timer_running {
            0 => write!(f, "{timer_value}, stands"),
            _ => write!(f, "{timer_value}, runs with prescaler {timer_prescaler}, {timer_phase} clocks into its step"),
        }
    }
}

/// What firmware looks at, in one line; the EEPROM is left out.
impl fmt::Debug for Chip {
    fn fmt(&self, f: &mut fmt::Formatter<'_>) -> fmt::Result {
        let memory = self.memory();
        let mut shown = f.debug_struct("Chip");
        shown.field("Edition", &EditionShown(memory));
        shown.field("Page", &format_args!("{:02X}", memory.page));
        shown.field("Command", &Stage(memory));
        match memory.held() {
            0..=64 => shown.field("FIFO", &Digits(memory.held_bytes())),
            held => shown.field("FIFO", &format_args!("{held} bytes, malformed")),
        };
        shown.field("Lost", &memory.lost_sum);
        shown.field("InterruptEn", &Flags(memory.interrupt_en, &REQUESTS));
        shown.field("InterruptRq", &Flags(memory.interrupt_rq, &REQUESTS));
        shown.field("StandBy", &Mode(self.stand_by_mode(), memory.stand_by));
        shown.field("PowerDown", &Mode(self.power_down_mode(), memory.power_down));
        shown.field("ErrorFlag", &Flags(memory.error_flag, &ERRORS));
        shown.field("Timer", &Timer(memory));
        shown.field("CRC", &format_args!("{:04X}", memory.crc_register));
        match memory.key_loaded {
            0 => shown.field("Key", &format_args!("none")),
            _ => shown.field("Key", &Digits(memory.key.iter().copied())),
        };
        shown.field("BitFraming", &format_args!("{:02X}", memory.bit_framing));
        shown.field("Registers10hTo2Fh", &Digits(memory.registers.iter().copied()));
        shown.finish_non_exhaustive()
    }
}

#[cfg(test)]
mod tests {
    use super::*;
    use crate::{shipped_image, shipped_image_of, Refusal, Register};
    use std::format;

    #[test]
    fn a_chip_shows_what_firmware_looks_at() -> Result<(), Refusal> {
        let mut chip = Chip::start(&shipped_image())?;
        let started = "Chip { Edition: MFRC531, Page: 80, Command: Idle, FIFO: [], Lost: 0, InterruptEn: [], \
                       InterruptRq: [], StandBy: off, PowerDown: off, ErrorFlag: [KeyErr], Timer: 0, stands, CRC: 0000, Key: none, BitFraming: 00, \
                       Registers10hTo2Fh: [00 58 3F 3F 19 13 3F 3B 00 73 08 AD FF 1E 41 00 \
                       00 06 03 63 63 00 00 00 00 08 07 06 0A 02 00 00], .. }";
        assert_eq!(format!("{chip:?}"), started);
        chip.write(Register::Page, 0x00)?;
        chip.write(Register::InterruptEn, 0x9C)?;
        chip.write(Register::Command, Command::Transceive as u8)?;
        chip.write(Register::FifoData, 0x26)?;
        let shown = format!("{chip:?}");
        assert!(shown.contains("Command: Transceive, sends, FIFO: [26], Lost: 0, InterruptEn: [Tx Rx Idle]"), "{shown}");
        chip.take(&mut [0; 66])?;
        let shown = format!("{chip:?}");
        assert!(shown.contains("Command: Transceive, receives, FIFO: [], "), "{shown}");
        assert!(shown.contains("Timer: 10, runs with prescaler 7, 0 clocks into its step"), "{shown}");
        chip.write(Register::Command, Command::WriteE2 as u8)?;
        for byte in [0x30, 0x00, 0x55] {
            chip.write(Register::FifoData, byte)?;
        }
        assert!(format!("{chip:?}").contains("Command: WriteE2, programs for 78648 clocks more"), "{chip:?}");
        chip.write(Register::Control, 0x20)?;
        assert!(format!("{chip:?}").contains("StandBy: waits for the programming, PowerDown: off, "), "{chip:?}");
        chip.advance(78_648)?;
        chip.write(Register::Control, 0x10)?;
        assert!(format!("{chip:?}").contains("StandBy: being left, 4 clocks to go, PowerDown: in hold, "), "{chip:?}");
        let chip = Chip::start(&shipped_image_of(Edition::Rc530))?;
        assert!(format!("{chip:?}").starts_with("Chip { Edition: MF RC530, Page: 80, "), "{chip:?}");
        Ok(())
    }

    #[test]
    fn any_memory_is_shown() {
        let mut memory = ChipMemory::zeroed();
        memory.stage = 0x3E;
        memory.fifo_write = 65;
        memory.error_flag = 0xFF;
        memory.edition = 2;
        memory.lost_sum = 65535;
        memory.stand_by = 0x0001;
        memory.power_down = 0x8000;
        let shown = format!("{:?}", Chip::from_memory(memory));
        assert!(shown.starts_with("Chip { Edition: number 2 with [00 00 00 00], malformed, Page: 00, "), "{shown}");
        assert!(shown.contains("Command: stage 3E, malformed, FIFO: 65 bytes, malformed, Lost: 65535, "), "{shown}");
        assert!(shown.contains("StandBy: number 0001, malformed, PowerDown: number 8000, malformed, "), "{shown}");
        assert!(shown.contains("ErrorFlag: [KeyErr AccessErr FIFOOvfl CRCErr ParityErr 85]"), "{shown}");
        for stage in 0..=255u8 {
            (memory.stage, memory.fifo_write, memory.fifo_read) = (stage, stage, stage.wrapping_mul(7));
            assert!(!format!("{:#?}", Chip::from_memory(memory)).is_empty());
        }
    }
}
