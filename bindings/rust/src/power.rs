//! The power modes, StandBy and PowerDown of Control.
use crate::bits::control;
use crate::memory::mode;
use crate::Chip;
use core::fmt;

/// Clocks that StandBy takes to be left.
pub const STAND_BY_CLOCKS: u32 = 4;
/// Clocks that PowerDown takes to be left.
pub const POWER_DOWN_CLOCKS: u32 = 512;

/// How far a power mode is, StandBy ([`Chip::stand_by_mode`]) or PowerDown ([`Chip::power_down_mode`]).
///
/// While either mode has hold, being left included, no clock counts for the timer or the programming, and a take or a delivery is refused with
/// [`Refusal::NotSendingOrReceiving`](crate::Refusal::NotSendingOrReceiving). All else works: reads, writes and commands. Every write of
/// [`Register::Control`](crate::Register::Control) writes both bits.
///
/// | | bit reads | 1 is written | 0 is written | a clock |
/// |---|---|---|---|---|
/// | `Off` | 0 | `Hold`; `Waiting` where there is a programming | | |
/// | `Waiting` | 1 | | `Off` | `Hold` if it ends the programming, for which it still counts |
/// | `Hold` | 1 | | `Leaving`, with the whole count | |
/// | `Leaving(n)` | 1 | `Hold` | | `Leaving(n - 1)`, or `Off` |
///
/// StandBy is left in 4 clocks, PowerDown in 512, and both side by side:
///
/// ```
/// use mfrc531::bits::control::{POWER_DOWN, STAND_BY};
/// use mfrc531::{Chip, PowerMode, Register, POWER_DOWN_CLOCKS, STAND_BY_CLOCKS};
/// # let mut chip = Chip::start(&mfrc531::shipped_image())?;
/// chip.write(Register::Page, 0x00)?;
/// chip.write(Register::Control, STAND_BY | POWER_DOWN)?;
/// chip.advance(1_000_000)?;
/// assert_eq!((chip.stand_by_mode(), chip.power_down_mode()), (Some(PowerMode::Hold), Some(PowerMode::Hold)));
///
/// chip.write(Register::Control, 0x00)?;
/// assert_eq!(chip.read(Register::Control), Ok(STAND_BY | POWER_DOWN)); // until they are left
/// assert_eq!((chip.stand_by_mode(), chip.power_down_mode()), (Some(PowerMode::Leaving(4)), Some(PowerMode::Leaving(512))));
/// chip.advance(STAND_BY_CLOCKS)?;
/// assert_eq!(chip.read(Register::Control), Ok(POWER_DOWN));
/// assert_eq!((chip.stand_by_mode(), chip.power_down_mode()), (Some(PowerMode::Off), Some(PowerMode::Leaving(508))));
/// chip.advance(POWER_DOWN_CLOCKS - STAND_BY_CLOCKS)?;
/// assert_eq!(chip.read(Register::Control), Ok(0x00));
/// # Ok::<(), mfrc531::Refusal>(())
/// ```
///
/// A bit that is set while WriteE2 programs waits for the end of this programming; a 0 takes it back at once:
///
/// ```
/// use mfrc531::bits::control::POWER_DOWN;
/// use mfrc531::{Chip, Command, PowerMode, Register};
/// # let mut chip = Chip::start(&mfrc531::shipped_image())?;
/// # chip.write(Register::Page, 0x00)?;
/// chip.write(Register::Command, Command::WriteE2 as u8)?;
/// for byte in [0x30, 0x00, 0xA5] {
///     chip.write(Register::FifoData, byte)?; // to 030h, in 78,648 clocks
/// }
/// chip.write(Register::Control, POWER_DOWN)?;
/// assert_eq!(chip.read(Register::Control), Ok(POWER_DOWN));
/// assert_eq!(chip.power_down_mode(), Some(PowerMode::Waiting));
/// let mut other = chip.clone();
/// other.write(Register::Control, 0x00)?;
/// assert_eq!(other.power_down_mode(), Some(PowerMode::Off));
///
/// chip.advance(78_647)?;
/// assert_eq!(chip.power_down_mode(), Some(PowerMode::Waiting));
/// chip.advance(1)?;
/// assert_eq!((chip.power_down_mode(), chip.memory().eeprom[0x30]), (Some(PowerMode::Hold), 0xA5));
/// # Ok::<(), mfrc531::Refusal>(())
/// ```
#[derive(Clone, Copy, Debug, PartialEq, Eq, Hash)]
pub enum PowerMode {
    /// The bit reads 0.
    Off,
    /// The bit reads 1, without effect: it waits for the end of the programming.
    Waiting,
    /// The mode has hold.
    Hold,
    /// The mode is being left, with so many clocks to go, and has hold until then.
    Leaving(u16),
}

impl fmt::Display for PowerMode {
    fn fmt(&self, f: &mut fmt::Formatter<'_>) -> fmt::Result {
        match self {
            PowerMode::Off => write!(f, "off"),
            PowerMode::Waiting => write!(f, "waits for the programming"),
            PowerMode::Hold => write!(f, "in hold"),
            PowerMode::Leaving(1) => write!(f, "being left, 1 clock to go"),
            PowerMode::Leaving(clocks) => write!(f, "being left, {clocks} clocks to go"),
        }
    }
}

impl Chip {
    /// How far StandBy is. None where the memory is no chip's state in this, as [`Chip::from_memory`] takes any.
    ///
    /// ```
    /// # use mfrc531::*;
    /// # let mut chip = Chip::start(&shipped_image()).unwrap();
    /// chip.write(Register::Page, 0x00)?;
    /// chip.write(Register::Control, bits::control::STAND_BY)?;
    /// chip.write(Register::Control, 0x00)?;
    /// chip.advance(3)?;
    /// assert_eq!(chip.stand_by_mode(), Some(PowerMode::Leaving(1)));
    /// assert_eq!(chip.stand_by_mode().unwrap().to_string(), "being left, 1 clock to go");
    /// chip.advance(1)?;
    /// assert_eq!(chip.stand_by_mode(), Some(PowerMode::Off));
    /// # Ok::<(), Refusal>(())
    /// ```
    pub fn stand_by_mode(&self) -> Option<PowerMode> {
        self.mode(control::STAND_BY, self.memory().stand_by, STAND_BY_CLOCKS)
    }

    /// How far PowerDown is. None where the memory is no chip's state in this, as [`Chip::from_memory`] takes any.
    ///
    /// ```
    /// # use mfrc531::*;
    /// # let mut chip = Chip::start(&shipped_image()).unwrap();
    /// chip.write(Register::Page, 0x00)?;
    /// chip.write(Register::FifoData, 0x26)?;
    /// chip.write(Register::Command, Command::Transmit as u8)?;
    /// chip.write(Register::Control, bits::control::POWER_DOWN)?;
    /// chip.write(Register::Control, 0x00)?;
    /// chip.advance(511)?;
    /// assert_eq!(chip.power_down_mode(), Some(PowerMode::Leaving(1)));
    /// assert_eq!(chip.take(&mut [0; 66]), Err(Refusal::NotSendingOrReceiving)); // the mode still has hold
    /// chip.advance(1)?;
    /// assert_eq!(chip.power_down_mode(), Some(PowerMode::Off));
    /// assert_eq!(chip.take(&mut [0; 66])?.length, 1);
    /// # Ok::<(), Refusal>(())
    /// ```
    pub fn power_down_mode(&self) -> Option<PowerMode> {
        self.mode(control::POWER_DOWN, self.memory().power_down, POWER_DOWN_CLOCKS)
    }

    fn mode(&self, bit: u8, number: u16, most: u32) -> Option<PowerMode> {
        let (hold, to_go) = (number & mode::HOLD != 0, number & mode::TO_GO);
        match (self.memory().control & bit != 0, hold, to_go) {
            (false, false, 0) => Some(PowerMode::Off),
            (true, false, 0) if self.memory().programming_left > 0 => Some(PowerMode::Waiting),
            (true, true, 0) => Some(PowerMode::Hold),
            (true, true, clocks) if u32::from(clocks) <= most => Some(PowerMode::Leaving(clocks)),
            _ => None,
        }
    }
}

#[cfg(test)]
mod tests {
    use super::*;
    use crate::bits::{interrupt_rq, secondary_status};
    use crate::memory::ChipMemory;
    use crate::{shipped_image, Command, Refusal, Register};
    use std::string::ToString;
    use PowerMode::{Hold, Leaving, Off, Waiting};

    const PROGRAMMING_CLOCKS: u32 = 78_648;
    const BOTH: u8 = control::STAND_BY | control::POWER_DOWN;
    /// A mode: its bit, the clocks of its leaving, and how far it is.
    type Mode = (u8, u16, fn(&Chip) -> Option<PowerMode>);
    const MODES: [Mode; 2] = [(control::STAND_BY, 4, Chip::stand_by_mode), (control::POWER_DOWN, 512, Chip::power_down_mode)];

    /// A chip with linear addresses and a timer that falls by one at every clock, from 255.
    fn timed() -> Result<Chip, Refusal> {
        let mut chip = Chip::start(&shipped_image())?;
        chip.write(Register::Page, 0x00)?;
        chip.write(Register::TimerClock, 0)?;
        chip.write(Register::TimerReload, 255)?;
        chip.write(Register::Control, control::T_START_NOW)?;
        Ok(chip)
    }

    /// The same with WriteE2 active, which has these bytes from 03Fh on.
    fn writing(bytes: &[u8]) -> Result<Chip, Refusal> {
        let mut chip = timed()?;
        chip.write(Register::Command, Command::WriteE2 as u8)?;
        for &byte in [0x3F, 0x00].iter().chain(bytes) {
            chip.write(Register::FifoData, byte)?;
        }
        Ok(chip)
    }

    fn e2_ready(chip: &mut Chip) -> Result<bool, Refusal> {
        Ok(chip.read(Register::SecondaryStatus)? & secondary_status::E2_READY != 0)
    }

    #[test]
    fn a_mode_lasts_until_it_is_left() -> Result<(), Refusal> {
        for (bit, count, mode) in MODES {
            let mut chip = timed()?;
            assert_eq!(mode(&chip), Some(Off));
            chip.advance(1)?;
            chip.write(Register::Control, bit)?;
            chip.advance(u32::MAX)?;
            assert_eq!((mode(&chip), chip.read(Register::TimerValue)), (Some(Hold), Ok(254)));
            chip.write(Register::Control, 0)?;
            for left in (1..=count).rev() {
                assert_eq!((mode(&chip), chip.read(Register::Control)), (Some(Leaving(left)), Ok(bit)));
                chip.advance(1)?;
            }
            assert_eq!((mode(&chip), chip.read(Register::Control)), (Some(Off), Ok(0)));
            assert_eq!((chip.read(Register::TimerValue), chip.read(Register::InterruptRq)), (Ok(254), Ok(0)));
            chip.advance(1)?;
            assert_eq!(chip.read(Register::TimerValue), Ok(253));
        }
        Ok(())
    }

    #[test]
    fn a_1_keeps_a_mode_that_is_being_left() -> Result<(), Refusal> {
        for (bit, count, mode) in MODES {
            let mut chip = timed()?;
            chip.write(Register::Control, bit)?;
            chip.write(Register::Control, 0)?;
            chip.advance(u32::from(count) - 1)?;
            chip.write(Register::Control, 0)?;
            assert_eq!(mode(&chip), Some(Leaving(1)));
            chip.write(Register::Control, bit | control::FLUSH_FIFO)?;
            chip.advance(1)?;
            assert_eq!(mode(&chip), Some(Hold));
            chip.write(Register::Control, 0)?;
            assert_eq!(mode(&chip), Some(Leaving(count)));
            chip.restart(&shipped_image())?;
            assert_eq!(mode(&chip), Some(Off));
        }
        Ok(())
    }

    #[test]
    fn the_timer_waits_for_both() -> Result<(), Refusal> {
        let mut chip = timed()?;
        chip.write(Register::Control, BOTH)?;
        chip.write(Register::Control, 0)?;
        chip.advance(3)?;
        assert_eq!((chip.stand_by_mode(), chip.power_down_mode()), (Some(Leaving(1)), Some(Leaving(509))));
        chip.advance(1)?;
        assert_eq!((chip.stand_by_mode(), chip.power_down_mode()), (Some(Off), Some(Leaving(508))));
        chip.write(Register::Control, control::STAND_BY)?; // set again, while PowerDown is being left
        assert_eq!((chip.stand_by_mode(), chip.power_down_mode()), (Some(Hold), Some(Leaving(508))));
        chip.advance(508)?;
        assert_eq!((chip.stand_by_mode(), chip.power_down_mode()), (Some(Hold), Some(Off)));
        chip.write(Register::Control, 0)?;
        chip.advance(4)?;
        assert_eq!((chip.stand_by_mode(), chip.read(Register::TimerValue)), (Some(Off), Ok(255)));
        chip.advance(1)?;
        assert_eq!(chip.read(Register::TimerValue), Ok(254));
        Ok(())
    }

    #[test]
    fn frames_are_refused_last() -> Result<(), Refusal> {
        let refused = Err(Refusal::NotSendingOrReceiving);
        for (bit, count, _) in MODES {
            let mut chip = timed()?;
            chip.write(Register::FifoData, 0x26)?;
            chip.write(Register::Command, Command::Transceive as u8)?;
            chip.write(Register::Control, bit)?;
            let before = chip.clone();
            assert_eq!(chip.take(&mut [0; 65]), Err(Refusal::BufferUnder66Bytes));
            assert_eq!(chip.take(&mut [0; 66]).map(|_| 0), refused);
            assert_eq!(chip, before);
            chip.write(Register::Control, 0)?;
            chip.advance(u32::from(count) - 1)?;
            assert_eq!(chip.take(&mut [0; 66]).map(|_| 0), refused);
            chip.advance(1)?;
            assert_eq!(chip.take(&mut [0; 66]).map(|frame| frame.length), Ok(1));
            chip.write(Register::Control, bit)?;
            assert_eq!(chip.deliver(&[0x12], &[2], 0), Err(Refusal::FrameMalformed));
            assert_eq!(chip.deliver(&[0x12], &[1], 0), refused);
            chip.write(Register::Control, 0)?;
            chip.advance(u32::from(count) - 1)?;
            assert_eq!(chip.deliver(&[0x12], &[1], 0), refused);
            chip.advance(1)?;
            assert_eq!(chip.deliver(&[0x12], &[1], 0), Ok(0));
        }
        Ok(())
    }

    #[test]
    fn a_set_bit_waits_for_the_programming() -> Result<(), Refusal> {
        for (bit, count, mode) in MODES {
            let mut chip = writing(&[0xA5, 0x5A])?; // in two blocks
            chip.write(Register::Control, bit)?;
            chip.advance(10)?;
            assert_eq!((mode(&chip), chip.read(Register::TimerValue)), (Some(Waiting), Ok(245)));
            chip.advance(PROGRAMMING_CLOCKS - 11)?;
            chip.write(Register::Control, bit | control::T_START_NOW)?;
            assert_eq!((mode(&chip), chip.memory().programming_left), (Some(Waiting), 1));
            chip.advance(1000)?; // the first of them ends the programming, and counts for the timer
            assert_eq!((mode(&chip), chip.read(Register::TimerValue)), (Some(Hold), Ok(254)));
            assert_eq!((chip.memory().programming_left, e2_ready(&mut chip)?), (PROGRAMMING_CLOCKS, false));
            assert_eq!((chip.memory().eeprom[0x3F], chip.memory().eeprom[0x40]), (0xA5, 0x00));
            chip.write(Register::Command, Command::Idle as u8)?; // ignored over a programming that stands still
            assert_eq!(chip.read(Register::Command), Ok(Command::WriteE2 as u8));

            let (_, _, other) = MODES[usize::from(bit == control::STAND_BY)];
            chip.write(Register::Control, BOTH - bit)?; // the other bit waits for the programming that stands still
            assert_eq!((mode(&chip), other(&chip), chip.read(Register::Control)), (Some(Leaving(count)), Some(Waiting), Ok(BOTH)));
            chip.advance(u32::from(count) + PROGRAMMING_CLOCKS - 1)?;
            assert_eq!((mode(&chip), other(&chip), chip.memory().eeprom[0x40]), (Some(Off), Some(Waiting), 0x00));
            chip.advance(1)?;
            assert_eq!((mode(&chip), other(&chip), chip.memory().eeprom[0x40]), (Some(Off), Some(Hold), 0x5A));
            assert_eq!((e2_ready(&mut chip)?, chip.read(Register::InterruptRq)? & interrupt_rq::TX), (true, interrupt_rq::TX));
        }
        Ok(())
    }

    /// Without a programming the bit takes hold at once, though WriteE2 is active; a byte that is written then is latched, and stands still.
    #[test]
    fn write_e2_goes_on_in_a_mode() -> Result<(), Refusal> {
        for (bit, count, mode) in MODES {
            let mut chip = writing(&[])?;
            chip.write(Register::Control, bit)?;
            assert_eq!(mode(&chip), Some(Hold));
            chip.write(Register::FifoData, 0xA5)?;
            chip.advance(u32::MAX)?;
            assert_eq!((chip.memory().programming_left, e2_ready(&mut chip)?), (PROGRAMMING_CLOCKS, false));
            chip.write(Register::Control, 0)?;
            chip.advance(u32::from(count) + PROGRAMMING_CLOCKS - 1)?;
            assert_eq!((mode(&chip), e2_ready(&mut chip)?), (Some(Off), false));
            chip.advance(1)?;
            assert_eq!((chip.memory().eeprom[0x3F], e2_ready(&mut chip)?), (0xA5, true));
        }
        Ok(())
    }

    /// Every number, with the bit and without, with a programming and without: a state is a chip's exactly where it is one of the four.
    #[test]
    fn any_other_state_is_malformed() -> Result<(), Refusal> {
        for programming in [false, true] {
            let memory = *writing(if programming { &[0xA5] } else { &[] })?.memory();
            for (bit, count, mode) in MODES {
                for (set, number) in (0..=u16::MAX).flat_map(|number| [(false, number), (true, number)]) {
                    let mut changed = ChipMemory { control: if set { bit } else { 0 }, ..memory };
                    *(if bit == control::STAND_BY { &mut changed.stand_by } else { &mut changed.power_down }) = number;
                    let mut chip = Chip::from_memory(changed);
                    let expected = match (set, number) {
                        (false, 0) => Some(Off),
                        (true, 0) if programming => Some(Waiting),
                        (true, mode::HOLD) => Some(Hold),
                        (true, 0x8001..) if number - 0x8000 <= count => Some(Leaving(number - 0x8000)),
                        _ => None,
                    };
                    assert_eq!(mode(&chip), expected, "{bit:02X}h {set} {number:04X}h");
                    assert_eq!(chip.advance(0), expected.map_or(Err(Refusal::ChipMalformed), |_| Ok(())), "{bit:02X}h {set} {number:04X}h");
                    assert_eq!(*chip.memory(), changed);
                }
            }
        }
        Ok(())
    }

    #[test]
    fn a_mode_says_how_far_it_is() {
        let said = [Off, Waiting, Hold, Leaving(1), Leaving(512)].map(|mode| mode.to_string());
        assert_eq!(said, ["off", "waits for the programming", "in hold", "being left, 1 clock to go", "being left, 512 clocks to go"]);
    }
}
