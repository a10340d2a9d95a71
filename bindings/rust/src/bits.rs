//! The bits of registers, by the data sheet's names, for those registers that the bench gives a meaning. A name of several bits is a mask.
//!
//! ```
//! use mfrc531::bits::{interrupt_en, secondary_status};
//! # use mfrc531::*;
//! # let mut chip = Chip::start(&shipped_image())?;
//! # chip.write(Register::Page, 0x00)?;
//! chip.write(Register::InterruptEn, interrupt_en::SET | interrupt_en::RX | interrupt_en::IDLE)?;
//! assert!(chip.read(Register::SecondaryStatus)? & secondary_status::E2_READY != 0);
//! # Ok::<(), Refusal>(())
//! ```
#![allow(missing_docs)]

/// Page, 00h.
pub mod page {
    /// The page of an address comes from PageSelect.
    pub const USE_PAGE_SELECT: u8 = 0x80;
    pub const PAGE_SELECT: u8 = 0x07;
}

/// Command, 01h.
pub mod command {
    pub const COMMAND: u8 = 0x3F;
}

/// PrimaryStatus, 03h.
pub mod primary_status {
    /// A [`ModemState`](crate::ModemState), once it is shifted down by [`MODEM_STATE_SHIFT`].
    pub const MODEM_STATE: u8 = 0x70;
    pub const MODEM_STATE_SHIFT: u8 = 4;
    /// A request is also enabled.
    pub const IRQ: u8 = 0x08;
    /// A flag of ErrorFlag is set.
    pub const ERR: u8 = 0x04;
    pub const HI_ALERT: u8 = 0x02;
    pub const LO_ALERT: u8 = 0x01;
}

/// SecondaryStatus, 05h.
pub mod secondary_status {
    pub const T_RUNNING: u8 = 0x80;
    /// No programming runs, and none stands still in a power mode.
    pub const E2_READY: u8 = 0x40;
    /// Always 1 on the bench.
    pub const CRC_READY: u8 = 0x20;
    pub const RX_LAST_BITS: u8 = 0x07;
}

/// InterruptEn, 06h.
pub mod interrupt_en {
    /// In a write: set the marked bits, else clear them.
    pub const SET: u8 = 0x80;
    pub const TIMER: u8 = 0x20;
    pub const TX: u8 = 0x10;
    pub const RX: u8 = 0x08;
    pub const IDLE: u8 = 0x04;
    pub const HI_ALERT: u8 = 0x02;
    pub const LO_ALERT: u8 = 0x01;
}

/// InterruptRq, 07h.
pub mod interrupt_rq {
    /// In a write: set the marked bits, else clear them.
    pub const SET: u8 = 0x80;
    pub const TIMER: u8 = 0x20;
    pub const TX: u8 = 0x10;
    pub const RX: u8 = 0x08;
    pub const IDLE: u8 = 0x04;
    pub const HI_ALERT: u8 = 0x02;
    pub const LO_ALERT: u8 = 0x01;
}

/// Control, 09h. Every write writes StandBy and PowerDown: [`PowerMode`](crate::PowerMode) says what a 1 and a 0 do. A 1 that is read while the
/// mode is being left, and written back, keeps the mode.
pub mod control {
    /// Left in 4 clocks.
    pub const STAND_BY: u8 = 0x20;
    /// Left in 512 clocks.
    pub const POWER_DOWN: u8 = 0x10;
    pub const T_STOP_NOW: u8 = 0x04;
    pub const T_START_NOW: u8 = 0x02;
    pub const FLUSH_FIFO: u8 = 0x01;
}

/// ErrorFlag, 0Ah.
pub mod error_flag {
    pub const KEY_ERR: u8 = 0x40;
    pub const ACCESS_ERR: u8 = 0x20;
    pub const FIFO_OVFL: u8 = 0x10;
    pub const CRC_ERR: u8 = 0x08;
    pub const PARITY_ERR: u8 = 0x02;
}

/// BitFraming, 0Fh.
pub mod bit_framing {
    /// How many bits of the last byte are sent, 0 for all.
    pub const TX_LAST_BITS: u8 = 0x07;
}

/// ChannelRedundancy, 22h.
pub mod channel_redundancy {
    pub const CRC_3309: u8 = 0x20;
    pub const CRC_8: u8 = 0x10;
    pub const RX_CRC_EN: u8 = 0x08;
    pub const TX_CRC_EN: u8 = 0x04;
    pub const PARITY_ODD: u8 = 0x02;
    pub const PARITY_EN: u8 = 0x01;
}

/// FIFOLevel, 29h.
pub mod fifo_level {
    pub const WATER_LEVEL: u8 = 0x3F;
}

/// TimerClock, 2Ah.
pub mod timer_clock {
    pub const T_AUTO_RESTART: u8 = 0x20;
    /// A timer step takes two to this power of clocks.
    pub const T_PRE_SCALER: u8 = 0x1F;
}

/// TimerControl, 2Bh.
pub mod timer_control {
    pub const T_STOP_RX_END: u8 = 0x08;
    pub const T_STOP_RX_BEGIN: u8 = 0x04;
    pub const T_START_TX_END: u8 = 0x02;
    pub const T_START_TX_BEGIN: u8 = 0x01;
}

#[cfg(test)]
mod tests {
    use super::*;
    use crate::{shipped_image, Chip, Command, ModemState, Refusal, Register};

    /// A chip with linear addresses.
    fn chip() -> Result<Chip, Refusal> {
        let mut chip = Chip::start(&shipped_image())?;
        chip.write(Register::Page, 0x00)?;
        Ok(chip)
    }

    #[test]
    fn after_a_start() -> Result<(), Refusal> {
        let mut chip = Chip::start(&shipped_image())?;
        assert_eq!(chip.read(Register::Page)?, page::USE_PAGE_SELECT);
        chip.write(Register::Page, 0x00)?;
        assert_eq!(chip.read(Register::PrimaryStatus)?, primary_status::ERR | primary_status::LO_ALERT);
        assert_eq!(chip.read(Register::SecondaryStatus)?, secondary_status::E2_READY | secondary_status::CRC_READY);
        assert_eq!(chip.read(Register::ErrorFlag)?, error_flag::KEY_ERR);
        Ok(())
    }

    #[test]
    fn the_fifo_and_its_alerts() -> Result<(), Refusal> {
        let mut chip = chip()?;
        chip.write(Register::FifoLevel, 8 & fifo_level::WATER_LEVEL)?;
        chip.write(Register::InterruptEn, interrupt_en::SET | interrupt_en::HI_ALERT)?;
        for _ in 0..65 {
            chip.write(Register::FifoData, 0x55)?;
        }
        let full = primary_status::IRQ | primary_status::ERR | primary_status::HI_ALERT;
        assert_eq!(chip.read(Register::PrimaryStatus)?, full);
        assert_eq!(chip.read(Register::InterruptRq)?, interrupt_rq::HI_ALERT);
        assert_eq!(chip.read(Register::ErrorFlag)?, error_flag::KEY_ERR | error_flag::FIFO_OVFL);
        chip.write(Register::Control, control::FLUSH_FIFO)?;
        assert_eq!(chip.read(Register::ErrorFlag)?, error_flag::KEY_ERR);
        assert_eq!(chip.read(Register::InterruptRq)?, interrupt_rq::HI_ALERT | interrupt_rq::LO_ALERT);
        Ok(())
    }

    #[test]
    fn frames_and_their_errors() -> Result<(), Refusal> {
        let mut chip = chip()?;
        let checks = channel_redundancy::RX_CRC_EN | channel_redundancy::PARITY_ODD | channel_redundancy::PARITY_EN;
        chip.write(Register::ChannelRedundancy, checks)?;
        chip.write(Register::TimerControl, timer_control::T_START_TX_END | timer_control::T_STOP_RX_BEGIN)?;
        chip.write(Register::BitFraming, 7 & bit_framing::TX_LAST_BITS)?;
        chip.write(Register::FifoData, 0x26)?;
        chip.write(Register::Command, Command::Transceive as u8 & command::COMMAND)?;
        let modem_state =
            |chip: &mut Chip| Ok((chip.read(Register::PrimaryStatus)? & primary_status::MODEM_STATE) >> primary_status::MODEM_STATE_SHIFT);
        assert_eq!(modem_state(&mut chip)?, ModemState::TxData as u8);
        assert_eq!(chip.take(&mut [0; 66])?.last_bits, 7);
        assert_eq!(modem_state(&mut chip)?, ModemState::AwaitingRx as u8);
        assert_eq!(chip.read(Register::InterruptRq)?, interrupt_rq::TX);
        assert_eq!(chip.read(Register::SecondaryStatus)? & secondary_status::T_RUNNING, secondary_status::T_RUNNING);
        chip.deliver(&[0x26, 0x00], &[1, 1], 3)?;
        assert_eq!(chip.read(Register::InterruptRq)?, interrupt_rq::TX | interrupt_rq::RX | interrupt_rq::IDLE);
        assert_eq!(chip.read(Register::SecondaryStatus)? & secondary_status::RX_LAST_BITS, 3);
        assert_eq!(chip.read(Register::SecondaryStatus)? & secondary_status::T_RUNNING, 0);
        assert_eq!(chip.read(Register::ErrorFlag)?, error_flag::KEY_ERR | error_flag::CRC_ERR | error_flag::PARITY_ERR);
        Ok(())
    }

    #[test]
    fn the_timer_and_a_programming() -> Result<(), Refusal> {
        let mut chip = chip()?;
        chip.write(Register::TimerClock, timer_clock::T_AUTO_RESTART | (2 & timer_clock::T_PRE_SCALER))?;
        chip.write(Register::TimerReload, 3)?;
        chip.write(Register::Control, control::T_START_NOW)?;
        chip.advance(12)?;
        assert_eq!((chip.read(Register::TimerValue)?, chip.read(Register::InterruptRq)?), (3, interrupt_rq::TIMER));
        chip.write(Register::Control, control::STAND_BY | control::POWER_DOWN | control::T_STOP_NOW)?;
        assert_eq!(chip.read(Register::Control)?, control::STAND_BY | control::POWER_DOWN);
        assert_eq!(chip.read(Register::SecondaryStatus)? & secondary_status::T_RUNNING, 0);
        chip.write(Register::Command, Command::WriteE2 as u8)?;
        for byte in [0x20, 0x00, 0x55] {
            chip.write(Register::FifoData, byte)?;
        }
        chip.advance(1_000_000)?; // which count for nothing
        assert_eq!(chip.read(Register::SecondaryStatus)? & secondary_status::E2_READY, 0);
        chip.write(Register::Control, 0)?;
        chip.advance(512 + 78_648)?;
        assert_eq!(chip.read(Register::Control)?, 0);
        assert_eq!(chip.read(Register::SecondaryStatus)? & secondary_status::E2_READY, secondary_status::E2_READY);
        Ok(())
    }

    #[test]
    fn what_may_not_be_accessed() -> Result<(), Refusal> {
        let mut chip = chip()?;
        chip.write(Register::Command, Command::LoadConfig as u8)?;
        for byte in [0x00, 0x00] {
            chip.write(Register::FifoData, byte)?;
        }
        assert_eq!(chip.read(Register::ErrorFlag)?, error_flag::KEY_ERR | error_flag::ACCESS_ERR);
        Ok(())
    }

    #[test]
    fn checksums() -> Result<(), Refusal> {
        let mut chip = chip()?;
        let mut of_nothing = |mode| {
            chip.write(Register::ChannelRedundancy, mode)?;
            chip.write(Register::CrcPresetLsb, 0xF0)?;
            chip.write(Register::CrcPresetMsb, 0x0F)?;
            chip.write(Register::Command, Command::CalcCrc as u8)?;
            Ok::<_, Refusal>((chip.read(Register::CrcResultLsb)?, chip.read(Register::CrcResultMsb)?))
        };
        assert_eq!(of_nothing(0)?, (0xF0, 0x0F));
        assert_eq!(of_nothing(channel_redundancy::CRC_3309)?, (0x0F, 0xF0));
        assert_eq!(of_nothing(channel_redundancy::CRC_8)?, (0xF0, 0x00));
        Ok(())
    }
}
