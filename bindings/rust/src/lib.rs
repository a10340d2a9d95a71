//! The reader bench: an MFRC531 or MF RC530 card-reader chip in software.
//!
//! A [`Chip`] is one chip's whole state. Its methods are the chip's six events, and [`Chip::lost_sum`], which changes nothing; each answers a value
//! or a [`Refusal`], and a refused call changes neither the chip nor a buffer. The library behind them is proved: for every chip and every argument a
//! call ends, and what it answers, the chip that it leaves and all memory lent to it are as the definitions in `crates/machine/specs` say. This crate
//! only carries arguments and answers.
//!
//! For start-up profiles there are [`check_profile`] and [`choose`], and a [`Pack`] holds up to 256 of them by name.
//!
//! ```
//! use mfrc531::{Chip, Command, Register};
//!
//! # fn main() -> Result<(), mfrc531::Refusal> {
//! let mut chip = Chip::start(&mfrc531::shipped_image())?;
//! chip.write(Register::Page, 0x00)?; // linear addresses; after a start they go through Page
//! chip.write(Register::Command, Command::CalcCrc as u8)?;
//! for byte in [0x12, 0x34] {
//!     chip.write(Register::FifoData, byte)?;
//! }
//! assert_eq!(chip.read(Register::CrcResultLsb)?, 0x26);
//! assert_eq!(chip.read(Register::CrcResultMsb)?, 0xCF);
//! # Ok(())
//! # }
//! ```
//!
//! The crate uses no standard library. How it finds the library is written in `build.rs`: in the folder of MFRC531_LIB_DIR, by pkg-config, or in
//! `build/` of the repository.
#![no_std]
#![warn(missing_docs)]

#[cfg(test)]
extern crate std;

mod answers;
mod names;
mod packs;
mod power;
mod profiles;
mod shown;

pub mod bits;
pub mod memory;

pub use answers::{Frame, Refusal};
pub use names::{Command, Edition, ModemState, Register, UnknownCommand, UnknownEdition, UnknownModemState, UnknownRegister};
pub use packs::{find_in_pack, pack_length, write_pack, Pack, Profiles, PACK_MOST_PROFILES, PACK_MOST_SIZE, PACK_NAME_SIZE};
pub use power::{PowerMode, POWER_DOWN_CLOCKS, STAND_BY_CLOCKS};
pub use profiles::{
    check_profile, choose, shipped_image, shipped_image_of, Choice, ProfileRefusal, SHIPPED_PROFILE, SHIPPED_PROFILE_RC530,
};

use answers::Answer;
use memory::ChipMemory;

extern "C" {
    fn mfrc531_start(chip: *mut ChipMemory, image: *const u8, length: usize) -> u32;
    fn mfrc531_read(chip: *mut ChipMemory, address: u8) -> u32;
    fn mfrc531_write(chip: *mut ChipMemory, address: u8, byte: u8) -> u32;
    fn mfrc531_advance(chip: *mut ChipMemory, clocks: u32) -> u32;
    fn mfrc531_take(chip: *mut ChipMemory, buffer: *mut u8, length: usize) -> u32;
    fn mfrc531_deliver(
        chip: *mut ChipMemory,
        bytes: *const u8,
        length: usize,
        parities: *const u8,
        parity_length: usize,
        last_bits: u8,
    ) -> u32;
    fn mfrc531_lost_sum(chip: *const ChipMemory) -> u32;
}

/// An MFRC531, or an MF RC530.
///
/// Two chips are equal where all 676 bytes of their states are; chips that act alike may differ in where their FIFO begins.
///
/// ```
/// # use mfrc531::*;
/// let chip = Chip::start(&shipped_image())?;
/// let mut other = chip.clone();
/// assert_eq!(chip, other);
/// other.write(Register::Page, 0x00)?;
/// assert_ne!(chip, other);
/// assert!(format!("{other:?}").starts_with("Chip { Edition: MFRC531, Page: 00, Command: Idle, FIFO: [], "));
/// # Ok::<(), Refusal>(())
/// ```
#[derive(Clone, PartialEq, Eq)]
pub struct Chip {
    memory: ChipMemory,
}

impl Chip {
    /// A chip started from an EEPROM image of 512 bytes, of the [`Edition`] that its first four bytes say. Another length is refused with
    /// [`Refusal::ImageNot512Bytes`], and then four bytes of no edition with [`Refusal::ImageOfNoEdition`].
    ///
    /// ```
    /// use mfrc531::{Chip, Refusal};
    /// assert_eq!(Chip::start(&[0; 511]).err(), Some(Refusal::ImageNot512Bytes));
    /// assert_eq!(Chip::start(&[0; 512]).err(), Some(Refusal::ImageOfNoEdition));
    /// ```
    pub fn start(image: &[u8]) -> Result<Chip, Refusal> {
        let mut chip = Chip { memory: ChipMemory::zeroed() };
        chip.restart(image).map(|()| chip)
    }

    /// Starts this chip anew from an image, whatever its state is. A refused start leaves the chip as it was.
    pub fn restart(&mut self, image: &[u8]) -> Result<(), Refusal> {
        // Safety: the chip is lent for the call alone, and the image has the length that is passed with it.
        Answer(unsafe { mfrc531_start(&mut self.memory, image.as_ptr(), image.len()) }).done()
    }

    /// Reads a register. A read of [`Register::FifoData`] removes the byte from the FIFO; no other read changes anything.
    ///
    /// ```
    /// # use mfrc531::*;
    /// # let mut chip = Chip::start(&shipped_image()).unwrap();
    /// assert_eq!(chip.read(Register::FifoLength), Ok(0));
    /// assert_eq!(chip.read(Register::PrimaryStatus), Ok(0b0101)); // Err, since no key is loaded, and LoAlert
    /// ```
    pub fn read(&mut self, register: Register) -> Result<u8, Refusal> {
        self.read_at(register as u8)
    }

    /// Reads at an address; 64 and above are refused with [`Refusal::AddressAbove63`].
    pub fn read_at(&mut self, address: u8) -> Result<u8, Refusal> {
        // Safety: the chip is lent for the call alone.
        Answer(unsafe { mfrc531_read(&mut self.memory, address) }).value()
    }

    /// Writes a register. The active command then does what it can with the bytes that wait.
    ///
    /// Answers how many bytes were lost in the call, those offered to the FIFO while it held 64: up to 125 where it makes ReadE2 run, up to 1 by any
    /// other write of [`Register::FifoData`], 0 by any other write.
    ///
    /// ```
    /// # use mfrc531::*;
    /// # let mut chip = Chip::start(&shipped_image()).unwrap();
    /// for _ in 0..64 {
    ///     assert_eq!(chip.write(Register::FifoData, 0x55), Ok(0));
    /// }
    /// assert_eq!(chip.write(Register::FifoData, 0x55), Ok(1));
    /// ```
    pub fn write(&mut self, register: Register, byte: u8) -> Result<u8, Refusal> {
        self.write_at(register as u8, byte)
    }

    /// Writes at an address, and answers what [`Chip::write`] does; 64 and above are refused with [`Refusal::AddressAbove63`].
    pub fn write_at(&mut self, address: u8, byte: u8) -> Result<u8, Refusal> {
        // Safety: the chip is lent for the call alone.
        Answer(unsafe { mfrc531_write(&mut self.memory, address, byte) }).lost()
    }

    /// Lets so many clocks of 13.56 MHz pass, for the timer and the EEPROM programming, or in a [`PowerMode`] for its leaving alone. Any number is
    /// taken, and costs no more than one clock does, but for the programmings that end, at most six, and the leavings, at most two.
    ///
    /// ```
    /// # use mfrc531::*;
    /// # let mut chip = Chip::start(&shipped_image()).unwrap();
    /// chip.write(Register::Page, 0x00)?;
    /// chip.write(Register::TimerReload, 3)?;
    /// chip.write(Register::TimerClock, 0x21)?; // TAutoRestart, and two clocks a step
    /// chip.write(Register::Control, 0x02)?; // TStartNow
    /// chip.advance(u32::MAX)?;
    /// assert_eq!(chip.read(Register::TimerValue), Ok(2));
    /// # Ok::<(), Refusal>(())
    /// ```
    pub fn advance(&mut self, clocks: u32) -> Result<(), Refusal> {
        // Safety: the chip is lent for the call alone.
        Answer(unsafe { mfrc531_advance(&mut self.memory, clocks) }).done()
    }

    /// Takes the frame that the chip sends into a buffer of at least 66 bytes. Later bytes of the buffer stay. No frame is taken in a [`PowerMode`].
    ///
    /// ```
    /// # use mfrc531::*;
    /// # let mut chip = Chip::start(&shipped_image()).unwrap();
    /// chip.write(Register::Page, 0x00)?;
    /// chip.write(Register::FifoData, 0x26)?;
    /// chip.write(Register::BitFraming, 0x07)?; // seven bits of the last byte; no checksum is added then
    /// chip.write(Register::Command, Command::Transceive as u8)?;
    /// let mut buffer = [0; 66];
    /// let frame = chip.take(&mut buffer)?;
    /// assert_eq!((&buffer[..frame.length], frame.last_bits), (&[0x26][..], 7));
    /// # Ok::<(), Refusal>(())
    /// ```
    pub fn take(&mut self, buffer: &mut [u8]) -> Result<Frame, Refusal> {
        // Safety: the chip and the buffer are lent for the call alone, and the buffer has the length that is passed with it.
        Answer(unsafe { mfrc531_take(&mut self.memory, buffer.as_mut_ptr(), buffer.len()) }).frame()
    }

    /// Delivers a frame that the chip receives: its bytes, a parity value (0 or 1) for each, and how many bits of the last byte count (0: all).
    /// No frame is delivered in a [`PowerMode`].
    ///
    /// Answers how many bytes were lost in the call, up to 64: those offered to the FIFO while it held 64. A checksum that the chip drops is not
    /// offered.
    pub fn deliver(&mut self, bytes: &[u8], parities: &[u8], last_bits: u8) -> Result<u8, Refusal> {
        // Safety: the chip and the slices are lent for the call alone, and each has the length that is passed with it.
        Answer(unsafe { mfrc531_deliver(&mut self.memory, bytes.as_ptr(), bytes.len(), parities.as_ptr(), parities.len(), last_bits) })
            .lost()
    }

    /// How many bytes were lost since the latest flush (FlushFIFO of Control) or start; 65,535 stands for that many or more. Nothing else sets it
    /// to 0, neither a take nor reads. The call changes nothing, and takes no time.
    ///
    /// ```
    /// # use mfrc531::*;
    /// # let mut chip = Chip::start(&shipped_image()).unwrap();
    /// chip.write(Register::Page, 0x00)?;
    /// chip.write(Register::Command, Command::ReadE2 as u8)?;
    /// chip.write(Register::FifoData, 0x00)?;
    /// chip.write(Register::FifoData, 0x00)?; // from 000h on,
    /// assert_eq!(chip.write(Register::FifoData, 100), Ok(36)); // 100 bytes: 64 fit
    /// assert_eq!(chip.lost_sum(), Ok(36));
    /// chip.write(Register::Control, bits::control::FLUSH_FIFO)?;
    /// assert_eq!(chip.lost_sum(), Ok(0));
    /// # Ok::<(), Refusal>(())
    /// ```
    pub fn lost_sum(&self) -> Result<u16, Refusal> {
        // Safety: the chip is lent for the call alone, which only reads it.
        Answer(unsafe { mfrc531_lost_sum(&self.memory) }).lost_sum()
    }

    /// The edition that the chip was started as; every start gives it one. None where the number in [`ChipMemory::edition`] is no edition's, as
    /// [`Chip::from_memory`] takes any.
    pub fn edition(&self) -> Option<Edition> {
        Edition::try_from(self.memory.edition).ok()
    }

    /// The chip's state as it lies in memory.
    pub fn memory(&self) -> &ChipMemory {
        &self.memory
    }

    /// A chip of any state. Where it is no chip's state, every call but a start is refused with [`Refusal::ChipMalformed`].
    pub fn from_memory(memory: ChipMemory) -> Chip {
        Chip { memory }
    }
}

#[cfg(test)]
mod tests {
    use super::*;

    /// Every call but a start is refused, and changes nothing.
    fn is_malformed(memory: ChipMemory) {
        let mut chip = Chip::from_memory(memory);
        let mut buffer = [0xA5; 66];
        assert_eq!(chip.read(Register::Page), Err(Refusal::ChipMalformed));
        assert_eq!(chip.write(Register::Page, 0x00), Err(Refusal::ChipMalformed));
        assert_eq!(chip.advance(1), Err(Refusal::ChipMalformed));
        assert_eq!(chip.take(&mut buffer), Err(Refusal::ChipMalformed));
        assert_eq!(chip.deliver(&[0x12], &[1], 0), Err(Refusal::ChipMalformed));
        assert_eq!(chip.lost_sum(), Err(Refusal::ChipMalformed));
        assert_eq!((*chip.memory(), buffer), (memory, [0xA5; 66]));
    }

    #[test]
    fn a_start_goes_by_the_images_edition() -> Result<(), Refusal> {
        for &edition in Edition::ALL {
            let mut image = shipped_image_of(edition);
            image[0x004] = 0x5A; // the version, and all that follows, decides nothing
            let mut chip = Chip::start(&image)?;
            assert_eq!((chip.edition(), chip.memory().eeprom), (Some(edition), image));
            assert_eq!(chip.read(Register::FifoLength), Ok(0));
            let before = chip.clone();
            for product_type in [[0; 4], [0x30, 0x88, 0xFF, 0x0F], [0x30, 0xCC, 0xFE, 0x03]] {
                image[..4].copy_from_slice(&product_type);
                assert_eq!(chip.restart(&image), Err(Refusal::ImageOfNoEdition));
                assert_eq!(chip.restart(&image[..511]), Err(Refusal::ImageNot512Bytes));
                assert_eq!(chip, before);
            }
        }
        Ok(())
    }

    #[test]
    fn the_edition_is_that_of_the_eeprom() -> Result<(), Refusal> {
        is_malformed(ChipMemory::zeroed());
        for &edition in Edition::ALL {
            let memory = *Chip::start(&shipped_image_of(edition))?.memory();
            for number in (0..=255).filter(|&number| number != u8::from(edition)) {
                is_malformed(ChipMemory { edition: number, ..memory });
                assert_eq!(Chip::from_memory(ChipMemory { edition: number, ..memory }).edition(), Edition::try_from(number).ok());
            }
            for place in 0..4 {
                for bit in 0..8 {
                    let mut changed = memory;
                    changed.eeprom[place] ^= 1 << bit;
                    is_malformed(changed);
                }
            }
            let mut changed = memory;
            changed.eeprom[4] ^= 0xFF;
            assert_eq!(Chip::from_memory(changed).advance(1), Ok(()));
        }
        Ok(())
    }

    /// A chip with linear addresses that holds the three arguments of a ReadE2 from 000h on, and other bytes behind them.
    fn holding(count: u8, others: usize) -> Result<Chip, Refusal> {
        let mut chip = Chip::start(&shipped_image())?;
        chip.write(Register::Page, 0x00)?;
        for byte in [0x00, 0x00, count].into_iter().chain((0..others).map(|_| 0x55)) {
            assert_eq!(chip.write(Register::FifoData, byte), Ok(0));
        }
        Ok(chip)
    }

    fn overflowed(chip: &mut Chip) -> Result<bool, Refusal> {
        Ok(chip.read(Register::ErrorFlag)? & bits::error_flag::FIFO_OVFL != 0)
    }

    #[test]
    fn a_full_fifo_loses_what_a_host_writes() -> Result<(), Refusal> {
        let mut chip = holding(0x80, 61)?;
        assert_eq!((chip.lost_sum(), overflowed(&mut chip)?), (Ok(0), false));
        for sum in 1..=3 {
            assert_eq!(chip.write(Register::FifoData, 0xAA), Ok(1));
            assert_eq!((chip.lost_sum(), chip.memory().lost_sum, overflowed(&mut chip)?), (Ok(sum), sum, true));
        }
        assert_eq!(chip.write(Register::TimerReload, 0xAA), Ok(0)); // another register, though the FIFO is full
        assert_eq!(chip.write_at(64, 0xAA), Err(Refusal::AddressAbove63));
        assert_eq!(chip.deliver(&[0x12], &[1], 0), Err(Refusal::NotSendingOrReceiving));
        assert_eq!(chip.lost_sum(), Ok(3));
        Ok(())
    }

    /// ReadE2 offers up to 128 bytes. Bytes that were held behind its arguments stay, and take room.
    #[test]
    fn read_e2_loses_what_does_not_fit() -> Result<(), Refusal> {
        for (count, others, lost) in
            [(0x80, 61, 125), (0x80, 0, 64), (0x40, 0, 0), (0x41, 0, 1), (0x03, 61, 0), (0x00, 61, 0), (0x81, 61, 0)]
        {
            let mut chip = holding(count, others)?;
            assert_eq!(chip.write(Register::Command, Command::ReadE2.into()), Ok(lost), "{count} bytes with {others} behind");
            assert_eq!((chip.lost_sum(), overflowed(&mut chip)?), (Ok(lost.into()), lost > 0));
        }
        let mut chip = Chip::start(&shipped_image())?; // with nothing held, by the write of the last argument
        chip.write(Register::Page, 0x00)?;
        assert_eq!(chip.write(Register::Command, Command::ReadE2.into()), Ok(0));
        assert_eq!([0x00, 0x00, 0x80].map(|byte| chip.write(Register::FifoData, byte)), [Ok(0), Ok(0), Ok(64)]);
        assert_eq!(chip.lost_sum(), Ok(64));
        Ok(())
    }

    #[test]
    fn a_delivery_loses_what_does_not_fit() -> Result<(), Refusal> {
        for (others, length, lost) in [(61, 64, 64), (61, 1, 1), (60, 64, 63), (0, 64, 3), (0, 61, 0)] {
            let mut chip = holding(0x00, others)?;
            chip.write(Register::Command, Command::Receive.into())?;
            assert_eq!(chip.deliver(&[0x12; 64][..length], &[1; 64][..length], 0), Ok(lost), "{length} bytes with {others} more held");
            assert_eq!((chip.lost_sum(), overflowed(&mut chip)?), (Ok(lost.into()), lost > 0));
        }
        let mut chip = holding(0x00, 61)?;
        chip.write(Register::ChannelRedundancy, bits::channel_redundancy::RX_CRC_EN)?;
        chip.write(Register::Command, Command::Receive.into())?;
        assert_eq!(chip.deliver(&[0x12, 0x34, 0x26, 0xCF], &[1, 0, 0, 1], 0), Ok(2)); // the checksum is dropped, not lost
        assert_eq!(chip.lost_sum(), Ok(2));
        Ok(())
    }

    #[test]
    fn only_a_flush_and_a_start_set_the_sum_to_0() -> Result<(), Refusal> {
        let mut chip = holding(0x00, 61)?;
        assert_eq!(chip.write(Register::FifoData, 0xAA), Ok(1));
        chip.write(Register::Command, Command::Transmit.into())?;
        assert_eq!(chip.take(&mut [0; 66])?.length, 64);
        assert_eq!(chip.read(Register::FifoData), Ok(0x00)); // of an empty FIFO
        chip.advance(u32::MAX)?;
        assert_eq!(chip.restart(&[0; 512]), Err(Refusal::ImageOfNoEdition));
        let before = chip.clone();
        assert_eq!(chip.lost_sum(), Ok(1));
        assert_eq!(chip, before);
        for flushing in [true, false] {
            let mut chip = before.clone();
            if flushing {
                assert_eq!(chip.write(Register::Control, bits::control::FLUSH_FIFO), Ok(0));
            } else {
                chip.restart(&shipped_image())?;
            }
            chip.write(Register::Page, 0x00)?;
            assert_eq!((chip.lost_sum(), overflowed(&mut chip)?), (Ok(0), false));
        }
        Ok(())
    }

    /// It stays at 65,535, and the call that would pass it answers its own whole number. No value is malformed, with FIFOOvfl or without.
    #[test]
    fn the_sum_does_not_run_over() -> Result<(), Refusal> {
        let full = *holding(0x80, 61)?.memory();
        for (before, after) in [(0, 125), (65_409, 65_534), (65_410, 65_535), (65_411, 65_535), (65_535, 65_535)] {
            for error_flag in [full.error_flag, full.error_flag | bits::error_flag::FIFO_OVFL] {
                let mut chip = Chip::from_memory(ChipMemory { lost_sum: before, error_flag, ..full });
                assert_eq!(chip.lost_sum(), Ok(before));
                assert_eq!(chip.write(Register::Command, Command::ReadE2.into()), Ok(125));
                assert_eq!((chip.lost_sum(), overflowed(&mut chip)?), (Ok(after), true));
            }
        }
        Ok(())
    }
}
