//! The data sheets' names for registers, commands, ModemState and editions.
use crate::bits::primary_status;
use core::fmt;

/// An enum of bytes with the data sheet's name for each.
macro_rules! named_bytes {
    (
        $(#[$documented:meta])*
        $type:ident, $unknown:ident, $what:literal;
        $($variant:ident = $byte:literal, $name:literal;)*
    ) => {
        $(#[$documented])*
        #[allow(missing_docs)]
        #[derive(Clone, Copy, Debug, PartialEq, Eq, Hash)]
        #[repr(u8)]
        pub enum $type {
            $($variant = $byte,)*
        }

        impl $type {
            /// All of them, in order.
            pub const ALL: &'static [$type] = &[$($type::$variant),*];

            /// The data sheet's name.
            pub const fn name(self) -> &'static str {
                match self {
                    $($type::$variant => $name,)*
                }
            }
        }

        impl fmt::Display for $type {
            fn fmt(&self, f: &mut fmt::Formatter<'_>) -> fmt::Result {
                f.pad(self.name())
            }
        }

        impl From<$type> for u8 {
            fn from(named: $type) -> u8 {
                named as u8
            }
        }

        impl TryFrom<u8> for $type {
            type Error = $unknown;

            fn try_from(byte: u8) -> Result<$type, $unknown> {
                match byte {
                    $($byte => Ok($type::$variant),)*
                    other => Err($unknown(other)),
                }
            }
        }

        #[doc = concat!("A byte that is ", $what, ".")]
        #[derive(Clone, Copy, Debug, PartialEq, Eq, Hash)]
        pub struct $unknown(pub u8);

        impl fmt::Display for $unknown {
            fn fmt(&self, f: &mut fmt::Formatter<'_>) -> fmt::Result {
                write!(f, "{:02X}h is {}", self.0, $what)
            }
        }

        impl core::error::Error for $unknown {}
    };
}

named_bytes! {
    /// A host register, by its address. While UsePageSelect (Page bit 7) is set, as after a start, the chip takes the page from PageSelect and
    /// only the address's three low bits from here; write 0 to [`Register::Page`] for linear addresses.
    ///
    /// Page is seen at 08h, 10h .. 38h too; here it has the address 00h alone. The data sheet calls 16h PreSet16.
    ///
    /// ```
    /// use mfrc531::Register;
    /// assert_eq!(Register::try_from(0x2A), Ok(Register::TimerClock));
    /// assert_eq!(Register::try_from(0x3F).unwrap_err().to_string(), "3Fh is no register's address");
    /// assert_eq!(Register::FifoLevel.to_string(), "FIFOLevel");
    /// ```
    Register, UnknownRegister, "no register's address";
    Page = 0x00, "Page";
    Command = 0x01, "Command";
    FifoData = 0x02, "FIFOData";
    PrimaryStatus = 0x03, "PrimaryStatus";
    FifoLength = 0x04, "FIFOLength";
    SecondaryStatus = 0x05, "SecondaryStatus";
    InterruptEn = 0x06, "InterruptEn";
    InterruptRq = 0x07, "InterruptRq";
    Control = 0x09, "Control";
    ErrorFlag = 0x0A, "ErrorFlag";
    CollPos = 0x0B, "CollPos";
    TimerValue = 0x0C, "TimerValue";
    CrcResultLsb = 0x0D, "CRCResultLSB";
    CrcResultMsb = 0x0E, "CRCResultMSB";
    BitFraming = 0x0F, "BitFraming";
    TxControl = 0x11, "TxControl";
    CwConductance = 0x12, "CwConductance";
    ModConductance = 0x13, "ModConductance";
    CoderControl = 0x14, "CoderControl";
    ModWidth = 0x15, "ModWidth";
    ModWidthSof = 0x16, "PreSet16";
    TypeBFraming = 0x17, "TypeBFraming";
    RxControl1 = 0x19, "RxControl1";
    DecoderControl = 0x1A, "DecoderControl";
    BitPhase = 0x1B, "BitPhase";
    RxThreshold = 0x1C, "RxThreshold";
    BpskDemControl = 0x1D, "BPSKDemControl";
    RxControl2 = 0x1E, "RxControl2";
    ClockQControl = 0x1F, "ClockQControl";
    RxWait = 0x21, "RxWait";
    ChannelRedundancy = 0x22, "ChannelRedundancy";
    CrcPresetLsb = 0x23, "CRCPresetLSB";
    CrcPresetMsb = 0x24, "CRCPresetMSB";
    PreSet25 = 0x25, "PreSet25";
    MfoutSelect = 0x26, "MFOUTSelect";
    PreSet27 = 0x27, "PreSet27";
    FifoLevel = 0x29, "FIFOLevel";
    TimerClock = 0x2A, "TimerClock";
    TimerControl = 0x2B, "TimerControl";
    TimerReload = 0x2C, "TimerReload";
    IrqPinConfig = 0x2D, "IRQPinConfig";
    PreSet2E = 0x2E, "PreSet2E";
    PreSet2F = 0x2F, "PreSet2F";
}

named_bytes! {
    /// A command's code, for [`Register::Command`].
    ///
    /// ```
    /// use mfrc531::Command;
    /// assert_eq!(Command::try_from(0x12), Ok(Command::CalcCrc));
    /// assert_eq!(Command::try_from(0x02).unwrap_err().to_string(), "02h is no command's code");
    /// ```
    Command, UnknownCommand, "no command's code";
    Idle = 0x00, "Idle";
    WriteE2 = 0x01, "WriteE2";
    ReadE2 = 0x03, "ReadE2";
    LoadConfig = 0x07, "LoadConfig";
    LoadKeyE2 = 0x0B, "LoadKeyE2";
    CalcCrc = 0x12, "CalcCRC";
    Receive = 0x16, "Receive";
    LoadKey = 0x19, "LoadKey";
    Transmit = 0x1A, "Transmit";
    Transceive = 0x1E, "Transceive";
}

named_bytes! {
    /// How far the chip is with a frame, by the code in ModemState (PrimaryStatus bits 6-4): those of the data sheet's eight that the bench shows. A chip
    /// that sends and holds no byte is idle.
    ///
    /// ```
    /// use mfrc531::{Chip, Command, ModemState, Register};
    /// let mut chip = Chip::start(&mfrc531::shipped_image())?;
    /// chip.write(Register::FifoData, 0x26)?;
    /// chip.write(Register::Command, Command::Transceive as u8)?;
    /// assert_eq!(ModemState::of(chip.read(Register::PrimaryStatus)?), Ok(ModemState::TxData));
    /// chip.take(&mut [0; 66])?;
    /// assert_eq!(ModemState::of(chip.read(Register::PrimaryStatus)?), Ok(ModemState::AwaitingRx));
    /// # Ok::<(), mfrc531::Refusal>(())
    /// ```
    ModemState, UnknownModemState, "no code of ModemState that the bench shows";
    Idle = 0, "Idle";
    TxData = 2, "TxData";
    AwaitingRx = 6, "AwaitingRx";
}

impl ModemState {
    /// What a byte of [`Register::PrimaryStatus`] says.
    pub fn of(status: u8) -> Result<ModemState, UnknownModemState> {
        ModemState::try_from((status & primary_status::MODEM_STATE) >> primary_status::MODEM_STATE_SHIFT)
    }
}

named_bytes! {
    /// Which chip it is, by the number in [`ChipMemory::edition`](crate::memory::ChipMemory::edition). An image says it by its first four bytes, the
    /// product type; nothing else in it counts. The editions differ in the bits that their data sheets fix, so in the check of a profile, and in
    /// nothing else.
    ///
    /// ```
    /// use mfrc531::{shipped_image, shipped_image_of, Chip, Edition};
    /// assert_eq!(Chip::start(&shipped_image())?.edition(), Some(Edition::Mfrc531));
    /// assert_eq!(Chip::start(&shipped_image_of(Edition::Rc530))?.edition(), Some(Edition::Rc530));
    /// assert_eq!(Edition::Rc530.to_string(), "MF RC530");
    /// # Ok::<(), mfrc531::Refusal>(())
    /// ```
    Edition, UnknownEdition, "no edition's number";
    Mfrc531 = 0, "MFRC531";
    Rc530 = 1, "MF RC530";
}

impl Edition {
    /// The four bytes that an image of this edition begins with.
    pub const fn product_type(self) -> [u8; 4] {
        match self {
            Edition::Mfrc531 => [0x30, 0xCC, 0xFF, 0x0F],
            Edition::Rc530 => [0x30, 0x88, 0xFE, 0x03],
        }
    }

    /// The edition whose product type an image begins with; none where it is no edition's. The image's length is not looked at.
    ///
    /// ```
    /// use mfrc531::Edition;
    /// assert_eq!(Edition::of(&[0x30, 0x88, 0xFE, 0x03, 0x05]), Some(Edition::Rc530));
    /// assert_eq!(Edition::of(&[0x30, 0x88, 0xFF, 0x0F, 0x05]), None);
    /// ```
    pub fn of(image: &[u8]) -> Option<Edition> {
        Edition::ALL.iter().copied().find(|edition| image.starts_with(&edition.product_type()))
    }
}

#[cfg(test)]
mod tests {
    use super::*;
    use std::string::ToString;

    #[test]
    fn a_byte_is_its_register_or_none() {
        let found = (0..=255).filter_map(|byte| Register::try_from(byte).ok());
        assert!(found.eq(Register::ALL.iter().copied()));
        assert!(Register::ALL.iter().all(|&register| Register::try_from(u8::from(register)) == Ok(register)));
        // Every address of 00h-2Fh but those where Page is seen again.
        assert_eq!(Register::ALL.len(), 0x30 - 5);
    }

    #[test]
    fn a_byte_is_its_command_or_none() {
        let found = (0..=255).filter_map(|byte| Command::try_from(byte).ok());
        assert!(found.eq(Command::ALL.iter().copied()));
        assert_eq!(Command::ALL.len(), 10);
    }

    #[test]
    fn a_byte_is_its_edition_or_none() {
        let found = (0..=255).filter_map(|byte| Edition::try_from(byte).ok());
        assert!(found.eq([Edition::Mfrc531, Edition::Rc530]));
        assert_eq!(Edition::try_from(2).unwrap_err().to_string(), "02h is no edition's number");
    }

    #[test]
    fn an_image_is_its_edition_or_none() {
        for &edition in Edition::ALL {
            let bytes = edition.product_type();
            assert_eq!(Edition::of(&bytes), Some(edition));
            assert_eq!(Edition::of(&bytes[..3]), None);
            for place in 0..4 {
                for changed in (0..=255).filter(|&changed| changed != bytes[place]) {
                    let mut other = bytes;
                    other[place] = changed;
                    assert_eq!(Edition::of(&other), None);
                }
            }
        }
        assert_eq!(Edition::of(&[]), None);
    }

    #[test]
    fn a_status_is_its_modem_state_or_none() {
        for status in 0..=255 {
            let found = ModemState::of(status).ok();
            assert_eq!(found, ModemState::ALL.iter().copied().find(|&state| state as u8 == status / 16 % 8));
        }
        assert_eq!(ModemState::of(0x55).unwrap_err().to_string(), "05h is no code of ModemState that the bench shows");
    }
}
