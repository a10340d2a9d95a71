//! What calls answer: a value, or a refusal.
use core::fmt;

/// Why a call was refused. A refused call changes neither the chip nor a buffer.
///
/// Later requests may add refusals, so a `match` needs a last arm for others.
#[derive(Clone, Copy, Debug, PartialEq, Eq, Hash)]
#[non_exhaustive]
pub enum Refusal {
    /// 1: the host address is above 63.
    AddressAbove63,
    /// 2: the image is not 512 bytes.
    ImageNot512Bytes,
    /// 4: a take while the chip does not send or holds no byte, a delivery while it does not receive, or either in a
    /// [`PowerMode`](crate::PowerMode), also while this is being left.
    NotSendingOrReceiving,
    /// 5: a delivery of no byte or of more than 64, with another number of parity values, a parity value above 1, or last bits above 7.
    FrameMalformed,
    /// 6: the buffer is under 66 bytes.
    BufferUnder66Bytes,
    /// 7: the memory is no chip's state.
    ChipMalformed,
    /// 8: neither profile passes.
    BothProfilesFail,
    /// 14: the bytes are no pack.
    PackMalformed,
    /// 15: no profile of the pack has the name.
    NameNotFound,
    /// 16: there is another number of names than of bodies.
    NamesAndBodiesUnpaired,
    /// 17: there are over 256 profiles.
    Over256Profiles,
    /// 18: the names are not strictly ascending.
    NamesNotAscending,
    /// 19: the buffer is shorter than the pack.
    BufferShorterThanPack,
    /// 22: the image's first four bytes are no edition's.
    ImageOfNoEdition,
    /// A number that this crate has no name for: the library is newer than the crate. 3 is reserved, and no call is refused with it.
    Other(u8),
}

impl Refusal {
    /// The refusal's number.
    pub fn number(self) -> u8 {
        match self {
            Refusal::AddressAbove63 => 1,
            Refusal::ImageNot512Bytes => 2,
            Refusal::NotSendingOrReceiving => 4,
            Refusal::FrameMalformed => 5,
            Refusal::BufferUnder66Bytes => 6,
            Refusal::ChipMalformed => 7,
            Refusal::BothProfilesFail => 8,
            Refusal::PackMalformed => 14,
            Refusal::NameNotFound => 15,
            Refusal::NamesAndBodiesUnpaired => 16,
            Refusal::Over256Profiles => 17,
            Refusal::NamesNotAscending => 18,
            Refusal::BufferShorterThanPack => 19,
            Refusal::ImageOfNoEdition => 22,
            Refusal::Other(number) => number,
        }
    }

    pub(crate) fn of(number: u8) -> Refusal {
        match number {
            1 => Refusal::AddressAbove63,
            2 => Refusal::ImageNot512Bytes,
            4 => Refusal::NotSendingOrReceiving,
            5 => Refusal::FrameMalformed,
            6 => Refusal::BufferUnder66Bytes,
            7 => Refusal::ChipMalformed,
            8 => Refusal::BothProfilesFail,
            14 => Refusal::PackMalformed,
            15 => Refusal::NameNotFound,
            16 => Refusal::NamesAndBodiesUnpaired,
            17 => Refusal::Over256Profiles,
            18 => Refusal::NamesNotAscending,
            19 => Refusal::BufferShorterThanPack,
            22 => Refusal::ImageOfNoEdition,
            other => Refusal::Other(other),
        }
    }
}

impl fmt::Display for Refusal {
    fn fmt(&self, f: &mut fmt::Formatter<'_>) -> fmt::Result {
        let why = match self {
            Refusal::AddressAbove63 => "the host address is above 63",
            Refusal::ImageNot512Bytes => "the image is not 512 bytes",
            Refusal::NotSendingOrReceiving => "the chip does not send, holds no byte, does not receive, or is in a power mode",
            Refusal::FrameMalformed => "the received frame is malformed",
            Refusal::BufferUnder66Bytes => "the buffer is under 66 bytes",
            Refusal::ChipMalformed => "the memory is no chip's state",
            Refusal::BothProfilesFail => "neither profile passes",
            Refusal::PackMalformed => "the bytes are no pack",
            Refusal::NameNotFound => "no profile of the pack has the name",
            Refusal::NamesAndBodiesUnpaired => "the names and bodies do not pair up, 16 and 32 bytes for each profile",
            Refusal::Over256Profiles => "there are over 256 profiles",
            Refusal::NamesNotAscending => "the names are not strictly ascending",
            Refusal::BufferShorterThanPack => "the buffer is shorter than the pack",
            Refusal::ImageOfNoEdition => "the image's first four bytes are no edition's",
            Refusal::Other(_) => "a refusal that this crate does not know",
        };
        write!(f, "refused ({}): {why}", self.number())
    }
}

impl core::error::Error for Refusal {}

/// The frame that a take wrote into the buffer.
#[derive(Clone, Copy, Debug, PartialEq, Eq)]
pub struct Frame {
    /// How many bytes were written, from the front of the buffer.
    pub length: usize,
    /// BitFraming bits 2-0: how many bits of the last byte are sent, 0 for all.
    pub last_bits: u8,
}

/// The number that the library answers: bits 7-0 the refusal, 0 for none; bits 15-8 the byte or count; bits 23-16 the last bits; bits 31-24 how many
/// bytes were lost in the call. `mfrc531_lost_sum` answers the sum in bits 23-8, and a function for packs a number in bits 31-8.
pub(crate) struct Answer(pub u32);

impl Answer {
    pub fn done(self) -> Result<(), Refusal> {
        match (self.0 & 0xFF) as u8 {
            0 => Ok(()),
            number => Err(Refusal::of(number)),
        }
    }

    pub fn value(self) -> Result<u8, Refusal> {
        let value = (self.0 >> 8) as u8;
        self.done().map(|()| value)
    }

    pub fn frame(self) -> Result<Frame, Refusal> {
        let last_bits = (self.0 >> 16) as u8;
        self.value().map(|length| Frame { length: length.into(), last_bits })
    }

    pub fn lost(self) -> Result<u8, Refusal> {
        let lost = (self.0 >> 24) as u8;
        self.done().map(|()| lost)
    }

    pub fn lost_sum(self) -> Result<u16, Refusal> {
        let sum = (self.0 >> 8) as u16;
        self.done().map(|()| sum)
    }

    pub fn number(self) -> Result<usize, Refusal> {
        let number = (self.0 >> 8) as usize;
        self.done().map(|()| number)
    }
}

#[cfg(test)]
mod tests {
    use super::*;
    use std::string::ToString;

    #[test]
    fn every_number_is_a_value() {
        for number in 1..=255 {
            let refusal = Answer(number).done().unwrap_err();
            assert_eq!(u32::from(refusal.number()), number);
            assert_eq!(refusal == Refusal::Other(refusal.number()), !matches!(number, 1 | 2 | 4..=8 | 14..=19 | 22));
        }
        assert_eq!(Refusal::of(200).to_string(), "refused (200): a refusal that this crate does not know");
        assert_eq!(Refusal::of(2).to_string(), "refused (2): the image is not 512 bytes");
    }

    #[test]
    fn an_answer_has_its_parts() {
        assert_eq!(Answer(0x00_07_42_00).frame(), Ok(Frame { length: 0x42, last_bits: 7 }));
        assert_eq!(Answer(0x00_00_42_00).value(), Ok(0x42));
        assert_eq!(Answer(0x00_00_00_04).value(), Err(Refusal::NotSendingOrReceiving));
        assert_eq!(Answer(0x7D_00_00_00).lost(), Ok(125));
        assert_eq!(Answer(0x00_00_00_05).lost(), Err(Refusal::FrameMalformed));
        assert_eq!(Answer(0x00_FF_FE_00).lost_sum(), Ok(0xFFFE));
        assert_eq!(Answer(0x00_00_00_07).lost_sum(), Err(Refusal::ChipMalformed));
        assert_eq!(Answer(0x12_34_56_00).number(), Ok(0x12_3456));
        assert_eq!(Answer(0x00_00_00_0E).number(), Err(Refusal::PackMalformed));
    }
}
