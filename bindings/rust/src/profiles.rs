//! Start-up profiles: the check, and the choice for a safe start.
use crate::answers::Refusal;
use crate::names::Edition;
use core::fmt;

extern "C" {
    fn mfrc531_check_profile(edition: u8, profile: *const u8, length: usize) -> u32;
    fn mfrc531_choose(user: *const u8, user_length: usize, rescue: *const u8, rescue_length: usize) -> u32;
}

/// The profile that the MFRC531 is shipped with, 32 bytes for registers 10h-2Fh (data sheet 005, Table 15).
pub const SHIPPED_PROFILE: [u8; 32] = [
    0x00, 0x58, 0x3F, 0x3F, 0x19, 0x13, 0x3F, 0x3B, 0x00, 0x73, 0x08, 0xAD, 0xFF, 0x1E, 0x41, 0x00, //
    0x00, 0x06, 0x03, 0x63, 0x63, 0x00, 0x00, 0x00, 0x00, 0x08, 0x07, 0x06, 0x0A, 0x02, 0x00, 0x00,
];

/// The profile that the MF RC530 is shipped with (data sheet 008, Table 6-5): another byte at 16h. The check refuses it, as the data sheet fixes
/// all bits of 17h at 0 and ships 3Bh there; with 00h at 17h it passes.
///
/// ```
/// use mfrc531::{check_profile, Edition, SHIPPED_PROFILE_RC530};
/// let mut profile = SHIPPED_PROFILE_RC530;
/// assert_eq!(check_profile(Edition::Rc530, &profile).unwrap_err().to_string(), "refuse 10 at 17 bit 0");
/// profile[0x17 - 0x10] = 0x00;
/// assert_eq!(check_profile(Edition::Rc530, &profile), Ok(()));
/// ```
pub const SHIPPED_PROFILE_RC530: [u8; 32] = [
    0x00, 0x58, 0x3F, 0x3F, 0x19, 0x13, 0x00, 0x3B, 0x00, 0x73, 0x08, 0xAD, 0xFF, 0x1E, 0x41, 0x00, //
    0x00, 0x06, 0x03, 0x63, 0x63, 0x00, 0x00, 0x00, 0x00, 0x08, 0x07, 0x06, 0x0A, 0x02, 0x00, 0x00,
];

/// An EEPROM image of the MFRC531: its product type at 000h-003h, its shipped profile at 010h-02Fh, and zeros elsewhere.
pub fn shipped_image() -> [u8; 512] {
    shipped_image_of(Edition::Mfrc531)
}

/// An EEPROM image of an edition: its product type at 000h-003h, its shipped profile at 010h-02Fh, and zeros elsewhere.
pub fn shipped_image_of(edition: Edition) -> [u8; 512] {
    let mut image = [0; 512];
    image[..4].copy_from_slice(&edition.product_type());
    image[0x10..0x30].copy_from_slice(match edition {
        Edition::Mfrc531 => &SHIPPED_PROFILE,
        Edition::Rc530 => &SHIPPED_PROFILE_RC530,
    });
    image
}

/// Why a profile is refused. It prints itself as the program `profile_check` does.
///
/// Later requests may add refusals, so a `match` needs a last arm for others.
#[derive(Clone, Copy, Debug, PartialEq, Eq, Hash)]
#[non_exhaustive]
pub enum ProfileRefusal {
    /// 9: the profile is not 32 bytes.
    Not32Bytes,
    /// 10: a bit that the edition's data sheet fixes differs.
    FixedBit {
        /// the lowest register with such a bit
        register: u8,
        /// its lowest such bit
        bit: u8,
    },
    /// 11: TPreScaler is above 21.
    PrescalerAbove21 {
        /// where TPreScaler is: 2Ah
        register: u8,
    },
    /// 12: TStartTxBegin or TStartTxEnd is set, but TimerReload is 0.
    ReloadZeroWithStart {
        /// where TimerReload is: 2Ch
        register: u8,
    },
    /// 13: WaterLevel is above 31, so that LoAlert or HiAlert is on at every fill of the FIFO.
    WaterLevelAbove31 {
        /// where WaterLevel is: 29h
        register: u8,
    },
    /// A number that this crate has no name for: the library is newer than the crate.
    Other {
        /// the number
        number: u8,
        /// the register that the answer names, 0 where it names none
        register: u8,
    },
}

impl ProfileRefusal {
    /// The refusal's number.
    pub fn number(self) -> u8 {
        match self {
            ProfileRefusal::Not32Bytes => 9,
            ProfileRefusal::FixedBit { .. } => 10,
            ProfileRefusal::PrescalerAbove21 { .. } => 11,
            ProfileRefusal::ReloadZeroWithStart { .. } => 12,
            ProfileRefusal::WaterLevelAbove31 { .. } => 13,
            ProfileRefusal::Other { number, .. } => number,
        }
    }
}

impl fmt::Display for ProfileRefusal {
    fn fmt(&self, f: &mut fmt::Formatter<'_>) -> fmt::Result {
        match self {
            ProfileRefusal::Not32Bytes => write!(f, "refuse 9"),
            ProfileRefusal::FixedBit { register, bit } => write!(f, "refuse 10 at {register:02X} bit {bit}"),
            ProfileRefusal::PrescalerAbove21 { register } => write!(f, "refuse 11 at {register:02X}"),
            ProfileRefusal::ReloadZeroWithStart { register } => write!(f, "refuse 12 at {register:02X}"),
            ProfileRefusal::WaterLevelAbove31 { register } => write!(f, "refuse 13 at {register:02X}"),
            ProfileRefusal::Other { number, register: 0 } => write!(f, "refuse {number}"),
            ProfileRefusal::Other { number, register } => write!(f, "refuse {number} at {register:02X}"),
        }
    }
}

impl core::error::Error for ProfileRefusal {}

/// Checks a start-up profile, 32 bytes for registers 10h-2Fh, as that of an edition.
///
/// ```
/// use mfrc531::{check_profile, Edition, ProfileRefusal, SHIPPED_PROFILE};
/// let mut profile = SHIPPED_PROFILE;
/// assert_eq!(check_profile(Edition::Mfrc531, &profile), Ok(()));
/// profile[0x2A - 0x10] = 24;
/// assert_eq!(check_profile(Edition::Mfrc531, &profile).unwrap_err().to_string(), "refuse 11 at 2A");
/// profile[0x29 - 0x10] = 32; // a lower register, so it is named instead
/// let refusal = check_profile(Edition::Mfrc531, &profile).unwrap_err();
/// assert_eq!(refusal, ProfileRefusal::WaterLevelAbove31 { register: 0x29 });
/// assert_eq!((refusal.number(), refusal.to_string().as_str()), (13, "refuse 13 at 29"));
/// // The MF RC530 has other fixed bits: all of 16h are 0.
/// assert_eq!(check_profile(Edition::Rc530, &profile), Err(ProfileRefusal::FixedBit { register: 0x16, bit: 0 }));
/// ```
pub fn check_profile(edition: Edition, profile: &[u8]) -> Result<(), ProfileRefusal> {
    // Safety: the profile is lent for the call alone, and has the length that is passed with it.
    verdict(unsafe { mfrc531_check_profile(edition.into(), profile.as_ptr(), profile.len()) })
}

/// The check's answer: bits 7-0 the refusal, 0 for none; bits 15-8 the register that it names; bits 23-16 the bit.
fn verdict(answer: u32) -> Result<(), ProfileRefusal> {
    let register = (answer >> 8) as u8;
    match answer as u8 {
        0 => Ok(()),
        9 => Err(ProfileRefusal::Not32Bytes),
        10 => Err(ProfileRefusal::FixedBit { register, bit: (answer >> 16) as u8 }),
        11 => Err(ProfileRefusal::PrescalerAbove21 { register }),
        12 => Err(ProfileRefusal::ReloadZeroWithStart { register }),
        13 => Err(ProfileRefusal::WaterLevelAbove31 { register }),
        number => Err(ProfileRefusal::Other { number, register }),
    }
}

/// Whose start-up profile is safe to load.
#[derive(Clone, Copy, Debug, PartialEq, Eq, Hash)]
pub enum Choice {
    /// The user's passes.
    User,
    /// Only the rescue image's passes.
    Rescue,
}

/// Chooses between the start-up profiles (bytes 010h-02Fh) of two images of 512 bytes. Each is checked as that of its own image's edition, and the
/// two may be of different ones; of an image that is no edition's it fails.
///
/// ```
/// use mfrc531::{choose, shipped_image, shipped_image_of, Choice, Edition, Refusal};
/// let mut user = shipped_image();
/// assert_eq!(choose(&user, &shipped_image()), Ok(Choice::User));
/// user[0x2A] = 24;
/// assert_eq!(choose(&user, &shipped_image()), Ok(Choice::Rescue));
/// assert_eq!(choose(&user, &user), Err(Refusal::BothProfilesFail));
/// let mut rescue = shipped_image_of(Edition::Rc530);
/// rescue[0x17] = 0x00;
/// assert_eq!(choose(&user, &rescue), Ok(Choice::Rescue));
/// ```
pub fn choose(user: &[u8], rescue: &[u8]) -> Result<Choice, Refusal> {
    // Safety: the images are lent for the call alone, and each has the length that is passed with it.
    let answer = unsafe { mfrc531_choose(user.as_ptr(), user.len(), rescue.as_ptr(), rescue.len()) };
    match (answer as u8, (answer >> 8) as u8) {
        (0, 1) => Ok(Choice::User),
        (0, _) => Ok(Choice::Rescue),
        (number, _) => Err(Refusal::of(number)),
    }
}

#[cfg(test)]
mod tests {
    use super::*;
    use std::string::ToString;

    #[test]
    fn every_answer_is_a_value() {
        assert_eq!(verdict(0), Ok(()));
        for number in 1..=255 {
            let refusal = verdict(0x00_06_22_00 | number).unwrap_err();
            assert_eq!(u32::from(refusal.number()), number);
            assert_eq!(matches!(refusal, ProfileRefusal::Other { .. }), !(9..=13).contains(&number));
        }
        let line = |answer| verdict(answer).unwrap_err().to_string();
        assert_eq!(line(0x00_06_22_0A), "refuse 10 at 22 bit 6");
        assert_eq!(line(0x00_00_2B_0E), "refuse 14 at 2B");
        assert_eq!(line(0x00_00_00_63), "refuse 99");
    }

    /// Bytes in a profile that passes by both tables, and the bit that each edition names; tests/differential has every bit of every register.
    #[test]
    fn each_edition_has_its_fixed_bits() {
        let mut passing = SHIPPED_PROFILE_RC530;
        passing[0x17 - 0x10] = 0x00;
        for (register, byte, mfrc531, rc530) in [
            (0x11, 0x48, None, Some(4)), // bit 4 is fixed at 1
            (0x13, 0x40, Some(6), Some(0)),
            (0x14, 0x1B, None, Some(1)),
            (0x16, 0x3F, None, Some(0)),
            (0x17, 0x3B, None, Some(0)),
            (0x19, 0x63, None, Some(4)),
            (0x1A, 0x00, None, Some(3)),
            (0x1D, 0x9E, None, Some(7)),
            (0x2D, 0x06, Some(2), Some(2)),
        ] {
            let mut profile = passing;
            profile[usize::from(register) - 0x10] = byte;
            for (edition, named) in [(Edition::Mfrc531, mfrc531), (Edition::Rc530, rc530)] {
                let expected = named.map_or(Ok(()), |bit| Err(ProfileRefusal::FixedBit { register, bit }));
                assert_eq!(check_profile(edition, &profile), expected, "{edition} {register:02X} {byte:02X}");
            }
        }
    }

    /// The rules beyond fixed bits are alike for both editions.
    #[test]
    fn the_other_rules_are_alike() {
        let mut passing = SHIPPED_PROFILE_RC530;
        passing[0x17 - 0x10] = 0x00;
        for &edition in Edition::ALL {
            assert_eq!(check_profile(edition, &passing[..31]), Err(ProfileRefusal::Not32Bytes));
            assert_eq!(check_profile(edition, &[0; 512]), Err(ProfileRefusal::Not32Bytes));
            for (register, byte, refusal) in [
                (0x2A, 22, ProfileRefusal::PrescalerAbove21 { register: 0x2A }),
                (0x2C, 0, ProfileRefusal::ReloadZeroWithStart { register: 0x2C }),
                (0x29, 32, ProfileRefusal::WaterLevelAbove31 { register: 0x29 }),
            ] {
                let mut profile = passing;
                profile[register - 0x10] = byte;
                assert_eq!(check_profile(edition, &profile), Err(refusal), "{edition}");
            }
        }
    }

    /// Each image is judged by its own edition, and that of none fails. The lengths go before all of it.
    #[test]
    fn the_choice_goes_by_each_images_edition() {
        let first = shipped_image();
        let mut second = shipped_image_of(Edition::Rc530);
        assert_eq!(choose(&second, &first), Ok(Choice::Rescue)); // as shipped it fails at 17h
        assert_eq!(choose(&second, &second), Err(Refusal::BothProfilesFail));
        second[0x17] = 0x00;
        assert_eq!(choose(&first, &second), Ok(Choice::User));
        assert_eq!(choose(&second, &first), Ok(Choice::User));
        let mut other = first; // the MFRC531's profile, which passes by its own table alone
        other[..4].copy_from_slice(&Edition::Rc530.product_type());
        assert_eq!(choose(&other, &second), Ok(Choice::Rescue));
        assert_eq!(choose(&other, &other), Err(Refusal::BothProfilesFail));
        for product_type in [[0x30, 0x88, 0xFF, 0x0F], [0; 4]] {
            let mut none = second; // a profile that passes by both tables
            none[..4].copy_from_slice(&product_type);
            assert_eq!(choose(&none, &first), Ok(Choice::Rescue));
            assert_eq!(choose(&first, &none), Ok(Choice::User));
            assert_eq!(choose(&none, &none), Err(Refusal::BothProfilesFail));
            assert_eq!(choose(&none, &first[..511]), Err(Refusal::ImageNot512Bytes));
        }
    }
}
