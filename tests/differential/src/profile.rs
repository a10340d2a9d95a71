//! The check of a start-up profile and the choice for a safe start (manual 11) in plain Rust, and their comparison with the library's
//! `mfrc531_check_profile` and `mfrc531_choose`.

use crate::built::near_types;
use crate::call::{near_type, SHIPPED};
use crate::library;
use crate::plain::{fault, Edition};
use crate::random::Random;
use std::fmt;

/// Bits that are fixed in every profile of an MFRC531, as register, mask and value: the digits that 005 prints (manual 11.2).
const MFRC531: [(u8, u8, u8); 14] = [
    (0x11, 0x80, 0x00),
    (0x12, 0xC0, 0x00),
    (0x13, 0xC0, 0x00),
    (0x14, 0xC0, 0x00),
    (0x1A, 0x86, 0x00),
    (0x1E, 0x3C, 0x00),
    (0x1F, 0x20, 0x00),
    (0x22, 0xC0, 0x00),
    (0x25, 0xFF, 0x00),
    (0x26, 0xF8, 0x00),
    (0x29, 0xC0, 0x00),
    (0x2A, 0xC0, 0x00),
    (0x2B, 0xF0, 0x00),
    (0x2D, 0xFC, 0x00),
];

/// Those of an MF RC530: the digits that 008 prints.
const MF_RC530: [(u8, u8, u8); 18] = [
    (0x11, 0x90, 0x10),
    (0x12, 0xC0, 0x00),
    (0x13, 0xFF, 0x3F),
    (0x14, 0xC7, 0x01),
    (0x16, 0xFF, 0x00),
    (0x17, 0xFF, 0x00),
    (0x19, 0x18, 0x10),
    (0x1A, 0x9E, 0x08),
    (0x1D, 0xE0, 0x00),
    (0x1E, 0x3C, 0x00),
    (0x1F, 0x20, 0x00),
    (0x22, 0xC0, 0x00),
    (0x25, 0xFF, 0x00),
    (0x26, 0xF8, 0x00),
    (0x29, 0xC0, 0x00),
    (0x2A, 0xC0, 0x00),
    (0x2B, 0xF0, 0x00),
    (0x2D, 0xFC, 0x00),
];

/// A profile that passes for an MF RC530: what 008 ships, but for 17h, where it ships 3Bh and prints zeros.
const PASSING_530: [u8; 32] = [
    0x00, 0x58, 0x3F, 0x3F, 0x19, 0x13, 0x00, 0x00, 0x00, 0x73, 0x08, 0xAD, 0xFF, 0x1E, 0x41, 0x00, 0x00, 0x06, 0x03, 0x63, 0x63, 0x00,
    0x00, 0x00, 0x00, 0x08, 0x07, 0x06, 0x0A, 0x02, 0x00, 0x00,
];

/// Mask and value of a register's fixed bits.
fn fixed(edition: Edition, register: u8) -> (u8, u8) {
    let table = match edition {
        Edition::Mfrc531 => &MFRC531[..],
        Edition::MfRc530 => &MF_RC530,
    };
    table.iter().find(|(fixed, ..)| *fixed == register).map_or((0, 0), |(_, mask, value)| (*mask, *value))
}

/// Why a profile does not pass.
#[derive(Clone, Copy, PartialEq, Eq, Debug)]
pub enum Fault {
    Not32Bytes,
    NoEdition,
    FixedBit { register: u8, bit: u8 },
    PrescalerAbove21,
    Reload0WithStart,
    WaterLevelAbove31,
}

impl Fault {
    /// As the library packs it: the refusal, the register, the bit.
    pub fn answer(self) -> u32 {
        match self {
            Fault::Not32Bytes => 9,
            Fault::NoEdition => 7,
            Fault::FixedBit { register, bit } => 10 | u32::from(register) << 8 | u32::from(bit) << 16,
            Fault::PrescalerAbove21 => 11 | 0x2A << 8,
            Fault::Reload0WithStart => 12 | 0x2C << 8,
            Fault::WaterLevelAbove31 => 13 | 0x29 << 8,
        }
    }
}

/// The check of a profile, 32 bytes for 10h-2Fh, for an edition by its number.
pub fn check<const FAULT: u8>(number: u8, profile: &[u8]) -> Result<(), Fault> {
    if FAULT == fault::EDITION_BEFORE_LENGTH && number > 1 {
        return Err(Fault::NoEdition);
    }
    if profile.len() != 32 {
        return Err(Fault::Not32Bytes);
    }
    let number = if FAULT == fault::EDITION_ABOVE_1_IS_CHECKED { number & 1 } else { number };
    let edition = Edition::of_number(number).ok_or(Fault::NoEdition)?;
    let at = |register: u8| profile[usize::from(register - 0x10)];
    for register in 0x10..0x30 {
        let (mask, value) = fixed(edition, register);
        let value = if FAULT == fault::FIXED_1_IS_TESTED_AS_0 { 0 } else { value };
        let wrong = (at(register) ^ value) & mask;
        if wrong != 0 {
            return Err(Fault::FixedBit { register, bit: wrong.trailing_zeros() as u8 });
        }
        if register == 0x29 && at(0x29) & 0x3F >= 32 {
            return Err(Fault::WaterLevelAbove31);
        }
        if register == 0x2A && at(0x2A) & 0x1F > 21 {
            return Err(Fault::PrescalerAbove21);
        }
        if register == 0x2C && at(0x2C) == 0 && at(0x2B) & 0b11 != 0 {
            return Err(Fault::Reload0WithStart);
        }
    }
    Ok(())
}

/// The choice of two images, as the library answers it: 1 the user's, 2 the rescue's, or the refusal. Each is judged by its own edition, and one of
/// neither edition fails.
pub fn choose<const FAULT: u8>(user: &[u8], rescue: &[u8]) -> u32 {
    if user.len() != 512 || rescue.len() != 512 {
        return 2;
    }
    let edition = |image| match (FAULT, Edition::of_image(image)) {
        (fault::CHOICE_BY_ONE_TABLE, Some(_)) | (fault::CHOICE_OF_NEITHER, None) => Some(Edition::Mfrc531),
        (_, edition) => edition,
    };
    let passes =
        |image: &[u8], edition: Option<Edition>| edition.is_some_and(|edition| check::<FAULT>(edition as u8, &image[0x10..0x30]).is_ok());
    let [users, mut rescues] = [user, rescue].map(edition);
    if FAULT == fault::RESCUE_BY_THE_USERS_EDITION {
        rescues = rescues.and(users.or(rescues));
    }
    if passes(user, users) {
        1 << 8
    } else if passes(rescue, rescues) {
        2 << 8
    } else {
        8
    }
}

// ---- The comparison --------------------------------------------------------------------------------------------------------------------

/// The numbers that a check can answer with.
const ANSWERS: [usize; 7] = [0, 7, 9, 10, 11, 12, 13];

/// What a comparison has met.
#[derive(Default)]
pub struct Met {
    /// Checks for the MFRC531, for the MF RC530 and for no edition, by the number that they answered with.
    pub checks: [[u64; 14]; 3],
    /// The bits that refusal 10 has named, of each register and edition.
    pub named: [[u8; 32]; 2],
    /// Choices by their answer: refused with 2, the user's image, the rescue's, refused with 8; each by the editions of the two images.
    pub choices: [[[u64; 3]; 3]; 4],
}

impl fmt::Display for Met {
    fn fmt(&self, out: &mut fmt::Formatter<'_>) -> fmt::Result {
        let choices = self.choices.map(|answered| answered.into_iter().flatten().sum::<u64>());
        let calls = self.checks.iter().flatten().sum::<u64>() + choices.iter().sum::<u64>();
        write!(out, "{calls} profile checks and choices: answers")?;
        for (checks, edition) in self.checks.iter().zip(["for the MFRC531", "for the MF RC530", "for no edition"]) {
            write!(out, " {edition}")?;
            let met = ANSWERS.iter().filter(|number| checks[**number] > 0);
            met.clone().try_for_each(|number| write!(out, " {number}: {}", checks[*number]))?;
            write!(out, ",")?;
        }
        let [lengths, users, rescues, none] = choices;
        write!(out, " choices of the user's image {users}, of the rescue image {rescues}, 2: {lengths}, 8: {none}")
    }
}

/// Compares the check and the choice on so many profiles, random ones near what passes; and before them, unless these are wanted alone, the check on
/// every profile that differs from one that passes in one or two bits or in one byte, by both tables, every number of an edition, every length
/// that could be taken for 32, and the choice on images of both editions and of nearly the same types. What was met, or what differs.
pub fn compare<const FAULT: u8>(seed: u64, count: u64, random_alone: bool) -> Result<Met, String> {
    let mut met = Met::default();
    if !random_alone {
        compare_near_profiles::<FAULT>(&mut met)?;
        compare_numbers_and_lengths::<FAULT>(&mut met)?;
        compare_near_types::<FAULT>(&mut met)?;
    }
    let mut random = Random::new(seed);
    for _ in 0..count {
        let edition = random.of(&Edition::BOTH);
        let profile = some_profile(&mut random, edition);
        compare_check::<FAULT>(edition as u8, &profile, &mut met)?;
        if random.one_in(3) {
            compare_check::<FAULT>(1 - edition as u8, &profile, &mut met)?;
        }
        if random.one_in(16) {
            let number = 2 + random.below(254) as u8;
            let length = random.of(&[0, 31, 32, 32, 32, 32]);
            compare_check::<FAULT>(number, &profile[..length], &mut met)?;
        }
        if random.one_in(8) {
            let user = some_image(&mut random);
            let rescue = some_image(&mut random);
            compare_choose::<FAULT>(&user, &rescue, &mut met)?;
        }
    }
    Ok(met)
}

fn compare_near_profiles<const FAULT: u8>(met: &mut Met) -> Result<(), String> {
    for passing in [SHIPPED, PASSING_530] {
        for number in [0, 1] {
            for first in 0..256 {
                for second in 0..=first {
                    let mut profile = passing;
                    profile[first / 8] ^= 1 << (first % 8);
                    profile[second / 8] ^= u8::from(second != first) << (second % 8);
                    compare_check::<FAULT>(number, &profile, met)?;
                }
            }
            for position in 0..32 {
                for byte in 0..=255 {
                    let mut profile = passing;
                    profile[position] = byte;
                    compare_check::<FAULT>(number, &profile, met)?;
                }
            }
        }
    }
    Ok(())
}

fn compare_numbers_and_lengths<const FAULT: u8>(met: &mut Met) -> Result<(), String> {
    for number in 0..=255 {
        for profile in [SHIPPED, PASSING_530, [0x00; 32], [0xFF; 32]] {
            compare_check::<FAULT>(number, &profile, met)?;
            compare_check::<FAULT>(number, &profile[..31], met)?;
        }
    }
    let long = [0; 1024];
    for number in [0, 1, 2, 255] {
        for length in (0..=100).chain([255, 256, 256 + 32, 512, 1024]) {
            compare_check::<FAULT>(number, &long[..length], met)?;
        }
    }
    Ok(())
}

fn compare_near_types<const FAULT: u8>(met: &mut Met) -> Result<(), String> {
    // What passes for both, for the MFRC531 alone, and for none.
    let profiles = [PASSING_530, SHIPPED, [0xFF; 32]];
    let [first, second] = Edition::BOTH.map(Edition::type_bytes);
    let types = [first, second, [0; 4], [first[0], second[1], first[2], first[3]], [second[0], second[1], second[2], first[3]], [0xFF; 4]];
    let mut images = Vec::new();
    for type_bytes in types {
        for profile in &profiles {
            images.extend([512, 0, 4, 48, 511, 513].map(|length| image(type_bytes, profile, length)));
        }
    }
    for user in &images {
        for rescue in &images {
            compare_choose::<FAULT>(user, rescue, met)?;
        }
    }
    // Nearly the type of either edition, beside an image that fails and beside one that passes.
    let fails = image(first, &[0xFF; 32], 512);
    let good = image(second, &PASSING_530, 512);
    for type_bytes in Edition::BOTH.into_iter().flat_map(near_types) {
        let near = image(type_bytes, &PASSING_530, 512);
        for (user, rescue) in [(&near, &fails), (&near, &good), (&fails, &near), (&good, &near)] {
            compare_choose::<FAULT>(user, rescue, met)?;
        }
    }
    Ok(())
}

fn compare_check<const FAULT: u8>(number: u8, profile: &[u8], met: &mut Met) -> Result<(), String> {
    let lent = profile.to_vec();
    // SAFETY: the profile has as many bytes as said.
    let theirs = unsafe { library::mfrc531_check_profile(number, lent.as_ptr(), lent.len()) };
    let ours = check::<FAULT>(number, profile).err().map_or(0, Fault::answer);
    if ours != theirs || lent != profile {
        return Err(format!("check for edition {number} of {profile:02X?}: plain {ours:06X}h, library {theirs:06X}h"));
    }
    let [refusal, register, bit, _] = ours.to_le_bytes();
    met.checks[usize::from(number.min(2))][usize::from(refusal)] += 1;
    if refusal == 10 {
        met.named[usize::from(number)][usize::from(register - 0x10)] |= 1 << bit;
    }
    Ok(())
}

fn compare_choose<const FAULT: u8>(user: &[u8], rescue: &[u8], met: &mut Met) -> Result<(), String> {
    // SAFETY: the images have as many bytes as said.
    let theirs = unsafe { library::mfrc531_choose(user.as_ptr(), user.len(), rescue.as_ptr(), rescue.len()) };
    let ours = choose::<FAULT>(user, rescue);
    if ours != theirs {
        let shown = [user, rescue].map(|image| [0..4, 0x10..0x30].map(|places| image.get(places).map(<[u8]>::to_vec)));
        let lengths = (user.len(), rescue.len());
        return Err(format!("choice of images of {lengths:?} bytes with {shown:02X?}: plain {ours:06X}h, library {theirs:06X}h"));
    }
    let place = match ours {
        2 => 0,
        8 => 3,
        chosen => (chosen >> 8) as usize,
    };
    let [users, rescues] = [user, rescue].map(|image| Edition::of_image(image).map_or(2, |edition| edition as usize));
    met.choices[place][users][rescues] += 1;
    Ok(())
}

/// A profile that passes for an edition, or nearly.
fn some_profile(random: &mut Random, edition: Edition) -> [u8; 32] {
    let mut profile = match edition {
        Edition::Mfrc531 => SHIPPED,
        Edition::MfRc530 => PASSING_530,
    };
    if !random.one_in(4) {
        // Any bits where the table leaves them free.
        profile = std::array::from_fn(|place| {
            let (mask, value) = fixed(edition, 0x10 + place as u8);
            random.byte() & !mask | value
        });
        profile[0x19] &= 0x1F;
        profile[0x1A] = random.below(22) as u8 | random.of(&[0, 0x20]);
        profile[0x1C] = profile[0x1C].max(1);
    }
    match random.below(4) {
        0 => {}
        1 => {
            for _ in 0..=random.below(3) {
                profile[random.below(32) as usize] ^= 1 << random.below(8);
            }
        }
        // Where there is more to judge than fixed bits.
        2 => {
            for _ in 0..=random.below(4) {
                let register: u8 = random.of(&[0x29, 0x29, 0x2A, 0x2A, 0x2B, 0x2C, 0x2C, 0x2D]);
                profile[usize::from(register - 0x10)] = random.byte() & random.of(&[0x00, 0x0F, 0x1F, 0x3F, 0xFF]);
            }
        }
        _ => {
            for _ in 0..=random.below(2) {
                profile[random.below(32) as usize] = random.byte();
            }
        }
    }
    profile
}

/// An image with this type and this profile, and other bytes elsewhere.
fn image(type_bytes: [u8; 4], profile: &[u8; 32], length: usize) -> Vec<u8> {
    let mut image = vec![0x5A; length.max(512)];
    image[..4].copy_from_slice(&type_bytes);
    image[0x10..0x30].copy_from_slice(profile);
    image.truncate(length);
    image
}

/// An image with a profile that passes for an edition, or nearly, and with that edition's type or another.
fn some_image(random: &mut Random) -> Vec<u8> {
    let edition = random.of(&Edition::BOTH);
    let type_bytes = match random.below(8) {
        0 | 1 => near_type(random),
        2 => Edition::BOTH[1 - edition as usize].type_bytes(),
        _ => edition.type_bytes(),
    };
    let length = if random.one_in(8) { random.of(&[0, 32, 48, 511, 513, 1024]) } else { 512 };
    image(type_bytes, &some_profile(random, edition), length)
}

#[cfg(test)]
mod tests {
    use super::*;

    fn with_in(mut profile: [u8; 32], changes: &[(u8, u8)]) -> [u8; 32] {
        changes.iter().for_each(|&(register, byte)| profile[usize::from(register - 0x10)] = byte);
        profile
    }

    fn with(changes: &[(u8, u8)]) -> [u8; 32] {
        with_in(SHIPPED, changes)
    }

    fn check(profile: &[u8]) -> Result<(), Fault> {
        super::check::<{ fault::NONE }>(0, profile)
    }

    fn check_530(profile: &[u8]) -> Result<(), Fault> {
        super::check::<{ fault::NONE }>(1, profile)
    }

    fn choose(user: &[u8], rescue: &[u8]) -> u32 {
        super::choose::<{ fault::NONE }>(user, rescue)
    }

    /// Water levels, and their place among the refusals.
    #[test]
    fn water_levels() {
        let refused = Err(Fault::WaterLevelAbove31);
        for level in 0..64 {
            assert_eq!(check(&with(&[(0x29, level)])), if level < 32 { Ok(()) } else { refused }, "level {level}");
        }
        assert_eq!(check(&with(&[(0x29, 0x60)])), Err(Fault::FixedBit { register: 0x29, bit: 6 }));
        assert_eq!(check(&with(&[(0x29, 0x5F)])), Err(Fault::FixedBit { register: 0x29, bit: 6 }));
        assert_eq!(check(&with(&[(0x29, 40), (0x26, 0x08)])), Err(Fault::FixedBit { register: 0x26, bit: 3 }));
        assert_eq!(check(&with(&[(0x29, 40), (0x2A, 0x40)])), refused);
        assert_eq!(check(&with(&[(0x29, 40), (0x2A, 24)])), refused);
        assert_eq!(check(&with(&[(0x29, 40), (0x2C, 0)])), refused);
        assert_eq!(Fault::WaterLevelAbove31.answer(), 0x29_0D);
    }

    /// The numbers of manual 15, and the order of refusals.
    #[test]
    fn profiles() {
        assert_eq!(check(&SHIPPED), Ok(()));
        assert_eq!(check(&SHIPPED[..31]), Err(Fault::Not32Bytes));
        assert_eq!(check(&with(&[(0x2A, 21)])), Ok(()));
        assert_eq!(check(&with(&[(0x2A, 22)])), Err(Fault::PrescalerAbove21));
        assert_eq!(check(&with(&[(0x2A, 24)])), Err(Fault::PrescalerAbove21));
        assert_eq!(check(&with(&[(0x2A, 0x58)])), Err(Fault::FixedBit { register: 0x2A, bit: 6 }));
        assert_eq!(check(&with(&[(0x22, 0xC3)])), Err(Fault::FixedBit { register: 0x22, bit: 6 }));
        assert_eq!(check(&with(&[(0x2C, 0)])), Err(Fault::Reload0WithStart));
        assert_eq!(check(&with(&[(0x2B, 0x0C), (0x2C, 0)])), Ok(()));
        assert_eq!(check(&with(&[(0x2C, 0), (0x2D, 4)])), Err(Fault::Reload0WithStart));
        assert_eq!(check(&with(&[(0x2B, 0x16), (0x2C, 0)])), Err(Fault::FixedBit { register: 0x2B, bit: 4 }));
        assert_eq!(check(&with(&[(0x10, 0xFF), (0x18, 0xFF), (0x20, 0xFF), (0x28, 0xFF)])), Ok(()));
        assert_eq!(Fault::FixedBit { register: 0x22, bit: 6 }.answer(), 0x06_22_0A);
    }

    /// The MF RC530's table, its bits that are fixed at 1 among them.
    #[test]
    fn profiles_of_the_mf_rc530() {
        let differs = |register, bit| Err(Fault::FixedBit { register, bit });
        assert_eq!((check_530(&PASSING_530), check(&PASSING_530)), (Ok(()), Ok(())));
        // What 008 ships, and what 005 ships.
        assert_eq!(check_530(&with_in(PASSING_530, &[(0x17, 0x3B)])), differs(0x17, 0));
        assert_eq!(check_530(&SHIPPED), differs(0x16, 0));
        let cases = [
            (0x11, 0x48, 4),
            (0x11, 0xD8, 7),
            (0x11, 0xC8, 4),
            (0x13, 0x00, 0),
            (0x13, 0x3E, 0),
            (0x13, 0x1F, 5),
            (0x13, 0x7F, 6),
            (0x14, 0x18, 0),
            (0x14, 0x1B, 1),
            (0x16, 0x80, 7),
            (0x19, 0x63, 4),
            (0x19, 0x7B, 3),
            (0x19, 0x6B, 3),
            (0x1A, 0x00, 3),
            (0x1A, 0x18, 4),
            (0x1A, 0x88, 7),
            (0x1D, 0x3E, 5),
            (0x2D, 0x06, 2),
        ];
        for (register, byte, bit) in cases {
            assert_eq!(check_530(&with_in(PASSING_530, &[(register, byte)])), differs(register, bit), "{register:02X}h {byte:02X}h");
        }
        // The lowest register goes first, and the rules that both share are in their places.
        assert_eq!(check_530(&with_in(PASSING_530, &[(0x1D, 0xE0), (0x1A, 0x00)])), differs(0x1A, 3));
        assert_eq!(check_530(&with_in(PASSING_530, &[(0x29, 32), (0x2D, 4)])), Err(Fault::WaterLevelAbove31));
        assert_eq!(check_530(&with_in(PASSING_530, &[(0x2A, 22), (0x2C, 0)])), Err(Fault::PrescalerAbove21));
        assert_eq!(check_530(&with_in(PASSING_530, &[(0x2C, 0), (0x2D, 4)])), Err(Fault::Reload0WithStart));
        assert_eq!(Fault::FixedBit { register: 0x17, bit: 0 }.answer(), 0x17_0A);
        // Bits that are free: each alone is no fault, in either value.
        let free: [(u8, u8); 9] =
            [(0x11, 0x6F), (0x14, 0x38), (0x15, 0xFF), (0x19, 0xE7), (0x1A, 0x61), (0x1B, 0xFF), (0x1C, 0xFF), (0x1D, 0x1F), (0x27, 0xFF)];
        for (register, bits) in free {
            for bit in (0..8).filter(|bit| bits >> bit & 1 == 1) {
                let mut profile = PASSING_530;
                profile[usize::from(register - 0x10)] ^= 1 << bit;
                assert_eq!(check_530(&profile), Ok(()), "{register:02X}h bit {bit}");
            }
        }
    }

    /// 9 whatever the number is, and then 7 for a number that is no edition's.
    #[test]
    fn numbers_of_editions() {
        for number in 0..=255 {
            let check = super::check::<{ fault::NONE }>;
            assert_eq!(check(number, &SHIPPED[..31]), Err(Fault::Not32Bytes));
            let wanted = if number < 2 { Ok(()) } else { Err(Fault::NoEdition) };
            assert_eq!((check(number, &PASSING_530), check(number, &[0xFF; 32]).is_err()), (wanted, true));
        }
        assert_eq!(Fault::NoEdition.answer(), 7);
    }

    #[test]
    fn choices() {
        let image = |edition: Edition, profile: &[u8; 32]| image(edition.type_bytes(), profile, 512);
        let good = image(Edition::Mfrc531, &SHIPPED);
        let bad = vec![0xFF; 512];
        let spinning = image(Edition::Mfrc531, &with(&[(0x29, 32)]));
        assert_eq!((choose(&spinning, &good), choose(&spinning, &spinning)), (0x200, 8));
        assert_eq!((choose(&good, &bad), choose(&bad, &good), choose(&bad, &bad)), (0x100, 0x200, 8));
        assert_eq!((choose(&good, &bad[..511]), choose(&good[..511], &good)), (2, 2));

        // Each by its own edition: 005's profile fails in an MF RC530.
        let [fails, passes] = [SHIPPED, PASSING_530].map(|profile| image(Edition::MfRc530, &profile));
        assert_eq!((choose(&fails, &good), choose(&fails, &passes), choose(&fails, &fails)), (0x200, 0x200, 8));
        assert_eq!((choose(&good, &passes), choose(&spinning, &passes), choose(&passes, &good)), (0x100, 0x200, 0x100));
        // Of neither edition, whatever the profile is; a length goes before it.
        let [none, mixed] = [[0; 4], [0x30, 0x88, 0xFF, 0x0F]].map(|type_bytes| super::image(type_bytes, &PASSING_530, 512));
        assert_eq!((choose(&none, &good), choose(&mixed, &passes), choose(&none, &mixed)), (0x200, 0x200, 8));
        assert_eq!((choose(&spinning, &none), choose(&none, &good[..511])), (8, 2));
    }

    /// A comparison names every fixed bit of both tables, meets every answer, and most of what is random goes past the first registers.
    #[test]
    fn comparisons_meet_everything() {
        let met = compare::<{ fault::NONE }>(1, 20_000, true).unwrap();
        for (edition, named) in Edition::BOTH.into_iter().zip(met.named) {
            assert_eq!(named, std::array::from_fn(|place| fixed(edition, 0x10 + place as u8).0));
        }
        for checks in &met.checks[..2] {
            let judged: u64 = checks.iter().sum();
            [0, 11, 12, 13]
                .into_iter()
                .for_each(|number| assert!(checks[number] * 200 > judged, "{number}: {} of {judged}", checks[number]));
            assert!(checks[0] * 4 > judged, "{} of {judged} pass", checks[0]);
        }
        assert!(met.checks[2][7] > 500 && met.checks[2][9] > 200);
        // The user's and the rescue image are each chosen in both editions, beside any; 8 comes from every pair of editions.
        for edition in [0, 1] {
            for other in [0, 1, 2] {
                assert!(met.choices[1][edition][other] > 20 && met.choices[2][other][edition] > 20, "{edition} {other}");
            }
        }
        assert!(met.choices[3].iter().flatten().all(|count| *count > 10));
    }
}
