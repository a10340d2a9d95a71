//! Profile packs: up to 256 profiles by name in one file.
//!
//! A pack of n profiles is 52 n + 12 bytes: n bodies of 32 bytes; an index, for each profile its name of 16 bytes and the offset of its body; a
//! trailer of 12 bytes, the index's offset, the number n and `RC53`. Offsets and n are four bytes each, the low byte first. The names ascend strictly.
use crate::answers::{Answer, Refusal};
use core::iter::FusedIterator;
use core::ops::Range;

extern "C" {
    fn mfrc531_pack_write(
        names: *const u8,
        names_length: usize,
        bodies: *const u8,
        bodies_length: usize,
        buffer: *mut u8,
        length: usize,
    ) -> u32;
    fn mfrc531_pack_read(pack: *const u8, length: usize) -> u32;
    fn mfrc531_pack_find(pack: *const u8, length: usize, name: *const u8, name_length: usize) -> u32;
    fn mfrc531_pack_find_checked(pack: *const u8, length: usize, name: *const u8, name_length: usize) -> u32;
}

/// The most profiles that a pack can have.
pub const PACK_MOST_PROFILES: usize = 256;
/// The length of a pack with the most profiles.
pub const PACK_MOST_SIZE: usize = 13324;
/// The length of a name.
pub const PACK_NAME_SIZE: usize = 16;
const PACK_ENTRY_SIZE: usize = 20;
const PACK_TRAILER_SIZE: usize = 12;
const PROFILE_SIZE: usize = 32;

/// The length of a pack of so many profiles. No pack has more than [`PACK_MOST_PROFILES`].
///
/// ```
/// use mfrc531::{pack_length, PACK_MOST_PROFILES, PACK_MOST_SIZE};
/// assert_eq!((pack_length(0), pack_length(1), pack_length(PACK_MOST_PROFILES)), (12, 64, PACK_MOST_SIZE));
/// ```
pub const fn pack_length(profiles: usize) -> usize {
    profiles.saturating_mul(PROFILE_SIZE + PACK_ENTRY_SIZE).saturating_add(PACK_TRAILER_SIZE)
}

/// Writes a pack of names and their bodies, in the same order, into a buffer, and answers its length. Later bytes of the buffer stay. No body is
/// judged.
///
/// Refused, in this order, with [`Refusal::NamesAndBodiesUnpaired`] where they are not as many, [`Refusal::Over256Profiles`],
/// [`Refusal::NamesNotAscending`] and [`Refusal::BufferShorterThanPack`]; the buffer then stays as it was.
///
/// ```
/// use mfrc531::{pack_length, write_pack, Pack, Refusal, SHIPPED_PROFILE, SHIPPED_PROFILE_RC530};
/// let names = [*b"mfrc531 shipped ", *b"rc530 shipped   "];
/// let bodies = [SHIPPED_PROFILE, SHIPPED_PROFILE_RC530];
/// let mut buffer = [0; pack_length(2)];
/// assert_eq!(write_pack(&names, &bodies, &mut buffer), Ok(116));
/// assert_eq!(Pack::new(&buffer)?.find(b"rc530 shipped   "), Ok(&SHIPPED_PROFILE_RC530));
/// assert_eq!(write_pack(&[names[0]; 2], &bodies, &mut buffer), Err(Refusal::NamesNotAscending));
/// # Ok::<(), Refusal>(())
/// ```
pub fn write_pack(names: &[[u8; 16]], bodies: &[[u8; 32]], buffer: &mut [u8]) -> Result<usize, Refusal> {
    let (names, bodies) = (names.as_flattened(), bodies.as_flattened());
    // Safety: the names, the bodies and the buffer are lent for the call alone, and each has the length that is passed with it.
    Answer(unsafe { mfrc531_pack_write(names.as_ptr(), names.len(), bodies.as_ptr(), bodies.len(), buffer.as_mut_ptr(), buffer.len()) })
        .number()
}

/// Finds a name in bytes that are judged first, and answers the body as it lies in them. For several names of one pack make it a [`Pack`], which is
/// judged once.
///
/// Refused with [`Refusal::PackMalformed`] where the bytes are no pack, and then with [`Refusal::NameNotFound`]; a name that is not 16 bytes is in
/// no pack.
///
/// ```
/// use mfrc531::{find_in_pack, Refusal};
/// let empty = *b"\0\0\0\0\0\0\0\0RC53";
/// assert_eq!(find_in_pack(&empty, b"shipped"), Err(Refusal::NameNotFound));
/// assert_eq!(find_in_pack(&empty[1..], b"shipped"), Err(Refusal::PackMalformed));
/// ```
pub fn find_in_pack<'a>(pack: &'a [u8], name: &[u8]) -> Result<&'a [u8; 32], Refusal> {
    // Safety: the bytes and the name are lent for the call alone, and each has the length that is passed with it.
    found(pack, Answer(unsafe { mfrc531_pack_find(pack.as_ptr(), pack.len(), name.as_ptr(), name.len()) }))
}

/// The body at the offset that is answered.
fn found(pack: &[u8], answer: Answer) -> Result<&[u8; 32], Refusal> {
    let offset = answer.number()?;
    pack.get(offset..).and_then(<[u8]>::first_chunk).ok_or(Refusal::PackMalformed)
}

/// Bytes that are a pack: they were judged once, and are lent as long as it lives.
///
/// ```
/// # use mfrc531::{pack_length, write_pack, Pack, Refusal};
/// # let mut bytes = [0; pack_length(2)];
/// # write_pack(&[[b'a'; 16], [b'b'; 16]], &[[1; 32], [2; 32]], &mut bytes)?;
/// let pack = Pack::new(&bytes)?;
/// assert_eq!(pack.len(), 2);
/// assert_eq!(pack.find(b"bbbbbbbbbbbbbbbb"), Ok(&[2; 32]));
/// for (name, body) in &pack {
///     println!("{}: {body:02X?}", name.escape_ascii());
/// }
/// assert_eq!(Pack::new(&bytes[1..]), Err(Refusal::PackMalformed));
/// # Ok::<(), Refusal>(())
/// ```
#[derive(Clone, Copy, Debug, PartialEq, Eq, Hash)]
pub struct Pack<'a> {
    bytes: &'a [u8],
    profiles: usize,
}

impl<'a> Pack<'a> {
    /// Takes bytes as a pack, all of them. Where they are none they are refused with [`Refusal::PackMalformed`].
    pub fn new(bytes: &'a [u8]) -> Result<Pack<'a>, Refusal> {
        // Safety: the bytes are lent for the call alone, and have the length that is passed with them.
        let profiles = Answer(unsafe { mfrc531_pack_read(bytes.as_ptr(), bytes.len()) }).number()?;
        Ok(Pack { bytes, profiles })
    }

    /// The number of profiles.
    pub fn len(&self) -> usize {
        self.profiles
    }

    /// Whether there is no profile.
    pub fn is_empty(&self) -> bool {
        self.profiles == 0
    }

    /// The name and the body of a profile, by its place from 0 on; none from [`Pack::len`] on.
    ///
    /// ```
    /// # use mfrc531::{pack_length, write_pack, Pack, Refusal};
    /// # let mut bytes = [0; pack_length(2)];
    /// # write_pack(&[[b'a'; 16], [b'b'; 16]], &[[1; 32], [2; 32]], &mut bytes)?;
    /// # let pack = Pack::new(&bytes)?;
    /// assert_eq!(pack.profile(1), Some((&[b'b'; 16], &[2; 32])));
    /// assert_eq!(pack.profile(2), None);
    /// # Ok::<(), Refusal>(())
    /// ```
    pub fn profile(&self, place: usize) -> Option<(&'a [u8; 16], &'a [u8; 32])> {
        if place >= self.profiles {
            return None;
        }
        let entry = self.bytes.get(PROFILE_SIZE * self.profiles + PACK_ENTRY_SIZE * place..)?;
        Some((entry.first_chunk()?, self.bytes.get(PROFILE_SIZE * place..)?.first_chunk()?))
    }

    /// The names and bodies, by ascending names.
    pub fn iter(&self) -> Profiles<'a> {
        Profiles { pack: *self, left: 0..self.profiles }
    }

    /// The body of the profile that has a name. Where none has it, it is refused with [`Refusal::NameNotFound`], as is every name that is not 16
    /// bytes.
    pub fn find(&self, name: &[u8]) -> Result<&'a [u8; 32], Refusal> {
        // Safety: the bytes and the name are lent for the call alone, and each has the length that is passed with it.
        let answer = unsafe { mfrc531_pack_find_checked(self.bytes.as_ptr(), self.bytes.len(), name.as_ptr(), name.len()) };
        found(self.bytes, Answer(answer))
    }

    /// All bytes of the pack.
    pub fn as_bytes(&self) -> &'a [u8] {
        self.bytes
    }
}

impl<'a> IntoIterator for &Pack<'a> {
    type Item = (&'a [u8; 16], &'a [u8; 32]);
    type IntoIter = Profiles<'a>;

    fn into_iter(self) -> Profiles<'a> {
        self.iter()
    }
}

/// The names and bodies of a [`Pack`], by ascending names.
#[derive(Clone, Debug)]
pub struct Profiles<'a> {
    pack: Pack<'a>,
    left: Range<usize>,
}

impl<'a> Iterator for Profiles<'a> {
    type Item = (&'a [u8; 16], &'a [u8; 32]);

    fn next(&mut self) -> Option<Self::Item> {
        self.left.next().and_then(|place| self.pack.profile(place))
    }

    fn size_hint(&self) -> (usize, Option<usize>) {
        self.left.size_hint()
    }

    fn nth(&mut self, count: usize) -> Option<Self::Item> {
        self.left.nth(count).and_then(|place| self.pack.profile(place))
    }
}

impl DoubleEndedIterator for Profiles<'_> {
    fn next_back(&mut self) -> Option<Self::Item> {
        self.left.next_back().and_then(|place| self.pack.profile(place))
    }
}

impl ExactSizeIterator for Profiles<'_> {}
impl FusedIterator for Profiles<'_> {}

#[cfg(test)]
mod tests {
    use super::*;
    use std::vec::Vec;

    const COUNTS: [usize; 6] = [0, 1, 2, 3, 255, 256];

    /// Ascending names, of which neighbours differ in the last byte or in the first, and bodies that fail the check.
    fn profiles(count: usize) -> (Vec<[u8; 16]>, Vec<[u8; 32]>) {
        let name = |place: usize| {
            let mut name = [0x00; 16];
            (name[0], name[15]) = ((place / 2) as u8, if place % 2 == 0 { 0x00 } else { 0xFF });
            name
        };
        ((0..count).map(name).collect(), (0..count).map(|place| [place as u8; 32]).collect())
    }

    /// The bytes of a pack, of any names and bodies.
    fn laid_out(names: &[[u8; 16]], bodies: &[[u8; 32]]) -> Vec<u8> {
        let mut bytes = bodies.concat();
        for (place, name) in names.iter().enumerate() {
            bytes.extend(name);
            bytes.extend((32 * place as u32).to_le_bytes());
        }
        bytes.extend((32 * names.len() as u32).to_le_bytes());
        bytes.extend((names.len() as u32).to_le_bytes());
        bytes.extend(b"RC53");
        bytes
    }

    fn written(count: usize) -> Vec<u8> {
        let (names, bodies) = profiles(count);
        let mut bytes = std::vec![0xA5; pack_length(count)];
        assert_eq!(write_pack(&names, &bodies, &mut bytes), Ok(bytes.len()));
        bytes
    }

    #[test]
    fn what_is_written_is_read_and_found() -> Result<(), Refusal> {
        for count in COUNTS {
            let (names, bodies) = profiles(257);
            let bytes = written(count);
            assert_eq!(bytes, laid_out(&names[..count], &bodies[..count]));
            let pack = Pack::new(&bytes)?;
            assert_eq!((pack.len(), pack.is_empty(), pack.as_bytes()), (count, count == 0, &bytes[..]));
            let listed: Vec<_> = names.iter().zip(&bodies).take(count).collect();
            assert_eq!(pack.iter().collect::<Vec<_>>(), listed);
            for (place, name) in names.iter().enumerate() {
                assert_eq!(pack.profile(place), listed.get(place).copied());
                let body = listed.get(place).map(|&(_, body)| body).ok_or(Refusal::NameNotFound);
                assert_eq!((pack.find(name), find_in_pack(&bytes, name)), (body, body));
            }
            assert_eq!(pack.profile(usize::MAX), None);
        }
        assert_eq!(written(0), *b"\0\0\0\0\0\0\0\0RC53");
        Ok(())
    }

    #[test]
    fn the_iterator_goes_both_ways_and_knows_its_length() -> Result<(), Refusal> {
        let bytes = written(5);
        let pack = Pack::new(&bytes)?;
        let all: Vec<_> = pack.iter().collect();
        let mut reversed: Vec<_> = pack.iter().rev().collect();
        reversed.reverse();
        assert_eq!(reversed, all);
        let mut left = (&pack).into_iter();
        assert_eq!((left.next(), left.next_back(), left.len()), (Some(all[0]), Some(all[4]), 3));
        assert_eq!((left.nth(1), left.len(), left.nth(usize::MAX), left.len()), (Some(all[2]), 1, None, 0));
        assert_eq!((left.next(), left.next_back()), (None, None));
        Ok(())
    }

    #[test]
    fn a_name_of_another_length_is_in_no_pack() -> Result<(), Refusal> {
        let bytes = written(2);
        let pack = Pack::new(&bytes)?;
        for name in [&[][..], &[0x00], &[0x00; 15], &[0x00; 17], &[0x00; 300]] {
            assert_eq!(pack.find(name), Err(Refusal::NameNotFound));
            assert_eq!(find_in_pack(&bytes, name), Err(Refusal::NameNotFound));
            assert_eq!(find_in_pack(&bytes[1..], name), Err(Refusal::PackMalformed));
        }
        assert_eq!(pack.find(&[0x00; 16]), Ok(&[0x00; 32]));
        Ok(())
    }

    /// Each refusal where all that go behind it hold as well, and the buffer as it was.
    #[test]
    fn the_writer_refuses_in_order() {
        let (names, bodies) = profiles(257);
        let equal = [names[0]; 257];
        let mut buffer = [0xA5; pack_length(257)];
        for (names, bodies, length, refusal) in [
            (&equal[..257], &bodies[..256], 0, Refusal::NamesAndBodiesUnpaired),
            (&equal[..0], &bodies[..1], 0, Refusal::NamesAndBodiesUnpaired),
            (&names[..2], &bodies[..1], buffer.len(), Refusal::NamesAndBodiesUnpaired),
            (&equal[..257], &bodies[..257], 0, Refusal::Over256Profiles),
            (&names[..257], &bodies[..257], buffer.len(), Refusal::Over256Profiles),
            (&equal[..2], &bodies[..2], 0, Refusal::NamesNotAscending),
            (&[names[1], names[0]], &bodies[..2], buffer.len(), Refusal::NamesNotAscending),
            (&names[..256], &bodies[..256], pack_length(256) - 1, Refusal::BufferShorterThanPack),
            (&names[..0], &bodies[..0], 11, Refusal::BufferShorterThanPack),
        ] {
            assert_eq!(write_pack(names, bodies, &mut buffer[..length]), Err(refusal));
            assert_eq!(buffer, [0xA5; pack_length(257)], "{refusal}");
        }
        assert_eq!(write_pack(&names[..2], &bodies[..2], &mut buffer), Ok(pack_length(2)));
        assert!(buffer[pack_length(2)..].iter().all(|&byte| byte == 0xA5));
    }

    /// A bit of a pack turned: only bodies, and names that still ascend, may change. Bytes less or more, equal names, a profile too many.
    #[test]
    fn every_other_byte_string_is_no_pack() {
        let bytes = written(3);
        let entries = |bytes: &[u8]| -> Vec<[u8; 16]> { (0..3).map(|place| *bytes[96 + 20 * place..].first_chunk().unwrap()).collect() };
        for place in 0..bytes.len() {
            for bit in 0..8 {
                let mut changed = bytes.clone();
                changed[place] ^= 1 << bit;
                let in_name = (96..156).contains(&place) && (place - 96) % 20 < 16;
                let well = place < 96 || in_name && entries(&changed).windows(2).all(|two| two[0] < two[1]);
                assert_eq!(Pack::new(&changed).map(|pack| pack.len()), if well { Ok(3) } else { Err(Refusal::PackMalformed) });
            }
            assert_eq!(Pack::new(&bytes[..place]), Err(Refusal::PackMalformed));
            assert_eq!(Pack::new(&bytes[place + 1..]), Err(Refusal::PackMalformed));
        }
        let (names, bodies) = profiles(257);
        let equal = laid_out(&[names[1]; 2], &bodies[..2]);
        for other in [[&bytes[..], &[0x00]].concat(), equal, laid_out(&names, &bodies), std::vec![0x00; PACK_MOST_SIZE]] {
            assert_eq!(Pack::new(&other), Err(Refusal::PackMalformed));
        }
    }

    /// Whatever the library would answer, nothing is read beyond the bytes.
    #[test]
    fn an_offset_beyond_the_bytes_is_no_body() {
        let bytes = [0x5A; 64];
        assert_eq!(found(&bytes, Answer(32 << 8)), Ok(&[0x5A; 32]));
        for offset in [33, 64, 65, 0xFF_FFFF] {
            assert_eq!(found(&bytes, Answer(offset << 8)), Err(Refusal::PackMalformed));
        }
    }

    #[test]
    fn the_length_of_too_many_profiles_does_not_wrap() {
        assert_eq!((pack_length(257), pack_length(usize::MAX)), (13_376, usize::MAX));
    }
}
