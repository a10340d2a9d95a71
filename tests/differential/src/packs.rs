//! Profile packs (request R-1) in plain Rust: a writer, a reader and a find; and their comparison with the library's `mfrc531_pack_write`,
//! `mfrc531_pack_read`, `mfrc531_pack_find` and `mfrc531_pack_find_checked`.

use crate::answer;
use crate::call::SHIPPED;
use crate::library;
use crate::plain::{fault, Refusal};
use crate::profile;
use crate::random::Random;
use crate::session::{lend, GUARD};
use std::collections::BTreeSet;
use std::fmt;

/// Bytes of a name, of a body, of an entry of the index, which is a name and an offset, and of the trailer.
pub const NAME: usize = 16;
pub const BODY: usize = 32;
const ENTRY: usize = 20;
const TRAILER: usize = 12;

const MARK: &[u8; 4] = b"RC53";

/// The most profiles that a pack has.
pub const MOST: usize = 256;

/// The length of a pack of so many profiles.
pub fn length_of(count: usize) -> usize {
    (BODY + ENTRY) * count + TRAILER
}

// ---- The writer ------------------------------------------------------------------------------------------------------------------------

/// Whether each name is below the next one: by unsigned bytes, the first byte first.
fn ascending<'a, const FAULT: u8>(names: impl Iterator<Item = &'a [u8]>) -> bool {
    let signed = |name: &[u8]| -> [i8; NAME] { std::array::from_fn(|place| name[place] as i8) };
    let text = |name: &'a [u8]| name.split(|byte| *byte == 0).next();
    names.is_sorted_by(|name, next| match FAULT {
        fault::SIGNED_NAMES => signed(name) < signed(next),
        fault::EQUAL_NAMES_ARE_ASCENDING => name <= next,
        fault::LAST_BYTE_OF_A_NAME_IS_NOT_ORDERED => name[..NAME - 1] < next[..NAME - 1],
        fault::NAME_ENDS_AT_00 => text(name) < text(next),
        _ => name < next,
    })
}

/// A number as a pack has it: four bytes, low byte first.
fn number<const FAULT: u8>(number: usize) -> [u8; 4] {
    match FAULT {
        fault::HIGH_BYTE_FIRST => (number as u32).to_be_bytes(),
        _ => (number as u32).to_le_bytes(),
    }
}

/// The offset of a place in a pack of so many profiles: how far it is from the first byte.
fn offset<const FAULT: u8>(count: usize, place: usize) -> [u8; 4] {
    let back = FAULT == fault::OFFSETS_COUNT_BACK;
    number::<FAULT>(if back { (BODY + ENTRY) * count - place } else { place })
}

fn trailer<const FAULT: u8>(count: usize) -> [u8; TRAILER] {
    let parts = [offset::<FAULT>(count, BODY * count), number::<FAULT>(count), *MARK];
    std::array::from_fn(|place| parts[place / 4][place % 4])
}

/// Puts so many profiles, in the order given, into bytes that are as long as their pack.
fn lay_out<const FAULT: u8>(count: usize, names: &[u8], bodies: &[u8], pack: &mut [u8]) {
    let (front, last) = pack.split_at_mut((BODY + ENTRY) * count);
    let (first, index) = front.split_at_mut(BODY * count);
    first.copy_from_slice(&bodies[..BODY * count]);
    for (place, (entry, name)) in index.chunks_exact_mut(ENTRY).zip(names.chunks_exact(NAME)).enumerate() {
        entry[..NAME].copy_from_slice(name);
        entry[NAME..].copy_from_slice(&offset::<FAULT>(count, BODY * place));
    }
    last.copy_from_slice(&trailer::<FAULT>(count));
    match FAULT {
        fault::INDEX_BEFORE_BODIES => front.rotate_left(BODY * count),
        fault::NAMES_THEN_OFFSETS => {
            for (place, name) in names.chunks_exact(NAME).take(count).enumerate() {
                index[NAME * place..NAME * (place + 1)].copy_from_slice(name);
                index[NAME * count + 4 * place..][..4].copy_from_slice(&offset::<FAULT>(count, BODY * place));
            }
        }
        fault::NUMBER_BEFORE_INDEX_OFFSET => last[..8].rotate_left(4),
        _ => {}
    }
}

/// Writes a pack of these names and bodies into the front of a buffer. Answers the pack's length.
pub fn write<const FAULT: u8>(names: &[u8], bodies: &[u8], buffer: &mut [u8]) -> Result<usize, Refusal> {
    let count = names.len() / NAME;
    let length = length_of(count);
    let paired = match FAULT {
        fault::PAIRS_BY_COUNT => bodies.len() / BODY == count,
        fault::PAIRS_BY_RATIO => bodies.len() == 2 * names.len(),
        _ => (names.len(), bodies.len()) == (NAME * count, BODY * count),
    };
    let most = if FAULT == fault::WRITER_TAKES_257 { MOST + 1 } else { MOST };
    let least = if FAULT == fault::EXACT_BUFFER_IS_SHORT { length + 1 } else { length };
    // What can be wrong, in the order in which it is refused.
    let mut faults = [
        (!paired, Refusal::Unpaired),
        (count > most, Refusal::Over256Profiles),
        (!ascending::<FAULT>(names.chunks_exact(NAME)), Refusal::NotAscending),
        (buffer.len() < least, Refusal::BufferShort),
    ];
    match FAULT {
        fault::COUNT_BEFORE_PAIRS => faults.swap(0, 1),
        fault::ORDER_BEFORE_COUNT => faults.swap(1, 2),
        fault::BUFFER_BEFORE_ORDER => faults.swap(2, 3),
        _ => {}
    }
    if let Some((_, refusal)) = faults.into_iter().find(|(wrong, _)| *wrong) {
        match (FAULT, refusal) {
            (fault::REFUSED_WRITE_WRITES, Refusal::BufferShort) => {
                let mut pack = vec![0; length];
                lay_out::<FAULT>(count, names, bodies, &mut pack);
                buffer.copy_from_slice(&pack[..buffer.len()]);
            }
            (fault::UNORDERED_WRITE_WRITES, Refusal::NotAscending) if buffer.len() >= length => {
                buffer[..bodies.len()].copy_from_slice(bodies);
            }
            _ => {}
        }
        return Err(refusal);
    }
    let (pack, later) = buffer.split_at_mut(length);
    lay_out::<FAULT>(count, names, bodies, pack);
    if FAULT == fault::LATER_BYTES_ARE_CLEARED {
        later.fill(0);
    }
    Ok(length)
}

// ---- The reader and the find -----------------------------------------------------------------------------------------------------------

/// The list of profiles that a pack holds, where it holds them.
pub struct Pack<'a> {
    pub bodies: &'a [[u8; BODY]],
    entries: &'a [[u8; ENTRY]],
}

impl<'a> Pack<'a> {
    pub fn count(&self) -> usize {
        self.entries.len()
    }

    pub fn names(&self) -> impl Iterator<Item = &'a [u8]> {
        self.entries.iter().map(|entry| &entry[..NAME])
    }
}

fn number_at(bytes: &[u8], place: usize) -> usize {
    (0..4).map(|byte| usize::from(bytes[place + byte]) << (8 * byte)).sum()
}

/// Reads a pack, from its trailer on.
pub fn read<const FAULT: u8>(bytes: &[u8]) -> Result<Pack<'_>, Refusal> {
    let behind = bytes.len().saturating_sub(TRAILER) % (BODY + ENTRY);
    let bytes = if FAULT == fault::BYTES_BEHIND_A_TRAILER { &bytes[..bytes.len() - behind] } else { bytes };
    let (front, trailer) = bytes.split_last_chunk::<TRAILER>().ok_or(Refusal::NoPack)?;
    let (index_offset, mut count) = (number_at(trailer, 0), number_at(trailer, 4));
    match FAULT {
        fault::NUMBER_IS_NOT_READ => count = front.len() / (BODY + ENTRY),
        fault::LOW_BYTES_OF_THE_NUMBER_ARE_READ => count %= 0x1_0000,
        _ => {}
    }
    let counts = match FAULT {
        fault::READER_TAKES_257 => 0..=MOST + 1,
        fault::READER_REFUSES_256 => 0..=MOST - 1,
        fault::READER_REFUSES_NONE => 1..=MOST,
        _ => 0..=MOST,
    };
    let pointed = FAULT == fault::INDEX_OFFSET_IS_NOT_READ || index_offset == BODY * count;
    let marked = FAULT == fault::MARK_IS_NOT_READ || trailer.ends_with(MARK);
    if !marked || !counts.contains(&count) || !pointed || front.len() != (BODY + ENTRY) * count {
        return Err(Refusal::NoPack);
    }
    let (bodies, index) = front.split_at(BODY * count);
    let pack = Pack { bodies: bodies.as_chunks().0, entries: index.as_chunks().0 };
    let in_place = |(place, entry): (usize, &[u8; ENTRY])| match (FAULT, number_at(entry, NAME)) {
        (fault::OFFSETS_ARE_NOT_READ, _) => true,
        (fault::OFFSET_OF_ANY_BODY, offset) => offset.is_multiple_of(BODY) && offset < BODY * count,
        (_, offset) => offset == BODY * place,
    };
    let fails = |body: &[u8; BODY]| FAULT == fault::BODIES_ARE_JUDGED && profile::check::<{ fault::NONE }>(0, body).is_err();
    if !pack.entries.iter().enumerate().all(in_place) || !ascending::<FAULT>(pack.names()) || pack.bodies.iter().any(fails) {
        return Err(Refusal::NoPack);
    }
    Ok(pack)
}

/// Finds the body of a name in a pack. Answers its offset.
pub fn find<const FAULT: u8>(bytes: &[u8], name: &[u8]) -> Result<usize, Refusal> {
    if FAULT == fault::NAME_BEFORE_PACK && name.len() != NAME {
        return Err(Refusal::NameMissing);
    }
    let pack = read::<FAULT>(bytes)?;
    let found = match FAULT {
        fault::FIND_BY_PREFIX => pack.names().position(|known| known.starts_with(name)),
        fault::FIND_BY_16_BYTES => pack.names().position(|known| name.starts_with(known)),
        fault::FIND_UNDER_THE_NEIGHBOUR => pack.names().position(|known| known == name).map(|place| place.saturating_sub(1)),
        fault::MISSING_NAME_IS_THE_NEXT if name.len() == NAME => pack.names().position(|known| known >= name),
        _ => pack.names().position(|known| known == name),
    };
    found.map(|place| BODY * place).ok_or(Refusal::NameMissing)
}

/// The bodies and entries where a pack of this length has them, whatever they are; none where the length is no pack's.
fn by_length(bytes: &[u8]) -> Option<Pack<'_>> {
    let count = bytes.len().checked_sub(TRAILER)? / (BODY + ENTRY);
    if count > MOST || bytes.len() != length_of(count) {
        return None;
    }
    let (bodies, rest) = bytes.split_at(BODY * count);
    Some(Pack { bodies: bodies.as_chunks().0, entries: rest[..ENTRY * count].as_chunks().0 })
}

/// Finds by halving, as any Rust program would in a pack that has been read; in other bytes it answers an entry with this name, or none.
pub fn find_checked(bytes: &[u8], name: &[u8]) -> Result<usize, Refusal> {
    let pack = by_length(bytes).ok_or(Refusal::NameMissing)?;
    let found = pack.entries.binary_search_by(|entry| entry[..NAME].cmp(name));
    found.map(|place| BODY * place).map_err(|_| Refusal::NameMissing)
}

/// Whether some call of the writer writes exactly these bytes. There is one list that it could be given: what stands where a pack of this length has
/// its names and bodies.
fn can_be_written(bytes: &[u8]) -> bool {
    let Some(pack) = by_length(bytes) else { return false };
    let names: Vec<u8> = pack.names().flatten().copied().collect();
    let mut buffer = vec![0; bytes.len()];
    write::<{ fault::NONE }>(&names, pack.bodies.as_flattened(), &mut buffer) == Ok(bytes.len()) && buffer == bytes
}

// ---- A call on both sides --------------------------------------------------------------------------------------------------------------

/// What a comparison has met.
pub struct Met {
    /// Writes by the number that they answered with, and by what was wrong: 1 unpaired, 2 over 256 profiles, 4 not ascending, 8 a short buffer, added.
    pub writes: [u64; 20],
    pub wrong: [u64; 16],
    /// Reads that gave a list, by its number of profiles, and those refused with 14.
    pub lists: [u64; MOST + 1],
    pub refused: u64,
    /// Damaged packs by what was done to them, of `DAMAGES`: those that are packs still, and those refused.
    pub damaged: [[u64; 2]; DAMAGES.len()],
    /// Files of over 256 profiles that are else well laid out.
    pub over: u64,
    /// Finds in packs: found, a name of 16 bytes that is missing, a name of another length; and finds refused with 14, by the same two lengths.
    pub finds: [u64; 3],
    pub refused_finds: [u64; 2],
    /// Finds without judging in bytes that are no pack: found, not found in a pack's length, another length.
    pub unjudged: [u64; 3],
}

impl Default for Met {
    fn default() -> Self {
        Met {
            writes: [0; 20],
            wrong: [0; 16],
            lists: [0; MOST + 1],
            refused: 0,
            damaged: [[0; 2]; DAMAGES.len()],
            over: 0,
            finds: [0; 3],
            refused_finds: [0; 2],
            unjudged: [0; 3],
        }
    }
}

impl fmt::Display for Met {
    fn fmt(&self, out: &mut fmt::Formatter<'_>) -> fmt::Result {
        write!(out, "{} packs written, refused with", self.writes[0])?;
        (16..20).try_for_each(|number| write!(out, " {number}: {}", self.writes[number]))?;
        let sizes = self.lists.iter().filter(|count| **count > 0).count();
        write!(out, "; {} packs read, of {sizes} different numbers of profiles, ", self.lists.iter().sum::<u64>())?;
        write!(out, "and {} byte strings refused with 14, {} of them for over 256 profiles alone", self.refused, self.over)?;
        let damaged = self.damaged.iter().flatten().sum::<u64>();
        write!(out, "; {damaged} damaged packs, still packs/refused:")?;
        for (place, (what, [packs, refused])) in DAMAGES.iter().zip(self.damaged).enumerate() {
            write!(out, "{} {what} {packs}/{refused}", if place == 0 { "" } else { "," })?;
        }
        let ([found, missing, lengths], [refused, refused_lengths]) = (self.finds, self.refused_finds);
        write!(out, "; finds in packs: {found} found, {missing} missing, {lengths} of a name that is not 16 bytes long")?;
        write!(out, "; {} finds refused with 14, {refused_lengths} of them of such a name", refused + refused_lengths)?;
        let [found, missing, other] = self.unjudged;
        write!(out, "; unjudged finds in what is no pack: {found} found, {missing} missing, {other} in a length that is no pack's")
    }
}

/// Bytes for a message, as many as people read.
fn shown(bytes: &[u8]) -> String {
    let some: String = bytes.iter().take(220).map(|byte| format!("{byte:02X}")).collect();
    format!("{} bytes ({some}{})", bytes.len(), if bytes.len() > 220 { ".." } else { "" })
}

/// From names and bodies into a buffer.
type Writer = fn(&[u8], &[u8], &mut [u8]) -> Result<usize, Refusal>;

/// The plain functions, without a fault or with one.
pub struct Plain {
    fault: u8,
    write: Writer,
    read: fn(&[u8]) -> Result<Pack<'_>, Refusal>,
    find: fn(&[u8], &[u8]) -> Result<usize, Refusal>,
}

impl Plain {
    pub fn with<const FAULT: u8>() -> Self {
        Plain { fault: FAULT, write: write::<FAULT>, read: read::<FAULT>, find: find::<FAULT> }
    }
}

struct Comparison {
    plain: Plain,
    met: Met,
    /// What is lent to the library, with guards, and what has to stand there afterwards.
    theirs: Vec<u8>,
    ours: Vec<u8>,
}

impl Comparison {
    fn lend(&mut self, slices: &[&[u8]]) {
        self.theirs.clear();
        slices.iter().for_each(|bytes| lend(&mut self.theirs, bytes));
        self.ours.clone_from(&self.theirs);
    }

    /// Compares the answers, and what was lent with the bytes around it.
    fn agree(&self, ours: u32, theirs: u32, what: impl Fn() -> String) -> Result<(), String> {
        if ours != theirs {
            return Err(format!("{}: plain {ours:08X}h, library {theirs:08X}h", what()));
        }
        if self.ours != self.theirs {
            let place = self.ours.iter().zip(&self.theirs).position(|(ours, theirs)| ours != theirs).unwrap_or(0);
            let (ours, theirs) = (self.ours[place], self.theirs[place]);
            return Err(format!("{}: byte {place} of what is lent, with guards: plain {ours:02X}h, library {theirs:02X}h", what()));
        }
        Ok(())
    }

    /// A write into a buffer that holds something. Answers the number.
    fn write(&mut self, names: &[u8], bodies: &[u8], buffer: &[u8]) -> Result<u32, String> {
        self.lend(&[names, bodies, buffer]);
        let second = GUARD + names.len() + 2 * GUARD;
        let third = second + bodies.len() + 2 * GUARD;
        let lent = self.theirs.as_mut_ptr();
        // SAFETY: the three slices stand in the lent memory one after the other, each with as many bytes as said.
        let theirs = unsafe {
            library::mfrc531_pack_write(lent.add(GUARD), names.len(), lent.add(second), bodies.len(), lent.add(third), buffer.len())
        };
        let ours = answer::of_number((self.plain.write)(names, bodies, &mut self.ours[third..third + buffer.len()]));
        let what = || format!("write of names of {} and bodies of {} bytes into {} bytes", shown(names), bodies.len(), buffer.len());
        self.agree(ours, theirs, what)?;
        let refusal = (theirs & 0xFF) as usize;
        let left = if refusal == 0 { (theirs >> 8) as usize } else { 0 };
        if self.theirs[third + left..third + buffer.len()] != buffer[left..] {
            return Err(format!("{}: answered {theirs:08X}h, and has changed bytes that it has to leave", what()));
        }
        self.met.writes[refusal] += 1;
        Ok(theirs)
    }

    /// A read. Answers whether it gives a list.
    fn read(&mut self, bytes: &[u8]) -> Result<bool, String> {
        self.lend(&[bytes]);
        // SAFETY: the lent bytes are as many as said.
        let theirs = unsafe { library::mfrc531_pack_read(self.theirs.as_ptr().add(GUARD), bytes.len()) };
        let ours = answer::of_number((self.plain.read)(bytes).map(|pack| pack.count()));
        self.agree(ours, theirs, || format!("read of {}", shown(bytes)))?;
        let pack = ours & 0xFF == 0;
        if self.plain.fault == fault::NONE && pack != can_be_written(bytes) {
            return Err(format!("read of {}: answered {ours:08X}h, but what the writer writes says otherwise", shown(bytes)));
        }
        *(if pack { &mut self.met.lists[(ours >> 8) as usize] } else { &mut self.met.refused }) += 1;
        Ok(pack)
    }

    /// A find by both functions. Answers the first one's number.
    fn find(&mut self, bytes: &[u8], name: &[u8]) -> Result<u32, String> {
        self.lend(&[bytes, name]);
        let lent = self.theirs.as_ptr();
        let second = GUARD + bytes.len() + 2 * GUARD;
        // SAFETY: both slices stand in the lent memory one after the other, each with as many bytes as said.
        let [theirs, unjudged] = unsafe {
            let (pack, wanted) = (lent.add(GUARD), lent.add(second));
            [
                library::mfrc531_pack_find(pack, bytes.len(), wanted, name.len()),
                library::mfrc531_pack_find_checked(pack, bytes.len(), wanted, name.len()),
            ]
        };
        let ours = answer::of_number((self.plain.find)(bytes, name));
        let what = || format!("find of {} in {}", shown(name), shown(bytes));
        self.agree(ours, theirs, what)?;
        let whole = name.len() == NAME;
        if ours != Refusal::NoPack as u32 {
            self.agree(ours, unjudged, || format!("{}, checked before", what()))?;
            let place = if ours & 0xFF == 0 { 0 } else { 2 - usize::from(whole) };
            self.met.finds[place] += 1;
            return Ok(ours);
        }
        self.met.refused_finds[usize::from(!whole)] += 1;
        let pack = by_length(bytes);
        let place = match (unjudged, &pack) {
            (15, None) => 2,
            (15, Some(_)) => 1,
            // An entry with exactly this name, by its place.
            (answer, Some(pack)) if answer & 0xFF == 0 => {
                let offset = (answer >> 8) as usize;
                if !offset.is_multiple_of(BODY) || pack.names().nth(offset / BODY) != Some(name) {
                    return Err(format!("{}, not checked before: library {unjudged:08X}h", what()));
                }
                0
            }
            _ => return Err(format!("{}, not checked before: library {unjudged:08X}h", what())),
        };
        self.met.unjudged[place] += 1;
        Ok(ours)
    }

    /// Finds of a name, of its neighbours, and of names of other lengths that begin with it.
    fn find_near(&mut self, bytes: &[u8], name: &[u8; NAME], random: &mut Random) -> Result<(), String> {
        (0..NEAR).try_for_each(|which| self.find(bytes, &near(name, which, random)).map(|_| ()))
    }

    /// A read, and finds of every name that stands where a pack of this length has one, with what is near to it; or, where no name does, of some.
    fn judge(&mut self, bytes: &[u8], random: &mut Random) -> Result<(), String> {
        self.read(bytes)?;
        for name in names_in(bytes) {
            self.find_near(bytes, &name, random)?;
        }
        Ok(())
    }

    /// A read, and finds: in a pack of every name, in other bytes of one, and then of what is near to one. Answers whether it is a pack.
    fn judge_quickly(&mut self, bytes: &[u8], random: &mut Random) -> Result<bool, String> {
        let pack = self.read(bytes)?;
        let names = names_in(bytes);
        let some = random.of(&names);
        for name in if pack { &names } else { std::slice::from_ref(&some) } {
            self.find(bytes, name)?;
        }
        let which = 1 + random.below(NEAR - 1);
        self.find(bytes, &near(&some, which, random))?;
        Ok(pack)
    }

    /// What a written pack has to be: it reads as the same list, name by name and body by body, and each name is found with its body.
    fn round(&mut self, list: &List, random: &mut Random, near_too: bool) -> Result<(), String> {
        let length = length_of(list.count());
        let later = random.below(80) as usize;
        let before = random.bytes(length + later);
        let answer = self.write(&list.names, &list.bodies, &before)?;
        if answer != (length as u32) << 8 {
            return Err(format!("write of {} profiles: answered {answer:08X}h", list.count()));
        }
        let last = self.theirs.len() - GUARD - before.len();
        let bytes = self.theirs[last..last + length].to_vec();
        self.read(&bytes)?;
        for (place, (name, body)) in list.names.as_chunks::<NAME>().0.iter().zip(list.bodies.as_chunks::<BODY>().0).enumerate() {
            let offset = BODY * place;
            let name_at = BODY * list.count() + ENTRY * place;
            let answer = self.find(&bytes, name)?;
            if answer != (offset as u32) << 8 || bytes[offset..offset + BODY] != *body || bytes[name_at..name_at + NAME] != *name {
                return Err(format!("profile {place} of {} written: found by {answer:08X}h", list.count()));
            }
            if near_too {
                self.find_near(&bytes, name, random)?;
            }
        }
        Ok(())
    }
}

/// Ways to be near a name, of which the first is the name itself.
const NEAR: u64 = 9;

/// The name, one of its neighbours, or a name of another length that begins with it.
fn near(name: &[u8; NAME], which: u64, random: &mut Random) -> Vec<u8> {
    let value = u128::from_be_bytes(*name);
    let filler = random.byte();
    let long = |length: usize| name.iter().copied().chain(std::iter::repeat(filler)).take(length).collect();
    match which {
        0 => name.to_vec(),
        1 => (value ^ 1 << random.below(128)).to_be_bytes().to_vec(),
        2 => value.wrapping_sub(1).to_be_bytes().to_vec(),
        3 => value.wrapping_add(1).to_be_bytes().to_vec(),
        4 => Vec::new(),
        5 => name[..NAME - 1].to_vec(),
        6 => long(NAME + 1),
        7 => long(300),
        _ => random.bytes(NAME),
    }
}

/// The names that stand where a pack of this length has them; where it has none, some that may stand elsewhere.
fn names_in(bytes: &[u8]) -> Vec<[u8; NAME]> {
    let mut names: Vec<[u8; NAME]> = match by_length(bytes) {
        Some(pack) => pack.entries.iter().map(|entry| std::array::from_fn(|place| entry[place])).collect(),
        None => bytes.windows(NAME).step_by(53).take(2).map(|name| std::array::from_fn(|place| name[place])).collect(),
    };
    if names.is_empty() {
        names.push([0; NAME]);
    }
    names
}

// ---- Lists of profiles -----------------------------------------------------------------------------------------------------------------

/// Names and bodies as the writer takes them.
#[derive(Clone)]
struct List {
    names: Vec<u8>,
    bodies: Vec<u8>,
}

impl List {
    fn of(names: &[[u8; NAME]], random: &mut Random) -> Self {
        let shipped = random.one_in(8);
        let bodies = names.iter().flat_map(|_| if shipped { SHIPPED.to_vec() } else { random.bytes(BODY) }).collect();
        List { names: names.as_flattened().to_vec(), bodies }
    }

    /// So many profiles with ascending names.
    fn some(count: usize, random: &mut Random) -> Self {
        let kind = random.below(4);
        let beginning = random.bytes(NAME);
        let mut names = BTreeSet::new();
        while names.len() < count {
            let mut name: [u8; NAME] = std::array::from_fn(|place| beginning[place]);
            let serial = names.len() as u32;
            match kind {
                0 => name = std::array::from_fn(|_| random.byte()),
                // Alike in all but the last bytes, or in all but two bytes elsewhere, followed by zeros.
                1 => name[NAME - 3..].copy_from_slice(&(serial * 7).to_be_bytes()[1..]),
                2 => {
                    name[6..].fill(0);
                    name[3..6].copy_from_slice(&(serial * 129).to_be_bytes()[1..]);
                }
                // At the limits of a byte, signed or not.
                _ => name = std::array::from_fn(|_| random.of(&[0x00, 0x01, 0x7F, 0x80, 0xFF])),
            }
            names.insert(name);
        }
        let names: Vec<[u8; NAME]> = names.into_iter().collect();
        List::of(&names, random)
    }

    fn count(&self) -> usize {
        self.names.len() / NAME
    }

    /// Laid out as a pack, also where the writer would refuse the list.
    fn laid_out<const FAULT: u8>(&self) -> Vec<u8> {
        let mut bytes = vec![0; length_of(self.count())];
        lay_out::<FAULT>(self.count(), &self.names, &self.bodies, &mut bytes);
        bytes
    }

    fn name(&mut self, place: usize) -> &mut [u8] {
        &mut self.names[NAME * place..NAME * (place + 1)]
    }
}

/// Small packs, of 0 to 3 profiles: names at the limits, names that differ in the last bit, names apart by the sign of a byte.
fn small_lists(random: &mut Random) -> Vec<List> {
    let last = |byte: u8| {
        let mut name = *b"reader, profile ";
        name[NAME - 1] = byte;
        name
    };
    let high = |byte: u8| std::array::from_fn(|place| if place == 0 { byte } else { !byte });
    let names: [&[[u8; NAME]]; 9] = [
        &[],
        &[[0x00; NAME]],
        &[[0xFF; NAME]],
        &[last(0)],
        &[[0x00; NAME], [0xFF; NAME]],
        &[high(0x7F), high(0x80)],
        &[last(0), last(1)],
        &[[0x00; NAME], high(0x7F), high(0x80)],
        &[last(1), last(2), last(3)],
    ];
    names.map(|names| List::of(names, random)).to_vec()
}

// ---- The comparison --------------------------------------------------------------------------------------------------------------------

/// Compares on so many random files, most of them damaged packs; and before them, unless these are wanted alone, on what is near to small packs, on
/// pairs of lengths, on buffers of every length, on every combination of what a writer refuses, and on every number of profiles. What was met, or
/// what differs.
pub fn compare(plain: Plain, seed: u64, count: u64, random_alone: bool) -> Result<Met, String> {
    let mut comparison = Comparison { plain, met: Met::default(), theirs: Vec::new(), ours: Vec::new() };
    let mut random = Random::new(seed);
    if !random_alone {
        near_small_packs(&mut comparison, &mut random)?;
        pairs_of_lengths(&mut comparison)?;
        lengths_of_buffers(&mut comparison, &mut random)?;
        combinations(&mut comparison, &mut random)?;
        numbers_of_profiles(&mut comparison, &mut random)?;
    }
    damaged_packs(&mut comparison, &mut random, count)?;
    Ok(comparison.met)
}

/// Small packs with every bit turned over, with every end and every beginning cut off, and with every byte added at either end.
fn near_small_packs(comparison: &mut Comparison, random: &mut Random) -> Result<(), String> {
    for list in small_lists(random) {
        comparison.round(&list, random, true)?;
        let pack = list.laid_out::<{ fault::NONE }>();
        for name in list.names.as_chunks::<NAME>().0 {
            for bit in 0..128 {
                comparison.find(&pack, &(u128::from_be_bytes(*name) ^ 1 << bit).to_be_bytes())?;
            }
        }
        for bit in 0..8 * pack.len() {
            let mut turned = pack.clone();
            turned[bit / 8] ^= 1 << (bit % 8);
            comparison.judge(&turned, random)?;
        }
        for cut in 1..=pack.len() {
            comparison.judge(&pack[..pack.len() - cut], random)?;
            comparison.judge(&pack[cut..], random)?;
        }
        for byte in 0..=255 {
            comparison.judge(&[&pack[..], &[byte]].concat(), random)?;
            comparison.judge(&[&[byte], &pack[..]].concat(), random)?;
        }
    }
    Ok(())
}

/// Every pair of lengths, of names to 70 bytes and of bodies to 140, with ascending and with descending names, and with room and without.
fn pairs_of_lengths(comparison: &mut Comparison) -> Result<(), String> {
    let rising: Vec<u8> = (0..70).collect();
    let falling: Vec<u8> = rising.iter().rev().copied().collect();
    let bodies: Vec<u8> = (100..240).collect();
    let buffer = [0xEE; 230];
    for names_length in 0..=70 {
        for bodies_length in 0..=140 {
            for names in [&rising, &falling] {
                for buffer in [&buffer[..], &[]] {
                    comparison.write(&names[..names_length], &bodies[..bodies_length], buffer)?;
                }
            }
        }
    }
    Ok(())
}

/// Small packs into buffers of every length, up to well above what they need.
fn lengths_of_buffers(comparison: &mut Comparison, random: &mut Random) -> Result<(), String> {
    for list in small_lists(random) {
        for length in 0..=length_of(list.count()) + 70 {
            comparison.write(&list.names, &list.bodies, &random.bytes(length))?;
        }
    }
    Ok(())
}

/// All that can be wrong with a write, in every combination: the refusal is the lowest number of what is wrong.
fn combinations(comparison: &mut Comparison, random: &mut Random) -> Result<(), String> {
    for count in [2, 3, MOST, MOST + 1, 300] {
        let good = List::some(count, random);
        let over = count > MOST;
        let mut orders = vec![(false, good.clone())];
        for (place, from) in [(1, 0), (count - 1, count - 2), (0, count - 1)] {
            // Equal names at either end, and a first name that is the last one too.
            let mut list = good.clone();
            let name = list.name(from).to_vec();
            list.name(place).copy_from_slice(&name);
            orders.push((true, list));
        }
        let mut falling = good.clone();
        falling.names = good.names.rchunks_exact(NAME).flatten().copied().collect();
        orders.push((true, falling));
        for (unordered, list) in orders {
            let (names, bodies) = (list.names.len(), list.bodies.len());
            let pairs = [
                (names, bodies),
                (names - 1, bodies),
                (names, bodies - 1),
                (names - NAME, bodies),
                (names, bodies - BODY),
                (names - 8, bodies - 16),
            ];
            for (place, (names, bodies)) in pairs.into_iter().enumerate() {
                let needed = length_of(names / NAME);
                for (short, length) in [(false, needed), (false, needed + 9), (true, needed - 1), (true, 0)] {
                    let wrong = [place > 0, over, unordered, short];
                    let wanted = (16..).zip(wrong).find(|(_, wrong)| *wrong).map_or((needed as u32) << 8, |(number, _)| number);
                    let answer = comparison.write(&list.names[..names], &list.bodies[..bodies], &random.bytes(length))?;
                    if answer != wanted {
                        return Err(format!("write with the faults {wrong:?}: answered {answer:08X}h, wanted {wanted:08X}h"));
                    }
                    let what = wrong.iter().enumerate().map(|(bit, wrong)| usize::from(*wrong) << bit).sum::<usize>();
                    comparison.met.wrong[what] += 1;
                }
            }
        }
    }
    Ok(())
}

/// Packs of every number of profiles, and files and lists of more: right above the limit, and where a number kept in fewer bits would be small again.
fn numbers_of_profiles(comparison: &mut Comparison, random: &mut Random) -> Result<(), String> {
    for count in 0..=MOST {
        let list = List::some(count, random);
        comparison.round(&list, random, [1, 16, MOST - 1, MOST].contains(&count))?;
    }
    for count in [MOST + 1, MOST + 2, 2 * MOST, 0x1_0000, 0x1_0000 + 3] {
        let names: Vec<[u8; NAME]> = (0..count as u128).map(|number| (number << 64).to_be_bytes()).collect();
        let list = List::of(&names, random);
        let bytes = list.laid_out::<{ fault::NONE }>();
        let answers = [comparison.write(&list.names, &list.bodies, &bytes)?, comparison.find(&bytes, &names[0])?];
        if answers != [17, 14] || comparison.read(&bytes)? {
            return Err(format!("{count} profiles: a write and a find answered {answers:?}"));
        }
        comparison.met.over += 1;
    }
    Ok(())
}

/// What is done to packs.
pub const DAMAGES: [&str; 17] = [
    "a bit",
    "a bit of index or trailer",
    "a byte",
    "two entries exchanged",
    "two names exchanged",
    "two bodies exchanged",
    "two bodies exchanged with their offsets",
    "a name that is its neighbour's",
    "another byte in a name",
    "a number",
    "another pack's trailer",
    "two packs behind one another",
    "an end or a beginning cut off",
    "bytes added at the end or in front",
    "a profile left out",
    "another layout",
    "another order of names",
];

/// Damages a pack, by the place in `DAMAGES`; none where it has too few profiles for that.
fn damaged(which: usize, list: &List, random: &mut Random) -> Option<Vec<u8>> {
    let count = list.count();
    let mut bytes = list.laid_out::<{ fault::NONE }>();
    let below = |random: &mut Random, limit: usize| random.below(limit as u64) as usize;
    // Two different profiles, where there are two.
    let pair = (count >= 2).then(|| {
        let one = below(random, count);
        (one, (one + 1 + below(random, count - 1)) % count)
    });
    let (index, last) = (BODY * count, (BODY + ENTRY) * count);
    let entry = |place: usize| index + ENTRY * place;
    let swap = |bytes: &mut [u8], one: usize, other: usize, length: usize| (0..length).for_each(|k| bytes.swap(one + k, other + k));
    match which {
        0 | 2 => {
            let place = below(random, bytes.len());
            bytes[place] = if which == 0 { bytes[place] ^ 1 << random.below(8) } else { random.byte() };
        }
        1 => {
            let place = index + below(random, bytes.len() - index);
            bytes[place] ^= 1 << random.below(8);
        }
        3..=7 => {
            let (one, other) = pair?;
            match which {
                3 => swap(&mut bytes, entry(one), entry(other), ENTRY),
                4 => swap(&mut bytes, entry(one), entry(other), NAME),
                5 => swap(&mut bytes, BODY * one, BODY * other, BODY),
                6 => {
                    swap(&mut bytes, BODY * one, BODY * other, BODY);
                    swap(&mut bytes, entry(one) + NAME, entry(other) + NAME, ENTRY - NAME);
                }
                _ => {
                    let place = 1 + below(random, count - 1);
                    let (from, to) = if random.one_in(2) { (place, place - 1) } else { (place - 1, place) };
                    bytes.copy_within(entry(from)..entry(from) + NAME, entry(to));
                }
            }
        }
        8 => {
            let place = entry(below(random, count.checked_sub(1)? + 1)) + below(random, NAME);
            bytes[place] = random.of(&[0x00, 0x7F, 0x80, 0xFF, bytes[place].wrapping_add(1), bytes[place].wrapping_sub(1)]);
        }
        9 => {
            let place = match random.below(3) {
                0 => last,
                1 => last + 4,
                _ => entry(below(random, count.checked_sub(1)? + 1)) + NAME,
            };
            let by = random.of(&[1, 20, 32, 52, 0x100, 0x1_0000, 0x100_0000, 0x8000_0000]);
            let changed = number_at(&bytes, place) as u32;
            let changed = if random.one_in(2) { changed.wrapping_add(by) } else { changed.wrapping_sub(by) };
            bytes[place..place + 4].copy_from_slice(&changed.to_le_bytes());
        }
        10 => {
            let other = random.of(&[0, 1, count + 1, count.saturating_sub(1), 255, 256, 257]);
            if other == count {
                return None;
            }
            bytes[last..].copy_from_slice(&trailer::<{ fault::NONE }>(other));
        }
        11 => {
            let other = random.of(&[0, 0, 1, 2, count]);
            let other = if other == count { bytes.clone() } else { List::some(other, random).laid_out::<{ fault::NONE }>() };
            bytes = if random.one_in(2) { [bytes, other].concat() } else { [other, bytes].concat() };
        }
        12 => {
            let limit = if random.one_in(2) { bytes.len() } else { bytes.len().min(60) };
            let cut = 1 + below(random, limit);
            bytes = if random.one_in(2) { bytes[cut..].to_vec() } else { bytes[..bytes.len() - cut].to_vec() };
        }
        13 => {
            let some = 1 + below(random, 60);
            let length = random.of(&[1, 1, TRAILER, ENTRY, BODY, BODY + ENTRY, some]);
            let added = if random.one_in(2) { vec![0; length] } else { random.bytes(length) };
            bytes = if random.one_in(2) { [bytes, added].concat() } else { [added, bytes].concat() };
        }
        14 => {
            // Of some profile the body, the entry, or both; the trailer may go by what is left.
            let place = below(random, count.checked_sub(1)? + 1);
            let parts = random.below(4);
            if parts != 0 {
                bytes.drain(entry(place)..entry(place) + ENTRY);
            }
            if parts != 1 {
                bytes.drain(BODY * place..BODY * (place + 1));
            }
            if parts == 3 {
                let last = bytes.len() - TRAILER;
                bytes[last..].copy_from_slice(&trailer::<{ fault::NONE }>(count - 1));
            }
        }
        15 if count > 0 => {
            bytes = match random.below(5) {
                0 => list.laid_out::<{ fault::INDEX_BEFORE_BODIES }>(),
                1 if count > 1 => list.laid_out::<{ fault::NAMES_THEN_OFFSETS }>(),
                2 => list.laid_out::<{ fault::NUMBER_BEFORE_INDEX_OFFSET }>(),
                3 => list.laid_out::<{ fault::HIGH_BYTE_FIRST }>(),
                _ => list.laid_out::<{ fault::OFFSETS_COUNT_BACK }>(),
            }
        }
        16 if count > 1 => {
            let mut names: Vec<[u8; NAME]> = list.names.as_chunks().0.to_vec();
            match random.below(3) {
                0 => names.reverse(),
                1 => names.sort_by_key(|name| name.map(|byte| byte as i8)),
                _ => names.sort_by_key(|name| name.map(u8::reverse_bits)),
            }
            if names.as_flattened() == list.names {
                return None;
            }
            bytes = List { names: names.as_flattened().to_vec(), bodies: list.bodies.clone() }.laid_out::<{ fault::NONE }>();
        }
        _ => return None,
    }
    Some(bytes)
}

/// So many damaged packs. Each pack is compared before, in writes that may be refused, and as it is.
fn damaged_packs(comparison: &mut Comparison, random: &mut Random, count: u64) -> Result<(), String> {
    let mut left = count;
    while left > 0 {
        let profiles = match random.below(200) {
            0..3 => random.of(&[MOST - 1, MOST, MOST, MOST + 1, MOST + 2, 300]),
            3..5 => random.below(MOST as u64) as usize,
            5..20 => random.below(40) as usize,
            _ => random.below(7) as usize,
        };
        let list = List::some(profiles, random);
        some_writes(comparison, &list, random)?;
        if profiles > MOST {
            let pack = comparison.judge_quickly(&list.laid_out::<{ fault::NONE }>(), random)?;
            comparison.met.over += u64::from(!pack);
        } else {
            comparison.round(&list, random, profiles < 3)?;
        }
        for _ in 0..left.min(20) {
            let (which, bytes) = loop {
                let which = random.below(DAMAGES.len() as u64) as usize;
                if let Some(bytes) = damaged(which, &list, random) {
                    break (which, bytes);
                }
            };
            let pack = comparison.judge_quickly(&bytes, random)?;
            comparison.met.damaged[which][usize::from(!pack)] += 1;
            left -= 1;
        }
    }
    Ok(())
}

/// Writes of a list with names out of order, names and bodies of other lengths, and buffers around what it needs, each or none of them.
fn some_writes(comparison: &mut Comparison, list: &List, random: &mut Random) -> Result<(), String> {
    for _ in 0..3 {
        let mut list = list.clone();
        let count = list.count();
        if count > 1 && random.one_in(3) {
            let place = random.below(count as u64 - 1) as usize;
            let (name, next) = (list.name(place).to_vec(), list.name(place + 1).to_vec());
            list.name(place + 1).copy_from_slice(&name);
            if random.one_in(2) {
                list.name(place).copy_from_slice(&next);
            }
        }
        if random.one_in(4) {
            let bytes = random.of(&[1, 1, 8, NAME, NAME + 1]);
            match random.below(4) {
                0 => list.names.truncate(list.names.len().saturating_sub(bytes)),
                1 => list.bodies.truncate(list.bodies.len().saturating_sub(2 * bytes)),
                2 => list.bodies.resize(list.bodies.len() + bytes, 0xFF),
                _ => {
                    list.names.resize(list.names.len() + bytes, 0xFF);
                    list.bodies.resize(list.bodies.len() + 2 * bytes, 0xFF);
                }
            }
        }
        let needed = length_of(list.count());
        let length = random.of(&[needed, needed + 1, needed + 61, needed - 1, needed - TRAILER, needed / 2, 0]);
        comparison.write(&list.names, &list.bodies, &random.bytes(length))?;
    }
    Ok(())
}

#[cfg(test)]
mod tests {
    use super::*;

    const NONE: u8 = fault::NONE;

    /// Two profiles, byte by byte.
    #[test]
    fn a_pack_by_hand() {
        let names = [*b"alpha\0\0\0\0\0\0\0\0\0\0\0", *b"beta\0\0\0\0\0\0\0\0\0\0\0\xFF"];
        let bodies = [[0xA1; BODY], [0xB2; BODY]];
        let mut buffer = [0xEE; 120];
        assert_eq!(write::<NONE>(names.as_flattened(), bodies.as_flattened(), &mut buffer), Ok(116));
        assert_eq!((&buffer[..32], &buffer[32..64]), (&[0xA1; 32][..], &[0xB2; 32][..]));
        assert_eq!((&buffer[64..80], &buffer[80..84]), (&names[0][..], &[0, 0, 0, 0][..]));
        assert_eq!((&buffer[84..100], &buffer[100..104]), (&names[1][..], &[32, 0, 0, 0][..]));
        assert_eq!(buffer[104..], *b"\x40\0\0\0\x02\0\0\0RC53\xEE\xEE\xEE\xEE");
        let pack = &buffer[..116];
        let list = read::<NONE>(pack).unwrap();
        assert!(list.names().eq(names.iter().map(|name| &name[..])) && list.bodies == bodies);
        assert_eq!((find::<NONE>(pack, &names[0]), find::<NONE>(pack, &names[1])), (Ok(0), Ok(32)));
        for missing in [&b"alpha"[..], &names[0][..15], b"gamma\0\0\0\0\0\0\0\0\0\0\0", &[0; 17], &[]] {
            assert_eq!((find::<NONE>(pack, missing), find_checked(pack, missing)), (Err(Refusal::NameMissing), Err(Refusal::NameMissing)));
            assert_eq!(find::<NONE>(&buffer, missing), Err(Refusal::NoPack));
        }
        assert_eq!(answer::of_number(Ok(13_324)), 13_324 << 8);
        assert_eq!(answer::of_number(Err(Refusal::BufferShort)), 19);
    }

    /// The empty pack is eight zeros and the mark, and no other bytes that are as short are a pack.
    #[test]
    fn the_empty_pack() {
        let mut buffer = [0xEE; 13];
        assert_eq!(write::<NONE>(&[], &[], &mut buffer[..11]), Err(Refusal::BufferShort));
        assert_eq!(buffer, [0xEE; 13]);
        assert_eq!(write::<NONE>(&[], &[], &mut buffer), Ok(12));
        assert_eq!(buffer, *b"\0\0\0\0\0\0\0\0RC53\xEE");
        assert_eq!(read::<NONE>(&buffer[..12]).map(|pack| pack.count()).ok(), Some(0));
        assert_eq!(find::<NONE>(&buffer[..12], &[0; NAME]), Err(Refusal::NameMissing));
        for length in (0..=13).filter(|length| *length != 12) {
            assert_eq!(find::<NONE>(&buffer[..length], &[0; NAME]), Err(Refusal::NoPack));
        }
    }

    /// The limit, and the order of names: 7Fh before 80h.
    #[test]
    fn limits() {
        let names: Vec<[u8; NAME]> = (0..=MOST as u128).map(|number| (number << 112).to_be_bytes()).collect();
        let bodies = vec![[0; BODY]; MOST + 1];
        let mut buffer = vec![0; length_of(MOST + 1)];
        let mut written =
            |names: &[[u8; NAME]], bodies: &[[u8; BODY]]| write::<NONE>(names.as_flattened(), bodies.as_flattened(), &mut buffer);
        assert_eq!(written(&names[..MOST], &bodies[..MOST]), Ok(13_324));
        assert_eq!(written(&names, &bodies), Err(Refusal::Over256Profiles));
        assert_eq!(written(&names, &bodies[..MOST]), Err(Refusal::Unpaired));
        assert_eq!(written(&[[0x7F; NAME], [0x80; NAME]], &bodies[..2]), Ok(116));
        assert_eq!(written(&[[0x80; NAME], [0x7F; NAME]], &bodies[..2]), Err(Refusal::NotAscending));
        assert_eq!(written(&[[0x80; NAME]; 2], &bodies[..2]), Err(Refusal::NotAscending));
        assert_eq!(write::<NONE>(&[0; 17], &[0; 34], &mut buffer), Err(Refusal::Unpaired));
    }

    /// A comparison meets every answer, every number of profiles and every combination of what a writer refuses; every way to damage a pack, with
    /// packs that stay packs exactly where they can; and finds of every kind.
    #[test]
    fn comparisons_meet_everything() {
        let met = compare(Plain::with::<NONE>(), 1, 100_000, false).unwrap();
        assert!([0, 16, 18, 19].iter().all(|number| met.writes[*number] > 1_000) && met.writes[17] > 60, "{met}");
        assert!(met.wrong.iter().all(|count| *count > 3), "{met}");
        assert!(met.lists.iter().all(|count| *count > 0) && met.lists[..4].iter().all(|count| *count > 300), "{met}");
        assert!(met.lists[MOST] > 20 && met.over > 20 && met.refused > 60_000, "{met}");
        // Where nothing that an order or a number decides is moved.
        let stay = ["a bit", "a bit of index or trailer", "a byte", "two bodies exchanged", "another byte in a name", "a profile left out"];
        for (what, [packs, refused]) in DAMAGES.iter().zip(met.damaged) {
            assert!(if stay.contains(what) { packs > 100 } else { packs == 0 }, "{what}: {packs} are packs");
            assert!(refused > if *what == "two bodies exchanged" { 20 } else { 600 }, "{what}: {refused} are refused");
        }
        assert!(met.finds.iter().chain(&met.refused_finds).chain(&met.unjudged).all(|count| *count > 3_000), "{met}");
    }
}
