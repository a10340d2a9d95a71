//! A call as the lists have it, in a form that a person can read, write and repeat.

use crate::chip_memory::{place_name, places_of, Memory, SIZE};
use crate::plain::{stored_nibble, Edition};
use crate::random::Random;
use std::fmt;

/// How an image's bytes are made.
#[derive(Clone, Copy, PartialEq, Eq, Debug)]
pub enum Fill {
    /// Every byte random.
    Noise,
    /// The profile of 005's Table 15 at 010h, the rest random.
    Shipped,
    /// A profile with settings that make things happen, and elsewhere bytes in the format of keys, a few wrong ones among them.
    Keys,
}

/// An image, by what it is made from: its bytes are the same each time.
#[derive(Clone, Copy, PartialEq, Eq, Debug)]
pub struct Image {
    pub fill: Fill,
    pub seed: u64,
    pub length: usize,
    /// Bytes 000h-003h. A list need not say them where they are the MFRC531's.
    pub type_bytes: [u8; 4],
}

/// The start-up profile that 005 prints in its Table 15.
pub const SHIPPED: [u8; 32] = [
    0x00, 0x58, 0x3F, 0x3F, 0x19, 0x13, 0x3F, 0x3B, 0x00, 0x73, 0x08, 0xAD, 0xFF, 0x1E, 0x41, 0x00, 0x00, 0x06, 0x03, 0x63, 0x63, 0x00,
    0x00, 0x00, 0x00, 0x08, 0x07, 0x06, 0x0A, 0x02, 0x00, 0x00,
];

/// A value for a register that makes things happen, if the chip looks at that register.
pub fn lively(register: u8, random: &mut Random) -> u8 {
    match register {
        0x0F => random.of(&[0, 0, 0, 0, 0, 1, 3, 7, 0x70, 0x08, 0x88, 0xFF]),
        0x22 => match random.below(8) {
            0 => random.byte(),
            1 => 0x0F,
            2 => 0x03,
            _ => random.byte() & 0x3F,
        },
        0x23 | 0x24 => random.of(&[0x63, 0x63, 0xFF, 0x00, random.clone().byte()]),
        0x29 => random.of(&[0, 1, 2, 8, 8, 16, 31, 32, 33, 55, 62, 63, 64, 0x48, 0xFF, random.clone().byte()]),
        0x2A => {
            let prescaler = random.of(&[0, 0, 1, 1, 2, 3, 4, 6, 10, 13, 15, 16, 20, 21, 22, 24, 31]);
            prescaler | random.of(&[0, 0x20, 0x20, 0x40, 0xC0, 0xE0])
        }
        0x2B => random.byte() & random.of(&[0x0F, 0x0F, 0xFF]),
        0x2C => random.of(&[0, 1, 1, 2, 3, 3, 10, 60, 254, 255, random.clone().byte()]),
        _ => random.byte(),
    }
}

impl Image {
    /// An image of 512 bytes.
    pub fn whole(fill: Fill, seed: u64, edition: Edition) -> Self {
        Image { fill, seed, length: 512, type_bytes: edition.type_bytes() }
    }

    pub fn bytes(&self) -> Vec<u8> {
        let mut random = Random::new(self.seed);
        let mut bytes = random.bytes(self.length.max(512));
        match self.fill {
            Fill::Noise => {}
            Fill::Shipped => bytes[0x10..0x30].copy_from_slice(&SHIPPED),
            Fill::Keys => {
                for register in 0x10..0x30u8 {
                    bytes[usize::from(register)] = lively(register, &mut random);
                }
                for byte in
                    bytes[..0x200].iter_mut().enumerate().filter_map(|(place, byte)| (!(0x10..0x30).contains(&place)).then_some(byte))
                {
                    if !random.one_in(60) {
                        *byte = stored_nibble(random.byte());
                    }
                }
            }
        }
        bytes[..4].copy_from_slice(&self.type_bytes);
        bytes.truncate(self.length);
        bytes
    }
}

/// Type bytes for an image: mostly those of either edition, and else as `near_type` has them.
pub fn some_type(random: &mut Random) -> [u8; 4] {
    if random.one_in(6) {
        near_type(random)
    } else {
        random.of(&Edition::BOTH).type_bytes()
    }
}

/// Type bytes of neither edition, but for a few: zeros, those of one with a byte or a bit changed, bytes of both, any.
pub fn near_type(random: &mut Random) -> [u8; 4] {
    let mut bytes = random.of(&Edition::BOTH).type_bytes();
    let place = random.below(4) as usize;
    match random.below(5) {
        0 => bytes = [0; 4],
        1 => bytes[place] = random.byte(),
        2 => bytes[place] ^= 1 << random.below(8),
        3 => bytes = std::array::from_fn(|place| random.of(&Edition::BOTH).type_bytes()[place]),
        _ => bytes.fill_with(|| random.byte()),
    }
    bytes
}

/// A step of a list: one of the six events, or a change of the library's memory from outside.
#[derive(Clone, PartialEq, Eq, Debug)]
pub enum Call {
    Start {
        image: Image,
    },
    Read {
        address: u8,
    },
    Write {
        address: u8,
        byte: u8,
    },
    Advance {
        clocks: u32,
    },
    Take {
        length: usize,
        fill: u8,
    },
    Deliver {
        bytes: Vec<u8>,
        parities: Vec<u8>,
        last_bits: u8,
    },
    /// Bytes of the library's chip are written, each at its place; the plain chip is made anew from what stands there, or is malformed. In a
    /// list a place has a name: `stage=41`, `next_address=1FF`, `registers[29h]=08`.
    Corrupt {
        edits: Vec<(u16, u8)>,
    },
    /// Both chips are as before the latest corruption, if there was one since the latest mending or accepted start.
    Mend,
}

impl fmt::Display for Call {
    fn fmt(&self, out: &mut fmt::Formatter<'_>) -> fmt::Result {
        match self {
            Call::Start { image } => {
                let fill = match image.fill {
                    Fill::Noise => "noise",
                    Fill::Shipped => "shipped",
                    Fill::Keys => "keys",
                };
                write!(out, "start {fill} {:X} {}", image.seed, image.length)?;
                if image.type_bytes != Edition::Mfrc531.type_bytes() {
                    write!(out, " {}", Hex(&image.type_bytes))?;
                }
                Ok(())
            }
            Call::Read { address } => write!(out, "read {address:02X}"),
            Call::Write { address, byte } => write!(out, "write {address:02X} {byte:02X}"),
            Call::Advance { clocks } => write!(out, "advance {clocks}"),
            Call::Take { length, fill } => write!(out, "take {length} {fill:02X}"),
            Call::Deliver { bytes, parities, last_bits } => write!(out, "deliver {} {} {last_bits}", Hex(bytes), Hex(parities)),
            Call::Corrupt { edits } => {
                write!(out, "corrupt")?;
                edits.iter().try_for_each(|(place, byte)| write!(out, " {}={byte:02X}", place_name(usize::from(*place))))
            }
            Call::Mend => write!(out, "mend"),
        }
    }
}

impl Call {
    /// What a person may want to know beyond the call's own line.
    pub fn remark(&self) -> Option<String> {
        match self {
            Call::Start { image } => {
                let bytes = image.bytes();
                Some(format!("bytes 010h-02Fh: {}", Hex(bytes.get(0x10..0x30)?)))
            }
            _ => None,
        }
    }
}

/// Bytes as digits, `-` for none.
struct Hex<'a>(&'a [u8]);

impl fmt::Display for Hex<'_> {
    fn fmt(&self, out: &mut fmt::Formatter<'_>) -> fmt::Result {
        if self.0.is_empty() {
            return write!(out, "-");
        }
        self.0.iter().try_for_each(|byte| write!(out, "{byte:02X}"))
    }
}

/// A list: what the library's memory holds before the first call, and the calls.
#[derive(Clone, Debug)]
pub struct List {
    pub memory: u64,
    pub calls: Vec<Call>,
}

/// The memory that a list begins with.
pub fn first_memory(seed: u64) -> Memory {
    let mut random = Random::new(seed);
    let mut memory = Memory([0; SIZE]);
    memory.0.fill_with(|| random.byte());
    memory
}

/// Reads a list as it is printed. What follows a `#` is left out. Calls between `repeat 25` and `end` are made 25 times.
pub fn parse(text: &str) -> Result<List, String> {
    let mut list = List { memory: 0, calls: Vec::new() };
    // Where each repetition begins that has not ended yet, and how often it is made.
    let mut repeated: Vec<(usize, usize)> = Vec::new();
    for (number, line) in text.lines().enumerate() {
        let words: Vec<&str> = line.split('#').next().unwrap_or("").split_whitespace().collect();
        let understood = match words[..] {
            [] => Some(()),
            ["repeat", times] => times.parse().ok().map(|times| repeated.push((list.calls.len(), times))),
            ["end"] => repeated.pop().map(|(begin, times)| {
                let calls = list.calls.split_off(begin);
                (0..times).for_each(|_| list.calls.extend_from_slice(&calls));
            }),
            _ => parse_line(&words, &mut list),
        };
        understood.ok_or_else(|| format!("line {}: not understood: {line}", number + 1))?;
    }
    if repeated.is_empty() {
        Ok(list)
    } else {
        Err("a repetition does not end".to_string())
    }
}

fn parse_line(words: &[&str], list: &mut List) -> Option<()> {
    let byte = |word: &str| u8::from_str_radix(word, 16).ok();
    let call = match words {
        ["memory", seed] => {
            list.memory = u64::from_str_radix(seed, 16).ok()?;
            return Some(());
        }
        ["start", fill, seed, length, rest @ ..] => {
            let fill = match *fill {
                "noise" => Fill::Noise,
                "shipped" => Fill::Shipped,
                "keys" => Fill::Keys,
                _ => return None,
            };
            let type_bytes = match rest {
                [] => Edition::Mfrc531.type_bytes(),
                [bytes] => parse_hex(bytes)?.try_into().ok()?,
                _ => return None,
            };
            Call::Start { image: Image { fill, seed: u64::from_str_radix(seed, 16).ok()?, length: length.parse().ok()?, type_bytes } }
        }
        ["read", address] => Call::Read { address: byte(address)? },
        ["write", address, value] => Call::Write { address: byte(address)?, byte: byte(value)? },
        ["advance", clocks] => Call::Advance { clocks: clocks.parse().ok()? },
        ["take", length, fill] => Call::Take { length: length.parse().ok()?, fill: byte(fill)? },
        ["deliver", bytes, parities, last_bits] => {
            Call::Deliver { bytes: parse_hex(bytes)?, parities: parse_hex(parities)?, last_bits: last_bits.parse().ok()? }
        }
        ["corrupt", edits @ ..] => {
            let mut parsed = Vec::new();
            for word in edits {
                let (name, value) = word.split_once('=')?;
                let places = places_of(name)?;
                let value = u64::from_str_radix(value, 16).ok()?;
                // A field of several bytes has its low byte first.
                let mut bytes = value.to_le_bytes().into_iter().chain(std::iter::repeat(0));
                if places.len() < 8 && value >> (8 * places.len()) != 0 {
                    return None;
                }
                parsed.extend(places.map(|place| (place as u16, bytes.next().unwrap_or(0))));
            }
            Call::Corrupt { edits: parsed }
        }
        ["mend"] => Call::Mend,
        _ => return None,
    };
    list.calls.push(call);
    Some(())
}

fn parse_hex(word: &str) -> Option<Vec<u8>> {
    if word == "-" {
        return Some(Vec::new());
    }
    if !word.is_ascii() || !word.len().is_multiple_of(2) {
        return None;
    }
    (0..word.len()).step_by(2).map(|place| u8::from_str_radix(&word[place..place + 2], 16).ok()).collect()
}
