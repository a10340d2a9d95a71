//! The plain chip by itself: the numbers of manual 15 and the readings that are easily taken wrong, and some traps beside them.

use crate::answer;
use crate::call::{parse, Call, Fill, Image};
use crate::checksum::bit_by_bit;
use crate::chip_memory::{
    difference, number_of, place_name, places_of, plain_of, store, Memory, FIELDS, NOT_HELD, NO_BIT, NO_EDITION, NO_HOLD, OTHER_TYPE,
    OVER_COUNT, SIZE,
};
use crate::plain::{
    error, fault, key_of, request, stored_nibble, Chip, Command, Edition, Mode, Refusal, Run, Taken, Timer, Writing, PROGRAMMING_CLOCKS,
};
use crate::random::Random;
use crate::registers::*;

/// A started chip with paging off.
fn chip_with(image: &[u8]) -> Chip {
    let mut chip = Chip::started(image).unwrap();
    chip.write(0x00, 0x00).unwrap();
    chip
}

fn chip() -> Chip {
    chip_with(&typed(Edition::Mfrc531, [0; 512]))
}

/// These bytes as an image of an edition.
fn typed(edition: Edition, mut image: [u8; 512]) -> [u8; 512] {
    image[..4].copy_from_slice(&edition.type_bytes());
    image
}

impl Chip {
    fn get(&mut self, register: u8) -> u8 {
        self.read(register).unwrap()
    }

    fn set(&mut self, register: u8, byte: u8) {
        self.write(register, byte).unwrap();
    }

    fn fill(&mut self, bytes: &[u8]) {
        bytes.iter().for_each(|&byte| self.set(FIFO_DATA, byte));
    }

    /// A command and bytes after it.
    fn run(&mut self, code: u8, bytes: &[u8]) {
        self.set(COMMAND, code);
        self.fill(bytes);
    }

    fn drain(&mut self) -> Vec<u8> {
        (0..self.get(FIFO_LENGTH)).map(|_| self.get(FIFO_DATA)).collect()
    }

    fn pass(&mut self, clocks: u32) {
        self.advance(clocks).unwrap();
    }
}

fn numbered_image() -> [u8; 512] {
    typed(Edition::Mfrc531, std::array::from_fn(|place| (place % 251) as u8))
}

// ---- Numbers ---------------------------------------------------------------------------------------------------------------------------

fn checksum(mode: u8, preset: u8, bytes: &[u8]) -> [u8; 2] {
    let mut chip = chip();
    chip.set(0x22, mode);
    chip.set(0x23, preset);
    chip.set(0x24, preset);
    chip.run(0x12, bytes);
    [chip.get(0x0D), chip.get(0x0E)]
}

#[test]
fn checksums() {
    assert_eq!(checksum(0x00, 0x63, &[0x00, 0x00]), [0xA0, 0x1E]);
    assert_eq!(checksum(0x00, 0x63, &[0x12, 0x34]), [0x26, 0xCF]);
    assert_eq!(checksum(0x20, 0xFF, &[0x00, 0x00, 0x00]), [0xCC, 0xC6]);
    assert_eq!(checksum(0x00, 0x63, &[]), [0x63, 0x63]);
    assert_eq!(checksum(0x20, 0xFF, &[]), [0x00, 0x00]);
    // CRC8 begins with the low preset, has no high byte, and CRC3309 does nothing to it.
    assert_eq!(checksum(0x10, 0xC7, &[]), [0xC7, 0x00]);
    assert_eq!(checksum(0x30, 0xC7, &[1, 2, 3]), checksum(0x10, 0xC7, &[1, 2, 3]));
}

/// The polynomials bit by bit, from their names.
#[test]
fn checksum_tables() {
    let mut random = Random::new(8);
    for _ in 0..200 {
        let length = random.below(20) as usize;
        let bytes = random.bytes(length);
        let preset = random.byte();
        let mut wide = u16::from_le_bytes([preset, preset]);
        let mut narrow = preset;
        for bit in bytes.iter().flat_map(|byte| (0..8).map(move |place| byte >> place & 1)) {
            // x^16 + x^12 + x^5 + 1 with x^15 in bit 0, and x^8 + x^4 + x^3 + x^2 + 1 with x^7 in bit 0.
            let feedback = u16::from(bit) ^ wide & 1;
            wide = (wide >> 1) ^ (feedback * (1 << 15 | 1 << (15 - 5) | 1 << (15 - 12)));
            let feedback = bit ^ narrow & 1;
            narrow = (narrow >> 1) ^ (feedback * (1 << 7 | 1 << (7 - 2) | 1 << (7 - 3) | 1 << (7 - 4)));
        }
        assert_eq!(checksum(0x00, preset, &bytes), wide.to_le_bytes());
        assert_eq!(checksum(0x20, preset, &bytes), (!wide).to_le_bytes());
        assert_eq!(checksum(0x10, preset, &bytes), [narrow, 0]);
    }
}

/// What slices are compared with, at the published check values of "123456789": CRC-16/ISO-IEC-14443-3-A, CRC-16/X-25, and polynomial 1Dh
/// reflected with preset FFh.
#[test]
fn published_checksums() {
    let digits = b"123456789";
    assert_eq!(bit_by_bit(0x00, 0x6363, digits), 0xBF05);
    assert_eq!(!bit_by_bit(0x00, 0xFFFF, digits), 0x906E);
    assert_eq!(bit_by_bit(0x10, 0x00FF, digits), 0x0097);
}

const STORED: [u8; 12] = [0x5A, 0xF0, 0x5A, 0xE1, 0x5A, 0xD2, 0x5A, 0xC3, 0x5A, 0xB4, 0x5A, 0xA5];
const KEY: [u8; 6] = [0xA0, 0xA1, 0xA2, 0xA3, 0xA4, 0xA5];

#[test]
fn keys() {
    assert_eq!(key_of(&STORED), Some(KEY));
    let stored: Vec<u8> = KEY.iter().flat_map(|byte| [stored_nibble(byte >> 4), stored_nibble(byte & 0x0F)]).collect();
    assert_eq!(stored, STORED);
    for place in 0..96 {
        let mut wrong = STORED;
        wrong[place / 8] ^= 1 << (place % 8);
        assert_eq!(key_of(&wrong), None);
    }

    let mut chip = chip();
    assert_eq!(chip.get(ERROR_FLAG), error::KEY);
    chip.run(0x19, &STORED[..11]);
    assert_eq!((chip.key, chip.get(ERROR_FLAG), chip.get(COMMAND)), (None, 0, 0x19));
    chip.fill(&STORED[11..]);
    assert_eq!((chip.key, chip.get(ERROR_FLAG), chip.get(COMMAND)), (Some(KEY), 0, 0));
    assert_eq!(chip.get(INTERRUPT_RQ) & request::IDLE, request::IDLE);
    chip.run(0x19, &[0; 12]);
    assert_eq!((chip.key, chip.get(ERROR_FLAG), chip.get(FIFO_LENGTH)), (None, error::KEY, 0));
}

#[test]
fn keys_from_memory() {
    let mut image = [0; 512];
    image[0x1F4..].copy_from_slice(&STORED);
    image[0x004..0x010].copy_from_slice(&STORED);
    // The MFRC531's last type byte is in the format of a key, as the nibble Fh; no other type byte of either edition is.
    let from_003 = [0xFA, 0x0A, 0x1A, 0x2A, 0x3A, 0x4A];
    for edition in Edition::BOTH {
        let at_003 = (edition == Edition::Mfrc531).then_some(from_003);
        let cases = [
            (0x1F4u16, Some(KEY)),
            (0x1F5, None),
            (0x1FF, None),
            (0x004, Some(KEY)),
            (0x204, Some(KEY)),
            (0x005, None),
            (0x000, None),
            (0x001, None),
            (0x002, None),
            (0x003, at_003),
        ];
        for (address, key) in cases {
            let mut chip = chip_with(&typed(edition, image));
            chip.run(0x0B, &address.to_le_bytes());
            assert_eq!(chip.key, key, "{address:X}");
            assert_eq!(chip.get(ERROR_FLAG), if key.is_none() { error::KEY } else { 0 });
        }
    }
}

#[test]
fn overflow() {
    let mut chip = chip();
    chip.fill(&(0..64).collect::<Vec<u8>>());
    assert_eq!(chip.get(ERROR_FLAG) & error::OVERFLOW, 0);
    chip.set(FIFO_DATA, 99);
    assert_eq!(chip.get(ERROR_FLAG) & error::OVERFLOW, error::OVERFLOW);
    // Only a flush or a start clears it, and the oldest byte is still there.
    chip.set(COMMAND, 0x00);
    assert_eq!(chip.drain(), (0..64).collect::<Vec<u8>>());
    assert_eq!(chip.get(ERROR_FLAG) & error::OVERFLOW, error::OVERFLOW);
    assert_eq!(chip.get(FIFO_DATA), 0);
    chip.set(CONTROL, 0x01);
    assert_eq!(chip.get(ERROR_FLAG) & error::OVERFLOW, 0);
}

#[test]
fn water_level() {
    let mut chip = chip();
    chip.set(0x29, 0xC8);
    for held in 0..=64u8 {
        let status = chip.get(PRIMARY_STATUS);
        assert_eq!(status & 1 != 0, held <= 8, "LoAlert at {held}");
        assert_eq!(status & 2 != 0, held >= 56, "HiAlert at {held}");
        chip.set(FIFO_DATA, held);
    }
    // Requests come with the edge: HiAlert going up, LoAlert going down.
    assert_eq!(chip.get(INTERRUPT_RQ), request::HI_ALERT);
    chip.set(INTERRUPT_RQ, 0x3F);
    for held in (1..=64u8).rev() {
        chip.get(FIFO_DATA);
        assert_eq!(chip.get(INTERRUPT_RQ), if held <= 9 { request::LO_ALERT } else { 0 });
    }
}

#[test]
fn load_config() {
    for (address, works) in [(0x060u16, true), (0x061, false), (0x010, true), (0x00F, false), (0x070, false), (0x260, true)] {
        let image = numbered_image();
        let mut chip = chip_with(&image);
        let before = chip.registers;
        chip.run(0x07, &address.to_le_bytes());
        assert_eq!(chip.get(ERROR_FLAG) & error::ACCESS != 0, !works, "{address:X}");
        assert_eq!((chip.get(COMMAND), chip.get(INTERRUPT_RQ) & request::IDLE), (0, request::IDLE));
        for place in 0..32 {
            let loaded = works && place % 8 != 0;
            let expected = if loaded { image[usize::from(address % 512) + place] } else { before[place] };
            assert_eq!(chip.registers[place], expected);
        }
    }
}

/// LoadConfig and a start load anything.
#[test]
fn load_config_judges_nothing() {
    let mut image = [0xFF; 512];
    image[0x60..0x80].fill(0x18);
    let mut chip = chip_with(&typed(Edition::MfRc530, image));
    assert_eq!(chip.get(0x2A), 0xFF);
    chip.run(0x07, &[0x60, 0]);
    assert_eq!((chip.get(0x2A), chip.get(ERROR_FLAG)), (0x18, error::KEY));
}

#[test]
fn read_e2() {
    let image = numbered_image();
    for (address, count, works) in
        [(0x07Fu16, 1u8, true), (0x07F, 2, false), (0x080, 1, false), (0x080, 0, true), (0x1FF, 0, true), (0, 64, true)]
    {
        let mut chip = chip_with(&image);
        let [low, high] = address.to_le_bytes();
        chip.run(0x03, &[low, high, count]);
        assert_eq!(chip.get(ERROR_FLAG) & error::ACCESS != 0, !works);
        let from = usize::from(address);
        let expected = if works { image[from..from + usize::from(count)].to_vec() } else { vec![] };
        assert_eq!(chip.drain(), expected);
        assert_eq!(chip.get(INTERRUPT_RQ) & request::IDLE, request::IDLE);
    }
    // More than fits, behind a byte that waits.
    let mut chip = chip_with(&image);
    chip.fill(&[0, 0, 128, 0xEE]);
    chip.set(COMMAND, 0x03);
    assert_eq!(chip.get(ERROR_FLAG) & error::OVERFLOW, error::OVERFLOW);
    assert_eq!(chip.drain(), [&[0xEE][..], &image[..63]].concat());
}

#[test]
fn timer() {
    let mut chip = chip();
    chip.set(0x2A, 1);
    chip.set(0x2C, 3);
    chip.set(CONTROL, 0x02);
    chip.advance(5).unwrap();
    assert_eq!((chip.get(INTERRUPT_RQ), chip.get(TIMER_VALUE), chip.get(SECONDARY_STATUS)), (0, 1, 0xE0));
    chip.advance(1).unwrap();
    assert_eq!((chip.get(INTERRUPT_RQ), chip.get(TIMER_VALUE), chip.get(SECONDARY_STATUS)), (request::TIMER, 0, 0x60));
}

/// A new TPreScaler waits for the next start; a new TimerReload is used by the next restart.
#[test]
fn running_timer_keeps_its_prescaler() {
    let mut chip = chip();
    chip.set(0x2A, 1);
    chip.set(0x2C, 3);
    chip.set(CONTROL, 0x02);
    chip.set(0x2A, 0x20);
    chip.set(0x2C, 7);
    chip.advance(5).unwrap();
    assert_eq!(chip.get(INTERRUPT_RQ), 0);
    chip.advance(1).unwrap();
    assert_eq!((chip.get(INTERRUPT_RQ), chip.get(TIMER_VALUE)), (request::TIMER, 7));
    chip.advance(2).unwrap();
    assert_eq!(chip.get(TIMER_VALUE), 6);
}

#[test]
fn timer_stops() {
    for (clock, reload, runs) in [(21, 1, true), (22, 1, false), (0, 0, false), (0x35, 1, true)] {
        let mut chip = chip();
        chip.set(0x2A, clock);
        chip.set(0x2C, reload);
        chip.set(CONTROL, 0x07);
        assert_eq!(chip.get(SECONDARY_STATUS) & 0x80 != 0, runs);
        if runs {
            chip.pass((1 << 21) - 1);
            assert_eq!(chip.get(INTERRUPT_RQ), 0);
            chip.advance(1).unwrap();
            assert_eq!(chip.get(INTERRUPT_RQ), request::TIMER);
        }
    }
    // A stop keeps the value.
    let mut chip = chip();
    chip.set(0x2C, 9);
    chip.set(CONTROL, 0x02);
    chip.advance(4).unwrap();
    chip.set(CONTROL, 0x04);
    chip.advance(100).unwrap();
    assert_eq!((chip.get(TIMER_VALUE), chip.get(INTERRUPT_RQ)), (5, 0));
}

#[test]
fn five_bytes_at_16c() {
    let mut chip = chip();
    chip.run(0x01, &[0x6C, 0x01, 1, 2, 3, 4, 5]);
    let mut clocks = 0;
    let mut programmings = 0;
    while chip.get(SECONDARY_STATUS) & 0x40 == 0 {
        let before = chip.eeprom;
        chip.advance(1).unwrap();
        clocks += 1;
        programmings += u32::from(chip.eeprom != before);
        assert_eq!(chip.get(INTERRUPT_RQ) & request::TX != 0, clocks == 3 * PROGRAMMING_CLOCKS);
    }
    assert_eq!((clocks, programmings), (235_944, 3));
    assert_eq!(chip.eeprom[0x16B..0x172], [0, 1, 2, 3, 4, 5, 0]);
    assert_eq!(chip.command, Command::WriteE2(Writing::Ready { next: 0x171 }));
}

// ---- Readings, and traps ---------------------------------------------------------------------------------------------------------------

#[test]
fn write_meets_block_0_after_the_end() {
    let mut chip = chip();
    chip.run(0x01, &[0xFF, 0x01, 0xAA, 0xBB]);
    chip.pass(PROGRAMMING_CLOCKS);
    assert_eq!((chip.eeprom[0x1FF], chip.eeprom[0]), (0xAA, 0x30));
    assert_eq!((chip.get(ERROR_FLAG) & error::ACCESS, chip.get(COMMAND)), (error::ACCESS, 0));
    assert_eq!(chip.get(INTERRUPT_RQ) & (request::TX | request::IDLE), request::IDLE);
    assert_eq!(chip.drain(), [0xBB]);

    // With no byte waiting it stays, and the next byte meets block 0.
    chip.run(0x01, &[0xFF, 0x01, 0xCC]);
    chip.pass(PROGRAMMING_CLOCKS);
    assert_eq!((chip.get(COMMAND), chip.get(ERROR_FLAG) & error::ACCESS), (0x01, 0));
    chip.set(FIFO_DATA, 1);
    assert_eq!((chip.get(COMMAND), chip.get(ERROR_FLAG) & error::ACCESS), (0x00, error::ACCESS));
    assert_eq!(chip.drain(), [1]);
}

#[test]
fn block_0_is_met_with_the_first_byte_only() {
    let mut chip = chip();
    chip.run(0x01, &[0x0F, 0x02]);
    assert_eq!((chip.get(COMMAND), chip.get(ERROR_FLAG) & error::ACCESS), (0x01, 0));
    chip.set(FIFO_DATA, 7);
    assert_eq!((chip.get(COMMAND), chip.get(ERROR_FLAG) & error::ACCESS), (0x00, error::ACCESS));
    assert_eq!(chip.drain(), [7]);
}

#[test]
fn command_writes_are_ignored_while_programming() {
    let mut chip = chip();
    chip.set(0x29, 63);
    chip.run(0x01, &[0x20, 0x00, 1]);
    chip.errors |= error::CRC | error::PARITY;
    let (errors, requests) = (chip.errors, chip.requests);
    for code in [0x00, 0x0B, 0x19, 0x3F, 0x01] {
        chip.set(COMMAND, code);
        assert_eq!((chip.get(COMMAND), chip.errors, chip.requests), (0x01, errors, requests));
    }
    chip.pass(PROGRAMMING_CLOCKS);
    chip.set(COMMAND, 0x3F);
    assert_eq!((chip.get(COMMAND), chip.errors), (0x00, error::KEY));
    assert_eq!(chip.requests & request::IDLE, request::IDLE);
}

#[test]
fn after_a_start() {
    let mut chip = Chip::started(&numbered_image()).unwrap();
    assert_eq!(chip.read(0x00), Ok(0x80));
    assert_eq!((chip.get(PRIMARY_STATUS), chip.get(SECONDARY_STATUS), chip.get(INTERRUPT_RQ)), (0x05, 0x60, 0));
    // Paging is on with page 0: host address 29h is Command.
    chip.set(0x29, 0x1A);
    assert_eq!(chip.get(0x01), 0x1A);
    chip.set(0x00, 0x81);
    assert_eq!((chip.get(ERROR_FLAG), chip.get(0x05), chip.get(0x06), chip.get(0x3F)), (0x40, 0, 0, 0));
    chip.set(0x38, 0x85);
    assert_eq!((chip.get(0x01), chip.get(0x3A), chip.get(0x08)), (0x29, 0x2A, 0x85));
    assert_eq!(chip.registers[..8], [0, 0x11, 0x12, 0x13, 0x14, 0x15, 0x16, 0x17]);
}

#[test]
fn a_byte_taken_at_once_raises_no_alert() {
    let mut chip = chip();
    chip.set(COMMAND, 0x12);
    chip.set(FIFO_DATA, 1);
    assert_eq!(chip.get(INTERRUPT_RQ), request::TX);
}

#[test]
fn modem_states() {
    let mut buffer = [0; 66];
    let mut chip = chip();
    let rest = chip.get(PRIMARY_STATUS);
    assert_eq!(rest & 0xF0, 0);
    for (code, sent) in [(0x1A, 0x00), (0x1E, 0x60)] {
        chip.set(COMMAND, code);
        assert_eq!(chip.get(PRIMARY_STATUS) & 0xF0, 0x00);
        chip.set(FIFO_DATA, 0x26);
        assert_eq!(chip.get(PRIMARY_STATUS) & 0xF0, 0x20);
        assert_eq!((chip.get(FIFO_DATA), chip.get(PRIMARY_STATUS) & 0xF0), (0x26, 0x00));
        chip.set(FIFO_DATA, 0x52);
        assert_eq!(chip.get(PRIMARY_STATUS) & 0xF0, 0x20);
        chip.take(&mut buffer).unwrap();
        assert_eq!(chip.get(PRIMARY_STATUS) & 0xF0, sent);
        chip.set(COMMAND, 0x00);
    }
    chip.set(COMMAND, 0x16);
    assert_eq!(chip.get(PRIMARY_STATUS) & 0xF0, 0x60);
    chip.set(FIFO_DATA, 0x01);
    assert_eq!(chip.get(PRIMARY_STATUS) & 0xF0, 0x60);
    chip.deliver(&[1], &[0], 0).unwrap();
    assert_eq!(chip.get(PRIMARY_STATUS) & 0xF0, 0x00);
    // No other code, known or not, shows anything.
    for code in (0x00..0x40).filter(|code| ![0x16, 0x1A, 0x1E].contains(code)) {
        chip.set(0x09, 0x01);
        chip.set(COMMAND, code);
        chip.set(FIFO_DATA, 0x01);
        assert_eq!(chip.get(PRIMARY_STATUS) & 0xF0, 0x00, "code {code:02X}h");
    }
}

#[test]
fn frames_out() {
    let mut chip = chip();
    chip.set(0x22, 0x04);
    chip.set(0x23, 0x63);
    chip.set(0x24, 0x63);
    chip.run(0x1A, &[0x12, 0x34]);
    let mut buffer = [0xEE; 66];
    assert_eq!(chip.take(&mut buffer[..65]), Err(Refusal::BufferUnder66Bytes));
    assert_eq!(chip.take(&mut buffer), Ok(Taken { count: 4, last_bits: 0 }));
    assert_eq!(buffer[..5], [0x12, 0x34, 0x26, 0xCF, 0xEE]);
    assert_eq!((chip.get(COMMAND), chip.get(INTERRUPT_RQ)), (0, request::TX | request::IDLE | request::LO_ALERT));
    assert_eq!(chip.take(&mut buffer), Err(Refusal::NotSendingOrReceiving));
    // With last bits there is no CRC; Transceive goes on to receive, and 0Fh stands.
    chip.set(INTERRUPT_RQ, 0x3F);
    chip.set(0x0F, 0x07);
    chip.run(0x1E, &[0x52]);
    assert_eq!(chip.take(&mut buffer), Ok(Taken { count: 1, last_bits: 7 }));
    assert_eq!((chip.get(COMMAND), chip.get(INTERRUPT_RQ), chip.get(0x0F)), (0x1E, request::TX | request::LO_ALERT, 7));
    assert_eq!(chip.deliver(&[1], &[0], 0), Ok(0));
    assert_eq!((chip.get(COMMAND), chip.drain()), (0, vec![1]));
}

#[test]
fn frames_in() {
    /// 22h, bytes, parities, last bits; error flags, bytes that pass.
    type Case = (u8, &'static [u8], &'static [u8], u8, u8, &'static [u8]);
    let cases: [Case; 10] = [
        (0x08, &[0x12, 0x34, 0x26, 0xCF], &[0; 4], 0, 0, &[0x12, 0x34]),
        (0x08, &[0x12, 0x34, 0x26, 0xCE], &[0; 4], 0, error::CRC, &[0x12, 0x34]),
        (0x08, &[0x63, 0x63], &[0; 2], 0, 0, &[]),
        (0x08, &[0x63], &[0], 0, error::CRC, &[0x63]),
        (0x18, &[0x63], &[0], 0, 0, &[]),
        (0x08, &[0x12, 0x34, 0x26, 0xCF], &[0; 4], 3, error::CRC, &[0x12, 0x34, 0x26, 0xCF]),
        (0x03, &[0x01, 0x03], &[0, 1], 0, 0, &[0x01, 0x03]),
        (0x03, &[0x01, 0x03], &[0, 0], 0, error::PARITY, &[0x01, 0x03]),
        (0x03, &[0x01, 0x03], &[0, 0], 5, 0, &[0x01, 0x03]),
        (0x01, &[0x01, 0x03], &[1, 0], 0, 0, &[0x01, 0x03]),
    ];
    for (mode, bytes, parities, last_bits, errors, passed) in cases {
        let mut chip = chip();
        chip.errors = 0;
        chip.set(0x22, mode);
        chip.set(0x23, 0x63);
        chip.set(0x24, 0x63);
        assert_eq!(chip.deliver(bytes, parities, last_bits), Err(Refusal::NotSendingOrReceiving));
        chip.set(COMMAND, 0x16);
        assert_eq!(chip.deliver(bytes, parities, last_bits), Ok(0));
        assert_eq!((chip.get(ERROR_FLAG), chip.get(SECONDARY_STATUS) & 7), (errors, last_bits));
        assert_eq!((chip.get(COMMAND), chip.get(INTERRUPT_RQ) & 0x0C), (0, request::RX | request::IDLE));
        assert_eq!(chip.drain(), passed);
    }
}

#[test]
fn refusals() {
    assert_eq!(Chip::started(&[0; 511]).err(), Some(Refusal::ImageNot512Bytes));
    assert_eq!(Chip::started(&[0; 512]).err(), Some(Refusal::ImageOfNeitherEdition));
    let mut chip = chip();
    assert_eq!(chip.read(64), Err(Refusal::AddressAbove63));
    assert_eq!(chip.write(64, 0), Err(Refusal::AddressAbove63));
    assert_eq!(chip.advance(65_536), Ok(()));
    assert_eq!(chip.take(&mut [0; 65]), Err(Refusal::BufferUnder66Bytes));
    for (bytes, parities, last_bits) in [(0, 0, 0), (65, 65, 0), (2, 1, 0), (1, 1, 8)] {
        assert_eq!(chip.deliver(&vec![0; bytes], &vec![0; parities], last_bits), Err(Refusal::FrameMalformed));
    }
    assert_eq!(chip.deliver(&[0], &[2], 1), Err(Refusal::FrameMalformed));
}

// ---- Lost bytes ------------------------------------------------------------------------------------------------------------------------

/// A started chip that has lost so many bytes, up to 61, by ReadE2, and holds 64.
fn chip_that_lost(bytes: u8) -> Chip {
    let mut chip = chip_with(&numbered_image());
    chip.run(0x03, &[0, 0, 64 + bytes]);
    assert_eq!((chip.lost_sum(), chip.fifo.held()), (Ok(bytes.into()), 64));
    chip
}

#[test]
fn lost_in_writes() {
    let mut chip = chip();
    for byte in 0..70 {
        assert_eq!(chip.write(FIFO_DATA, byte), Ok(u8::from(byte >= 64)));
        assert_eq!(chip.lost_sum(), Ok(u16::from(byte).saturating_sub(63)));
    }
    // A byte that a command takes is not lost, and neither are those behind it or left in place.
    chip = chip_that_lost(1);
    assert_eq!(chip.write(COMMAND, 0x12), Ok(0));
    (0..70).for_each(|byte| assert_eq!(chip.write(FIFO_DATA, byte), Ok(0)));
    chip.run(0x01, &[0x20, 0x00, 0xAA]);
    (0..66).for_each(|byte| assert_eq!(chip.write(FIFO_DATA, byte), Ok(u8::from(byte >= 64))));
    assert_eq!((chip.write(COMMAND, 0x03), chip.lost_sum()), (Ok(0), Ok(3)));
    chip = chip_that_lost(1);
    chip.drain();
    chip.fill(&[0; 64]);
    assert_eq!((chip.write(COMMAND, 0x01), chip.lost_sum(), chip.get(FIFO_LENGTH)), (Ok(0), Ok(1), 62));
}

/// Where ReadE2 begins and how many it reads, bytes held besides, and how many of all are lost: by the write of its code, and of its last argument.
#[test]
fn lost_by_read_e2() {
    let image = numbered_image();
    let cases: [(u8, u8, usize, u8); 14] = [
        (0x00, 128, 61, 125),
        (0x00, 128, 60, 124),
        (0x00, 128, 0, 64),
        (0x00, 65, 0, 1),
        (0x00, 64, 0, 0),
        (0x00, 64, 1, 1),
        (0x00, 4, 61, 1),
        (0x00, 3, 61, 0),
        (0x7C, 4, 61, 1),
        (0x7F, 1, 61, 0),
        // AccessErr, and a count of 0: nothing is offered.
        (0x00, 129, 61, 0),
        (0x01, 128, 61, 0),
        (0x80, 1, 61, 0),
        (0x00, 0, 61, 0),
    ];
    for (from, count, besides, lost) in cases {
        let mut chip = chip_with(&image);
        chip.fill(&[from, 0, count]);
        chip.fill(&vec![0xEE; besides]);
        assert_eq!((chip.write(COMMAND, 0x03), chip.lost_sum()), (Ok(lost), Ok(lost.into())), "{from:02X}h {count} {besides}");
        let works = chip.get(ERROR_FLAG) & error::ACCESS == 0;
        assert_eq!(usize::from(chip.get(FIFO_LENGTH) + lost), besides + if works { usize::from(count) } else { 0 });
        assert_eq!(chip.get(ERROR_FLAG) & error::OVERFLOW != 0, lost > 0);
        if besides == 0 {
            let mut chip = chip_with(&image);
            chip.run(0x03, &[from, 0]);
            assert_eq!((chip.write(FIFO_DATA, count), chip.lost_sum()), (Ok(lost), Ok(lost.into())));
        }
    }
}

/// 22h, bytes held, bytes of the frame and last bits, and how many are lost: a CRC that is dropped is none of them.
#[test]
fn lost_in_deliveries() {
    let cases = [
        (0x00, 64, 64, 0, 64),
        (0x00, 64, 1, 0, 1),
        (0x00, 63, 2, 0, 1),
        (0x00, 63, 1, 0, 0),
        (0x00, 0, 64, 0, 0),
        (0x08, 63, 5, 0, 2),
        (0x08, 64, 5, 0, 3),
        (0x08, 62, 5, 0, 1),
        (0x08, 61, 5, 0, 0),
        (0x08, 64, 2, 0, 0),
        (0x08, 64, 1, 0, 1),
        (0x08, 63, 5, 3, 4),
        (0x18, 63, 5, 0, 3),
        (0x18, 64, 1, 0, 0),
    ];
    for (mode, held, length, last_bits, lost) in cases {
        let mut chip = chip();
        chip.set(0x22, mode);
        chip.fill(&vec![0x55; held]);
        chip.set(COMMAND, 0x16);
        assert_eq!(chip.deliver(&vec![1; length], &vec![0; length], last_bits), Ok(lost), "{mode:02X}h {held} {length} {last_bits}");
        assert_eq!((chip.lost_sum(), chip.get(ERROR_FLAG) & error::OVERFLOW != 0), (Ok(lost.into()), lost > 0));
    }
}

/// From 0 up to 65,535 and beyond; each call answers its whole number.
#[test]
fn the_sum_has_a_limit() {
    let mut chip = chip_with(&numbered_image());
    for round in 1..=600 {
        chip.fill(&[0, 0, 128]);
        chip.fill(&[0xEE; 61]);
        assert_eq!((chip.write(COMMAND, 0x03), chip.lost_sum()), (Ok(125), Ok((125 * round).min(65_535) as u16)));
        chip.drain();
    }
    chip.lost_sum = 65_534;
    chip.fill(&[0; 64]);
    for sum in [65_535, 65_535] {
        assert_eq!((chip.write(FIFO_DATA, 0), chip.lost_sum()), (Ok(1), Ok(sum)));
    }
}

/// A flush and an accepted start clear the sum. No other write does, and no other call.
#[test]
fn what_clears_the_sum() {
    let mut lost = chip_that_lost(7);
    for address in 0..64 {
        for byte in 0..=255 {
            let mut chip = lost.clone();
            let answer = chip.write(address, byte).unwrap();
            let flushes = address == CONTROL && byte & 1 != 0;
            assert_eq!(chip.lost_sum(), Ok(if flushes { 0 } else { 7 + u16::from(answer) }), "{address:02X}h {byte:02X}h");
            assert_eq!(chip.errors & error::OVERFLOW != 0, !flushes);
        }
    }
    let image = numbered_image();
    assert!(lost.start(&image[..511]).is_err() && lost.start(&[0; 512]).is_err());
    assert!(
        lost.read(64).is_err() && lost.write(64, 1).is_err() && lost.take(&mut [0; 66]).is_err() && lost.deliver(&[1], &[0], 0).is_err()
    );
    lost.pass(u32::MAX);
    lost.set(COMMAND, 0x1E);
    lost.take(&mut [0; 66]).unwrap();
    lost.deliver(&[1], &[0], 0).unwrap();
    (0..64).for_each(|address| assert!(lost.read(address).is_ok()));
    assert_eq!((lost.get(FIFO_LENGTH), lost.lost_sum()), (0, Ok(7)));
    lost.start(&image).unwrap();
    assert_eq!(lost.lost_sum(), Ok(0));
}

/// From a start on, the sum is what the calls since the latest flush or start have answered, up to its limit, and FIFOOvfl is set where it is above 0.
#[test]
fn sums_go_by_the_answers() {
    let mut random = Random::new(9);
    let mut lost = 0;
    for _ in 0..40 {
        let mut generator = crate::generate::Generator::new(Random::new(random.number()));
        let mut session = crate::session::Session::<0>::new(1);
        let mut sum = 0u32;
        for _ in 0..5_000 {
            let call = generator.next(session.plain(), session.memory());
            let clears = match &call {
                Call::Corrupt { .. } | Call::Mend => continue,
                Call::Start { .. } => true,
                Call::Write { address, byte } => session.plain().is_some_and(|chip| chip.register(*address) == CONTROL) && byte & 1 != 0,
                _ => false,
            };
            let answer = session.perform(&call).unwrap();
            sum = if clears && answer & 0xFF == 0 { 0 } else { (sum + u32::from(answer::lost(answer))).min(65_535) };
            lost += u32::from(answer::lost(answer));
            if let Some(chip) = session.plain() {
                assert_eq!((u32::from(chip.lost_sum), chip.errors & error::OVERFLOW != 0), (sum, sum > 0));
            }
        }
    }
    assert!(lost > 100_000, "{lost}");
}

// ---- Power modes -----------------------------------------------------------------------------------------------------------------------

const LEAVING: [u16; 2] = [4, 512];
const BITS: [u8; 2] = [0x20, 0x10];

/// A started chip with a timer that falls with each clock, from 255 on, and restarts.
fn chip_with_timer() -> Chip {
    let mut chip = chip();
    chip.set(0x2A, 0x20);
    chip.set(0x2C, 255);
    chip.set(CONTROL, 0x02);
    chip
}

/// The same with a byte for 030h latched, and as many behind it.
fn chip_that_programs(behind: usize) -> Chip {
    let mut chip = chip_with_timer();
    chip.run(0x01, &[0x30, 0x00, 0xEE]);
    chip.fill(&vec![0xEF; behind]);
    assert_eq!(chip.get(SECONDARY_STATUS), 0xA0);
    chip
}

/// Every state of a mode before a write of its bit, with and without a programming, and after it; the other mode goes by itself.
#[test]
fn written_power_bits() {
    for place in 0..2 {
        let whole = LEAVING[place];
        let left = |to_go| Mode::Leaving { to_go };
        // Before, after a 1 without a programming and with one, after a 0.
        let rows = [
            (Mode::Off, Mode::Held, Mode::Waiting, Mode::Off),
            (Mode::Waiting, Mode::Waiting, Mode::Waiting, Mode::Off),
            (Mode::Held, Mode::Held, Mode::Held, left(whole)),
            (left(1), Mode::Held, Mode::Held, left(1)),
            (left(whole - 1), Mode::Held, Mode::Held, left(whole - 1)),
            (left(whole), Mode::Held, Mode::Held, left(whole)),
        ];
        for programs in [false, true] {
            for (before, one, one_over_programming, zero) in rows {
                if before == Mode::Waiting && !programs {
                    continue;
                }
                for (other, other_kept) in [(Mode::Off, Mode::Off), (Mode::Held, Mode::Held), (left(3), Mode::Held)] {
                    for byte in 0..=255 {
                        let mut chip = if programs { chip_that_programs(0) } else { chip() };
                        (chip.modes[place], chip.modes[1 - place]) = (before, other);
                        chip.set(CONTROL, byte);
                        let after = match (byte & BITS[place] != 0, programs) {
                            (true, false) => one,
                            (true, true) => one_over_programming,
                            (false, _) => zero,
                        };
                        assert_eq!(chip.modes[place], after, "{before:?} {byte:02X}h");
                        if byte & BITS[1 - place] != 0 && other != Mode::Off {
                            assert_eq!(chip.modes[1 - place], other_kept);
                        }
                    }
                }
            }
        }
    }
}

/// No call but a write of Control, an advance and a start changes a mode.
#[test]
fn other_calls_leave_the_modes() {
    let mut buffer = [0; 66];
    for modes in [[Mode::Held, Mode::Leaving { to_go: 7 }], [Mode::Leaving { to_go: 2 }, Mode::Off], [Mode::Waiting, Mode::Waiting]] {
        let mut chip = chip_that_programs(3);
        chip.modes = modes;
        let control = chip.get(CONTROL);
        for address in (0..0x40).filter(|address| *address != CONTROL) {
            let mut chip = chip.clone();
            chip.get(address);
            for byte in 0..=255 {
                chip.set(address, byte);
                chip.set(0x00, 0x00);
            }
            assert_eq!((chip.modes, chip.get(CONTROL)), (modes, control), "{address:02X}h");
        }
        assert!(chip.take(&mut buffer).is_err() && chip.deliver(&[1], &[0], 0).is_err() && chip.start(&[0; 512]).is_err());
        chip.pass(0);
        assert_eq!(chip.modes, modes);
        assert!(chip.well_formed());
        chip.start(&numbered_image()).unwrap();
        assert_eq!((chip.modes, chip.read(CONTROL)), ([Mode::Off; 2], Ok(0)));
    }
}

/// The bit reads 1 until the last clock, and the clock behind it is the first that counts.
#[test]
fn counts_of_leavings() {
    for (bits, clocks) in [(0x20u8, 4u32), (0x10, 512), (0x30, 512)] {
        let mut chip = chip_with_timer();
        chip.set(CONTROL, bits);
        chip.pass(10_000);
        chip.set(CONTROL, 0x00);
        for clock in 1..=clocks + 1 {
            let stand_by = if clock <= 4 { bits & 0x20 } else { 0 };
            let power_down = if clock <= 512 { bits & 0x10 } else { 0 };
            assert_eq!((chip.get(CONTROL), chip.get(TIMER_VALUE)), (stand_by | power_down, 255), "{bits:02X}h before clock {clock}");
            chip.pass(1);
        }
        assert_eq!((chip.get(CONTROL), chip.get(TIMER_VALUE)), (0, 254));
    }
    // The greatest advance: 4,294,967,295 - 512 clocks count, which is 253 more than a multiple of 255.
    let mut chip = chip_with_timer();
    chip.set(CONTROL, 0x30);
    chip.set(CONTROL, 0x00);
    chip.pass(u32::MAX);
    assert_eq!((chip.modes, chip.get(TIMER_VALUE), chip.get(INTERRUPT_RQ)), ([Mode::Off; 2], 2, request::TIMER));
    assert_eq!((u32::MAX - 512) % 255, 253);
}

/// A bit that waits holds nothing back; the clock that ends the programming counts for the timer, and no later one does.
#[test]
fn holds_taken_at_the_end_of_a_programming() {
    for (bits, behind, errors) in [(0x10, 0, 0), (0x20, 0, 0), (0x30, 1, 0), (0x20, 40, 0)] {
        for at_once in [false, true] {
            let mut chip = chip_that_programs(behind);
            chip.set(INTERRUPT_RQ, 0x3F);
            chip.set(CONTROL, bits);
            let value = |clocks: u32| 255 - (clocks % 255) as u8;
            if at_once {
                chip.pass(u32::MAX);
            } else {
                chip.pass(PROGRAMMING_CLOCKS - 1);
                assert_eq!((chip.get(CONTROL), chip.get(TIMER_VALUE)), (bits, value(PROGRAMMING_CLOCKS - 1)));
                assert!(!chip.holds() && chip.eeprom[0x030] == 0);
                chip.pass(1);
                chip.pass(1);
            }
            assert!(chip.holds() && chip.eeprom[0x030] == 0xEE && chip.eeprom[0x031] == 0);
            assert_eq!((chip.get(CONTROL), chip.get(TIMER_VALUE)), (bits, value(PROGRAMMING_CLOCKS)));
            assert_eq!(chip.get(ERROR_FLAG) & error::ACCESS, errors);
            let latched = behind.min(15);
            let programs =
                Command::WriteE2(Writing::Programming { next: 0x031 + latched as u16, latched: latched as u8, left: PROGRAMMING_CLOCKS });
            let rests = Command::WriteE2(Writing::Ready { next: 0x031 });
            assert_eq!(chip.command, if behind > 0 { programs } else { rests });
            assert_eq!(chip.get(INTERRUPT_RQ) & request::TX != 0, behind == 0);
            // The bit is cleared: a leaving, and the clocks that were kept.
            chip.set(CONTROL, 0x00);
            chip.pass(if bits == 0x20 { 4 } else { 512 });
            assert_eq!((chip.modes, chip.get(TIMER_VALUE)), ([Mode::Off; 2], value(PROGRAMMING_CLOCKS)));
            chip.pass(PROGRAMMING_CLOCKS - 1);
            assert_eq!(chip.command.programs(), behind > 0);
            chip.pass(1);
            assert_eq!(chip.eeprom[0x031] == 0xEF, behind > 0);
        }
    }
    // Block 0 behind the memory's end: the command ends, and the mode has hold.
    let mut chip = chip_with_timer();
    chip.run(0x01, &[0xFF, 0x01, 0xAA, 0xBB]);
    chip.set(INTERRUPT_RQ, 0x3F);
    chip.set(CONTROL, 0x10);
    chip.pass(PROGRAMMING_CLOCKS + 9);
    assert_eq!((chip.command, chip.modes), (Command::Idle, [Mode::Off, Mode::Held]));
    assert_eq!((chip.get(ERROR_FLAG) & error::ACCESS, chip.get(INTERRUPT_RQ) & request::IDLE), (error::ACCESS, request::IDLE));
    assert_eq!(chip.get(TIMER_VALUE), 255 - (PROGRAMMING_CLOCKS % 255) as u8);
}

/// A programming that stands still is one: E2Ready, Command writes and a second bit go by it.
#[test]
fn a_programming_that_stands_still() {
    let mut chip = chip_with_timer();
    chip.set(CONTROL, 0x10);
    chip.run(0x01, &[0x30, 0x00, 0xEE]);
    chip.errors |= error::CRC;
    chip.pass(u32::MAX);
    for code in [0x00, 0x01, 0x12, 0x3F] {
        chip.set(COMMAND, code);
        assert_eq!((chip.get(COMMAND), chip.get(SECONDARY_STATUS), chip.get(ERROR_FLAG) & error::CRC), (0x01, 0xA0, error::CRC));
    }
    chip.set(CONTROL, 0x30);
    assert_eq!(chip.modes, [Mode::Waiting, Mode::Held]);
    chip.set(CONTROL, 0x20);
    chip.pass(512 + PROGRAMMING_CLOCKS - 1);
    assert_eq!((chip.modes, chip.command.programs()), ([Mode::Waiting, Mode::Off], true));
    chip.pass(1);
    assert_eq!((chip.modes, chip.command.programs(), chip.eeprom[0x030]), ([Mode::Held, Mode::Off], false, 0xEE));
    // One that is cleared again over it was never in hold.
    let mut chip = chip_with_timer();
    chip.set(CONTROL, 0x20);
    chip.run(0x01, &[0x30, 0x00, 0xEE]);
    chip.set(CONTROL, 0x30);
    chip.set(CONTROL, 0x20);
    assert_eq!(chip.modes, [Mode::Held, Mode::Off]);
}

/// Frames, by the state of either mode; 5 and 6 go before it. The refused call leaves the command.
#[test]
fn frames_in_modes() {
    let mut buffer = [0; 66];
    for (place, whole) in LEAVING.into_iter().enumerate() {
        for (mode, refused) in
            [(Mode::Off, false), (Mode::Held, true), (Mode::Leaving { to_go: whole }, true), (Mode::Leaving { to_go: 1 }, true)]
        {
            let mut chip = chip();
            chip.run(0x1E, &[0x26]);
            chip.modes[place] = mode;
            assert_eq!(chip.take(&mut buffer[..65]), Err(Refusal::BufferUnder66Bytes));
            assert_eq!(chip.take(&mut buffer).err(), refused.then_some(Refusal::NotSendingOrReceiving));
            assert_eq!(chip.command, Command::Transceive { receiving: !refused });
            chip.command = Command::Receive;
            assert_eq!(chip.deliver(&[], &[], 0), Err(Refusal::FrameMalformed));
            assert_eq!(chip.deliver(&[1], &[0], 0).err(), refused.then_some(Refusal::NotSendingOrReceiving));
            assert_eq!(chip.command, if refused { Command::Receive } else { Command::Idle });
        }
    }
}

/// n clocks in modes are n times one clock, as the rules have one: near every end, and over several.
#[test]
fn clocks_one_by_one_in_modes() {
    let mut random = Random::new(14);
    let mut changed = [0; 3];
    for round in 0..6_000 {
        let mut chip = chip_with(&Image::whole(Fill::Keys, round, Edition::BOTH[(round % 2) as usize]).bytes());
        chip.set(0x29, random.byte() & 0x0F);
        chip.set(0x2A, random.of(&[0, 1, 2, 0x20, 0x21, 0x23]));
        chip.set(0x2C, random.of(&[1, 2, 3, 7, 255]));
        chip.set(CONTROL, random.of(&[0x02, 0x02, 0x00]));
        if !random.one_in(4) {
            let count = random.of(&[1, 2, 16, 17, 40]);
            chip.run(0x01, &random.of(&[0x10u16, 0x1E, 0x1F0, 0x1E3, 0x1FF]).to_le_bytes());
            chip.fill(&random.bytes(count));
            if let Command::WriteE2(Writing::Programming { left, .. }) = &mut chip.command {
                *left = 1 + random.below(30) as u32;
            }
        }
        chip.modes = LEAVING.map(|whole| match random.below(5) {
            0 if chip.command.programs() => Mode::Waiting,
            0 | 1 => Mode::Held,
            2 | 3 => Mode::Leaving { to_go: 1 + random.below(u64::from(whole.min(60))) as u16 },
            _ => Mode::Off,
        });
        chip.set(INTERRUPT_RQ, 0x3F);
        assert!(chip.well_formed());
        let (mut single, mut by_the_rules) = (chip.clone(), chip.clone());
        let clocks = random.below(140) as u32;
        let before = chip.modes;
        chip.advance(clocks).unwrap();
        for _ in 0..clocks {
            single.advance(1).unwrap();
            by_the_rules.clock();
        }
        for (single, position) in [(single, round), (by_the_rules, round + 1)] {
            let mut memory = Memory([0; SIZE]);
            store(&single, position as u8, memory.chip_mut());
            assert_eq!(difference(&chip, memory.chip(), memory.chip()), None);
        }
        for (before, after) in before.into_iter().zip(chip.modes) {
            changed[0] += u32::from(before == Mode::Waiting && after == Mode::Held);
            changed[1] += u32::from(before.holds() && after == Mode::Off);
        }
        changed[2] += u32::from(before.map(Mode::holds) == [true; 2] && !chip.holds());
    }
    assert!(changed.iter().all(|count| *count > 200), "{changed:?}");
}

/// What a remark of lists/power.txt begins with is what both chips answer: a byte, or the number of a refusal.
#[test]
fn remarks_of_the_power_list() {
    let mut lines = include_str!("../lists/power.txt").lines();
    let mut session = crate::session::Session::<0>::new(0);
    let mut asserted = [0; 2];
    while let Some(line) = lines.next() {
        let mut text = line.to_string();
        while text.starts_with("repeat") && !text.ends_with("end") {
            text = [&text, lines.next().unwrap()].join("\n");
        }
        let list = parse(&text).unwrap();
        if line.starts_with("memory") {
            session = crate::session::Session::new(list.memory);
        }
        let answers: Vec<u32> = list.calls.iter().map(|call| session.perform(call).unwrap()).collect();
        let word = line.split_once('#').and_then(|(_, remark)| remark.split([' ', ':']).find(|word| !word.is_empty())).unwrap_or("");
        let byte = word.strip_suffix('h').and_then(|digits| u32::from_str_radix(digits, 16).ok());
        if let (false, Some(wanted)) = (answers.is_empty(), byte.map(|byte| byte << 8).or(word.parse().ok())) {
            assert_eq!(answers, [wanted], "{line}");
            asserted[usize::from(byte.is_none())] += 1;
        }
    }
    assert!(asserted[0] > 300 && asserted[1] > 40, "{asserted:?}");
}

// ---- Editions --------------------------------------------------------------------------------------------------------------------------

/// A start goes by the length, and then by the first four bytes, all of them and no other.
#[test]
fn starts_by_edition() {
    for edition in Edition::BOTH {
        let mut image = typed(edition, [0x5A; 512]);
        for version in 0..=255 {
            image[4] = version;
            assert_eq!(Chip::started(&image).map(|chip| chip.edition), Ok(edition));
        }
        for length in [0, 3, 4, 511] {
            assert_eq!(Chip::started(&image[..length]).err(), Some(Refusal::ImageNot512Bytes));
        }
        assert_eq!(Chip::started(&[&image[..], &[0]].concat()).err(), Some(Refusal::ImageNot512Bytes));
        for bit in 0..32 {
            let mut image = image;
            image[bit / 8] ^= 1 << (bit % 8);
            assert_eq!(Chip::started(&image).err(), Some(Refusal::ImageOfNeitherEdition));
            assert_eq!(Chip::started(&image[..511]).err(), Some(Refusal::ImageNot512Bytes));
        }
    }
    for neither in [[0; 4], [0x30, 0x88, 0xFF, 0x0F], [0x30, 0xCC, 0xFE, 0x03], [0x30, 0x88, 0xFE, 0x0F], [0x30, 0xCC, 0xFF, 0x03]] {
        let mut image = [0; 512];
        image[..4].copy_from_slice(&neither);
        assert_eq!(Chip::started(&image).err(), Some(Refusal::ImageOfNeitherEdition));
    }
}

/// The edition stays through everything but an accepted start, and shows where its type bytes are read.
#[test]
fn editions_stay() {
    for edition in Edition::BOTH {
        let other = Edition::BOTH[1 - edition as usize];
        let mut chip = chip_with(&typed(edition, [0; 512]));
        // WriteE2 at block 0, and up to it from the memory's end.
        for address in [0x000u16, 0x003, 0x1FF] {
            let [low, high] = address.to_le_bytes();
            chip.run(0x01, &[low, high, 1, 2, 3, 4]);
            chip.pass(2 * PROGRAMMING_CLOCKS);
            assert_eq!(chip.get(ERROR_FLAG) & error::ACCESS, error::ACCESS);
            chip.set(CONTROL, 0x01);
        }
        // Starts that are refused, with the other edition's type bytes and with none's.
        let image = typed(other, [0; 512]);
        assert_eq!(chip.start(&image[..511]), Err(Refusal::ImageNot512Bytes));
        assert_eq!(chip.start(&[0; 512]), Err(Refusal::ImageOfNeitherEdition));
        chip.run(0x03, &[0, 0, 4]);
        assert_eq!((chip.edition, chip.drain()), (edition, edition.type_bytes().to_vec()));
        // A start as the other one.
        chip.start(&image).unwrap();
        chip.set(0x00, 0x00);
        chip.run(0x03, &[0, 0, 4]);
        assert_eq!((chip.edition, chip.drain()), (other, other.type_bytes().to_vec()));
    }
}

// ---- The jump, and the memory ----------------------------------------------------------------------------------------------------------

/// n clocks are n times one clock.
#[test]
fn clocks_one_by_one() {
    let mut random = Random::new(13);
    for round in 0..400 {
        let mut chip = chip_with(&Image::whole(Fill::Keys, round, Edition::BOTH[(round % 2) as usize]).bytes());
        chip.set(0x29, random.byte() & 0x0F);
        chip.set(0x2A, random.of(&[0, 1, 2, 0x20, 0x21, 0x23]));
        chip.set(0x2C, random.of(&[1, 2, 3, 7, 255]));
        chip.set(CONTROL, 0x02);
        let bytes = random.bytes(40);
        let address = random.of(&[0x10, 0x1E, 0x1F0, 0x1E3]) as u16;
        chip.run(0x01, &address.to_le_bytes());
        chip.fill(&bytes);
        chip.set(INTERRUPT_RQ, 0x3F);
        chip.pass(random.below(u64::from(2 * PROGRAMMING_CLOCKS)) as u32);
        if let Command::WriteE2(Writing::Programming { left, .. }) = &mut chip.command {
            *left = 1 + *left % 50;
        }
        let mut single = chip.clone();
        let clocks = random.below(100) as u32;
        chip.advance(clocks).unwrap();
        (0..clocks).for_each(|_| single.advance(1).unwrap());
        let mut memory = Memory([0; SIZE]);
        store(&single, round as u8, memory.chip_mut());
        assert_eq!(difference(&chip, memory.chip(), memory.chip()), None);
    }
}

/// Into memory and back.
#[test]
fn stored_and_read_back() {
    let mut chip = chip_with(&numbered_image());
    chip.run(0x01, &[0xF9, 0x01, 1, 2, 3, 4, 5, 6, 7, 8, 9]);
    chip.pass(PROGRAMMING_CLOCKS + 5);
    for position in [0, 63, 200, 255] {
        let mut memory = Memory([0xFF; SIZE]);
        store(&chip, position, memory.chip_mut());
        let back: Chip = plain_of(memory.chip()).unwrap();
        assert_eq!(difference(&back, memory.chip(), memory.chip()), None);
        assert_eq!(back.fifo.bytes().collect::<Vec<_>>(), chip.fifo.bytes().collect::<Vec<_>>());
        assert_eq!((back.command, back.eeprom), (chip.command, chip.eeprom));
    }
}

// ---- Refusal 7 -------------------------------------------------------------------------------------------------------------------------

/// A started chip's memory with these fields, by the lists' names.
fn memory_with(fields: &str) -> Memory {
    let mut memory = Memory([0; SIZE]);
    store(&chip(), 0, memory.chip_mut());
    let list = parse(&format!("corrupt {fields}")).unwrap();
    let [Call::Corrupt { edits }] = &list.calls[..] else { panic!("{fields}") };
    edits.iter().for_each(|(place, byte)| memory.0[usize::from(*place)] = *byte);
    memory
}

fn well_formed(fields: &str) -> bool {
    plain_of::<{ fault::NONE }>(memory_with(fields).chip()).is_ok()
}

/// Clocks are left, 78,648 or fewer, just where WriteE2 has latched a batch that fits one block other than block 0; the next address is one of the 200h
/// (manual 10.3).
#[test]
fn clocks_left_are_judged() {
    // Stage, latched count, clocks left, next address; whether that is a chip's state.
    let cases = [
        // A batch that fits, with clocks and without, with bit 6 of the stage and without.
        (0x41, 16, 1, 0x020, true),
        (0x41, 16, 78_648, 0x020, true),
        (0x41, 16, 78_649, 0x020, false),
        (0x41, 16, 0, 0x020, false),
        (0x01, 16, 1, 0x020, true),
        (0x01, 16, 0, 0x020, false),
        (0x41, 1, 1, 0x011, true),
        (0x41, 1, 0, 0x011, false),
        // The last block, whose batch ends where 000h follows.
        (0x41, 16, 1, 0x000, true),
        (0x41, 1, 1, 0x000, true),
        (0x41, 1, 0, 0x000, false),
        // No batch: block 0, two blocks, no bytes, over 16.
        (0x41, 1, 1, 0x010, false),
        (0x41, 1, 0, 0x010, true),
        (0x41, 16, 1, 0x010, false),
        (0x41, 1, 1, 0x001, false),
        (0x41, 2, 1, 0x021, false),
        (0x41, 2, 0, 0x021, true),
        (0x41, 0, 1, 0x020, false),
        (0x41, 0, 0, 0x020, true),
        (0x41, 17, 1, 0x020, false),
        (0x41, 17, 0, 0x020, true),
        (0x01, 255, 0, 0x020, true),
        // Without WriteE2 a latched count is nobody's, and clocks left are malformed.
        (0x00, 16, 0, 0x020, true),
        (0x12, 16, 0, 0x020, true),
        (0x9E, 255, 0, 0x1FF, true),
        (0x00, 16, 1, 0x020, false),
        (0x12, 16, 1, 0x020, false),
        (0x00, 0, 1, 0x020, false),
        // The next address, whatever the command.
        (0x41, 0, 0, 0x1FF, true),
        (0x41, 0, 0, 0x200, false),
        (0x00, 0, 0, 0x1FF, true),
        (0x00, 0, 0, 0x200, false),
        (0x12, 0, 0, 0xFFFF, false),
        // 81h is no stage, as nothing is that is not listed.
        (0x81, 16, 1, 0x020, false),
        (0x81, 0, 0, 0x020, false),
        (0xC1, 16, 1, 0x020, false),
    ];
    for (stage, latched, left, next, wanted) in cases {
        let fields = format!("stage={stage:X} latched={latched:X} programming_left={left:X} next_address={next:X}");
        assert_eq!(well_formed(&fields), wanted, "{fields}");
    }
}

/// How many bytes may wait under each command, so that it has nothing to do with them (manual 10.3): as many, and no more. Other stages are malformed.
#[test]
fn waiting_bytes_are_judged() {
    let mut most = [None; 256];
    for (stage, bytes) in [(0x00, 64), (0x01, 1), (0x41, 0), (0x03, 2), (0x07, 1), (0x0B, 1), (0x12, 0), (0x19, 11)] {
        most[stage] = Some(bytes);
    }
    for stage in [0x5A, 0x96, 0x5E, 0x9E] {
        most[stage] = Some(64);
    }
    for (stage, most) in most.iter().enumerate() {
        for held in 0..=255 {
            let fields = format!("stage={stage:X} fifo_read=F0 fifo_write={:X}", 0xF0u8.wrapping_add(held));
            assert_eq!(well_formed(&fields), most.is_some_and(|most| held <= most), "{fields}");
        }
    }
    assert!(well_formed("stage=41 latched=1 programming_left=1 next_address=20 fifo_write=40"));
    assert!(well_formed("stage=01 latched=1 programming_left=1 next_address=20 fifo_write=40"));
    assert!(!well_formed("stage=01 latched=1 programming_left=1 next_address=20 fifo_write=41"));
}

#[test]
fn other_fields_are_judged() {
    let well = [
        "timer_running=1 timer_value=1",
        "timer_running=1 timer_value=FF timer_prescaler=15 timer_phase=1FFFFF",
        "timer_value=FF",
        "crc_register=FFFF",
        "crc_register=FF crc_mode=10",
        "crc_register=FFFF crc_mode=EF",
        "interrupt_en=3F interrupt_rq=3F error_flag=7A page=87 rx_last_bits=7 key_loaded=1 bit_framing=FF",
        "lost_sum=1",
        "lost_sum=FFFF",
        "lost_sum=FFFF error_flag=50",
        "error_flag=50",
        "reserved_number=FFFF reserved_17=FFFFFFFFFFFFFF padding+0=FF padding+1=FF",
    ];
    let malformed = [
        "timer_running=1",
        "timer_running=2 timer_value=1",
        "timer_running=1 timer_value=1 timer_prescaler=16",
        "timer_running=1 timer_value=1 timer_prescaler=20",
        "timer_running=1 timer_value=1 timer_prescaler=FF",
        "timer_running=1 timer_value=1 timer_phase=1",
        "timer_running=1 timer_value=1 timer_prescaler=15 timer_phase=200000",
        "timer_prescaler=1",
        "timer_phase=1",
        "crc_register=100 crc_mode=10",
        "crc_register=FFFF crc_mode=FF",
        "interrupt_en=40",
        "interrupt_en=80",
        "interrupt_rq=40",
        "interrupt_rq=80",
        "error_flag=1",
        "error_flag=4",
        "error_flag=80",
        "page=8",
        "page=40",
        "control=1",
        "control=40",
        "rx_last_bits=8",
        "key_loaded=2",
    ];
    well.iter().for_each(|fields| assert!(well_formed(fields), "{fields}"));
    malformed.iter().for_each(|fields| assert!(!well_formed(fields), "{fields}"));
}

/// A power bit, its hold and its clocks to go, for either mode beside any state of the other, with a programming and without (manual 10.3).
#[test]
fn the_modes_are_judged() {
    let programming = "stage=41 latched=2 next_address=22 programming_left=5";
    let write_e2 = "stage=41 next_address=22";
    let names = ["stand_by", "power_down"];
    for place in 0..2 {
        let whole = LEAVING[place];
        for (bit, number, alone, over_programming) in [
            (0, 0, None, None),
            (0, 0x8000, Some(NO_BIT), Some(NO_BIT)),
            (0, 0x8001, Some(NO_BIT), Some(NO_BIT)),
            (0, 0x8000 | whole, Some(NO_BIT), Some(NO_BIT)),
            (0, 1, Some(NO_HOLD), Some(NO_HOLD)),
            (0, whole, Some(NO_HOLD), Some(NO_HOLD)),
            (0, 0x7FFF, Some(NO_HOLD), Some(NO_HOLD)),
            (1, 0, Some(NOT_HELD), None),
            (1, 1, Some(NOT_HELD), Some(NO_HOLD)),
            (1, whole, Some(NOT_HELD), Some(NO_HOLD)),
            (1, 0x7FFF, Some(NOT_HELD), Some(NO_HOLD)),
            (1, 0x8000, None, None),
            (1, 0x8001, None, None),
            (1, 0x8000 | (whole - 1), None, None),
            (1, 0x8000 | whole, None, None),
            (1, 0x8000 | (whole + 1), Some(OVER_COUNT), Some(OVER_COUNT)),
            (1, 0x8000 | (whole + 256), Some(OVER_COUNT), Some(OVER_COUNT)),
            (1, 0x8000 | 0x4000, Some(OVER_COUNT), Some(OVER_COUNT)),
            (1, 0xFFFF, Some(OVER_COUNT), Some(OVER_COUNT)),
        ] {
            for (other_bit, other_number) in [(0, 0), (1, 0x8000), (1, 0x8001)] {
                let control = bit * BITS[place] + other_bit * BITS[1 - place];
                let modes = format!("control={control:X} {}={number:X} {}={other_number:X}", names[place], names[1 - place]);
                let reason = |fields: &str| plain_of::<{ fault::NONE }>(memory_with(&format!("{modes} {fields}")).chip()).err();
                assert_eq!((reason(""), reason(write_e2), reason(programming)), (alone, alone, over_programming), "{modes}");
            }
        }
    }
    // What a memory says is what a chip has, and back.
    for (bits, modes) in [
        (0x00, [Mode::Off, Mode::Off]),
        (0x20, [Mode::Waiting, Mode::Off]),
        (0x30, [Mode::Held, Mode::Waiting]),
        (0x30, [Mode::Leaving { to_go: 4 }, Mode::Leaving { to_go: 512 }]),
        (0x10, [Mode::Off, Mode::Leaving { to_go: 1 }]),
    ] {
        let [stand_by, power_down] = modes.map(number_of);
        let memory = memory_with(&format!("{programming} control={bits:X} stand_by={stand_by:X} power_down={power_down:X}"));
        let mut chip: Chip = plain_of(memory.chip()).unwrap();
        assert_eq!((chip.modes, chip.get(CONTROL)), (modes, bits));
        assert!(chip.well_formed());
    }
    // The chip that judges itself in the race does so by the same rules.
    for (modes, programs, wanted) in [
        ([Mode::Waiting, Mode::Off], true, true),
        ([Mode::Off, Mode::Waiting], false, false),
        ([Mode::Held, Mode::Held], false, true),
        ([Mode::Leaving { to_go: 4 }, Mode::Leaving { to_go: 512 }], true, true),
        ([Mode::Leaving { to_go: 5 }, Mode::Off], true, false),
        ([Mode::Off, Mode::Leaving { to_go: 513 }], false, false),
        ([Mode::Leaving { to_go: 0 }, Mode::Off], false, false),
    ] {
        let mut chip = if programs { chip_that_programs(1) } else { chip() };
        chip.modes = modes;
        assert_eq!(chip.well_formed(), wanted, "{modes:?}");
    }
}

/// A hold over a programming with any clocks left is well formed, though no call leads to fewer than all: it stands still, and goes on afterwards.
#[test]
fn a_begun_programming_in_hold() {
    for left in [1, 3, 78_647, 78_648] {
        let fields = format!("stage=41 latched=2 next_address=22 programming_left={left:X} latch[00h]=AA latch[01h]=BB");
        let memory = memory_with(&format!("{fields} control=30 stand_by=8000 power_down=8003"));
        let mut chip: Chip = plain_of(memory.chip()).unwrap();
        chip.timer = Timer { value: 255, run: Some(Run { prescaler: 13, phase: 0 }) };
        assert_eq!(chip.stands_begun(), left < 78_648);
        chip.pass(u32::MAX);
        chip.set(CONTROL, 0x00);
        chip.pass(3 + left);
        assert_eq!((chip.modes, chip.eeprom[0x020]), ([Mode::Off; 2], 0));
        chip.pass(1);
        assert_eq!((chip.eeprom[0x020..0x022].to_vec(), chip.command.programs()), (vec![0xAA, 0xBB], false));
        assert_eq!(chip.timer.run.map(|run| u32::from(255 - chip.timer.value) << 13 | run.phase), Some(left));
    }
}

/// The edition's number and the EEPROM's first four bytes: one edition's both, and nothing else; a chip of zeros is malformed by it.
#[test]
fn the_edition_is_judged() {
    let reason = |fields: &str| plain_of::<{ fault::NONE }>(memory_with(fields).chip()).err();
    let mfrc531 = "eeprom[00h]=30 eeprom[01h]=CC eeprom[02h]=FF eeprom[03h]=0F";
    let mf_rc530 = "eeprom[00h]=30 eeprom[01h]=88 eeprom[02h]=FE eeprom[03h]=03";
    let mixed = "eeprom[00h]=30 eeprom[01h]=88 eeprom[02h]=FF eeprom[03h]=0F";
    for number in 0..=255 {
        let with = |type_bytes: &str| reason(&format!("edition={number:X} {type_bytes}"));
        let wanted = |own: u8| match number {
            _ if number == own => None,
            0 | 1 => Some(OTHER_TYPE),
            _ => Some(NO_EDITION),
        };
        assert_eq!((with(mfrc531), with(mf_rc530)), (wanted(0), wanted(1)), "{number}");
        assert!(with(mixed).is_some() && with("eeprom[00h]=0 eeprom[01h]=0 eeprom[02h]=0 eeprom[03h]=0").is_some());
    }
    for bit in 0..32 {
        for (number, edition) in Edition::BOTH.into_iter().enumerate() {
            let mut bytes = edition.type_bytes();
            bytes[bit / 8] ^= 1 << (bit % 8);
            let [a, b, c, d] = bytes;
            let fields = format!("edition={number} eeprom[00h]={a:X} eeprom[01h]={b:X} eeprom[02h]={c:X} eeprom[03h]={d:X}");
            assert_eq!(reason(&fields), Some(OTHER_TYPE), "{fields}");
        }
    }
    assert_eq!(reason("eeprom[04h]=FF eeprom[0Fh]=FF"), None);
    assert_eq!(plain_of::<{ fault::NONE }>(Memory([0; SIZE]).chip()).err(), Some(OTHER_TYPE));
    // The chip that judges itself in the race does so by the same rule.
    for edition in Edition::BOTH {
        let mut chip = chip_with(&typed(edition, [0; 512]));
        assert!(chip.well_formed());
        chip.eeprom[3] ^= 4;
        assert!(!chip.well_formed());
        chip.eeprom[..4].copy_from_slice(&Edition::BOTH[1 - edition as usize].type_bytes());
        assert!(!chip.well_formed());
    }
}

/// A programming whose stage has no address goes on as one that has: there is one machine for both.
#[test]
fn programming_at_stage_01() {
    let memory = memory_with("stage=01 latched=2 programming_left=5 next_address=22 latch[00h]=AA latch[01h]=BB");
    let mut chip: Chip = plain_of(memory.chip()).unwrap();
    assert_eq!(chip.command, Command::WriteE2(Writing::Programming { next: 0x022, latched: 2, left: 5 }));
    chip.pass(5);
    assert_eq!((chip.command, chip.eeprom[0x020..0x023].to_vec()), (Command::WriteE2(Writing::Ready { next: 0x022 }), vec![0xAA, 0xBB, 0]));
}

/// The built states notice what the judging could have wrong.
#[test]
fn built_states_notice_wrong_judging() {
    macro_rules! noticed {
        ($($fault:ident)*) => {
            $(assert!(crate::built::judged::<{ fault::$fault }>(1).is_err(), stringify!($fault));)*
        };
    }
    noticed!(FULL_PHASE_IS_WELL_FORMED LEFT_OVER_COUNT_IS_MALFORMED BATCH_WITHOUT_CLOCKS_IS_WELL_FORMED STAGE_01_DOES_NOT_PROGRAM);
    noticed!(STAGE_81_IS_LISTED NEXT_ADDRESS_JUDGED_FOR_WRITE_E2_ALONE RESERVED_IS_JUDGED);
    noticed!(TYPE_BYTES_ARE_NOT_JUDGED EDITION_ABOVE_1_IS_WELL_FORMED SUM_WITHOUT_THE_FLAG_IS_REFUSED);
}

/// And the built states of power modes what the judging of these could.
#[test]
fn built_states_notice_wrongly_judged_modes() {
    macro_rules! noticed {
        ($($fault:ident)*) => {
            $(assert!(crate::built::judged_in_modes::<{ fault::$fault }>().is_err(), stringify!($fault));)*
        };
    }
    noticed!(WAITING_ALONE_IS_WELL_FORMED WAITING_BESIDE_WRITE_E2_IS_WELL_FORMED WAITING_IS_MALFORMED HOLD_WITHOUT_A_BIT_IS_WELL_FORMED);
    noticed!(LEAVING_WITHOUT_A_HOLD_IS_WELL_FORMED ONE_CLOCK_TOO_MANY_IS_WELL_FORMED WHOLE_LEAVING_IS_MALFORMED STAND_BY_JUDGED_BY_512);
    noticed!(HOLD_OVER_A_BEGUN_PROGRAMMING_IS_MALFORMED);
    let states = crate::built::judged_in_modes::<{ fault::NONE }>().unwrap();
    assert!(states.in_modes > 5_000 && states.begun > 2_000 && states.by_modes > 1_000_000);
}

/// Calls on built states notice what the power modes could have wrong in one call, or in clocks behind it.
#[test]
fn built_states_notice_wrong_modes() {
    macro_rules! noticed {
        ($($fault:ident)*) => {
            $(assert!(crate::built::worked_in_modes::<{ fault::$fault }>().is_err(), stringify!($fault));)*
        };
    }
    noticed!(LAST_CLOCK_OF_A_LEAVING_COUNTS LEAVINGS_SHARE_A_COUNT ZERO_BEGINS_A_LEAVING_ANEW HOLD_AT_THE_WRITE TIMER_MISSES_THE_END);
    noticed!(WAITING_IS_NOT_CANCELLED WAITING_IS_LEFT WAITING_STOPS_THE_TIMER WAITING_FOR_EVERY_BATCH STANDING_STILL_IS_NO_PROGRAMMING);
    noticed!(ONE_IN_A_LEAVING_WAITS BATCH_BEHIND_THE_HOLD_IS_NOT_LATCHED BLOCK_0_CANCELS_A_MODE CLOCKS_BEHIND_THE_HOLD_COUNT);
    noticed!(ONE_HAPPENING_IN_AN_ADVANCE LEAVING_BY_CLOCKS_LET_THROUGH ZERO_BESIDE_A_ONE_IS_IGNORED FLUSH_ALONE_LEAVES_MODES);
    noticed!(BIT_READS_0_IN_A_LEAVING READY_WHILE_STANDING_STILL COMMAND_WHILE_STANDING_STILL NO_FLUSH_IN_A_MODE NO_STOP_IN_A_MODE);
    noticed!(NO_START_OF_THE_TIMER_IN_A_MODE TAKE_IN_A_LEAVING DELIVERY_IN_A_LEAVING FRAMES_IN_STAND_BY MODE_REFUSED_BEFORE_5_AND_6);
    noticed!(LEAVING_SETS_A_REQUEST START_KEEPS_A_MODE);
    assert!(crate::built::worked_in_modes::<{ fault::NONE }>().is_ok_and(|calls| calls > 100_000));
}

/// Clocks in parts go over holds that are taken and over leavings that end.
#[test]
fn clocks_in_parts_meet_modes() {
    let advances = crate::clocks::in_parts(1, 4_000).unwrap();
    assert!(advances.taken.into_iter().chain(advances.left).all(|count| count > 300), "{advances}");
}

/// Calls on built states notice what lost bytes and their sum could have wrong.
#[test]
fn built_states_notice_wrong_sums() {
    macro_rules! noticed {
        ($($fault:ident)*) => {
            $(assert!(crate::built::worked::<{ fault::$fault }>().is_err(), stringify!($fault));)*
        };
    }
    noticed!(DROPPED_CRC_IS_LOST BYTE_TAKEN_IN_AT_63_IS_LOST LOST_BY_READ_E2_IS_NOT_ANSWERED LOST_IS_ANSWERED_UP_TO_THE_LIMIT);
    noticed!(SUM_RUNS_OVER SUM_BEGINS_WITH_THE_FLAG TAKE_CLEARS_SUM COMMAND_WRITE_CLEARS_SUM FLUSH_LEAVES_SUM START_LEAVES_SUM);
}

/// Every byte has a name that leads back to it, and every field a name for all of its bytes.
#[test]
fn places_have_names() {
    for place in 0..SIZE {
        assert_eq!(places_of(&place_name(place)), Some(place..place + 1), "{}", place_name(place));
    }
    for (name, start, length) in FIELDS {
        assert_eq!(places_of(name), Some(*start..start + length));
    }
    for name in ["", "core", "stage+1", "latch[10h]", "registers[0Fh]", "registers[30h]", "padding+2", "eeprom[200h]"] {
        assert_eq!(places_of(name), None, "{name}");
    }
    assert!(parse("corrupt stage=100").is_err());
}

/// Repetitions in a list, and within another.
#[test]
fn lists_repeat_calls() {
    let list = parse("read 01\nrepeat 2\nread 02\nrepeat 3\nread 03\nend\nend").unwrap();
    let addresses: Vec<u8> = list.calls.iter().map(|call| if let Call::Read { address } = call { *address } else { 0 }).collect();
    assert_eq!(addresses, [1, 2, 3, 3, 3, 2, 3, 3, 3]);
    for wrong in ["end", "repeat x", "repeat 2\nread 01", "repeat 2\nread 01\nend\nend"] {
        assert!(parse(wrong).is_err(), "{wrong}");
    }
}

// ---- The comparison --------------------------------------------------------------------------------------------------------------------

/// The comparison can fail: each planted fault is noticed, and by random calls alone.
#[test]
fn planted_faults_are_noticed() {
    let options = crate::Options { random: true, ..crate::Options::default() };
    for fault in 1..=crate::plain::fault::NAMES.len() as u8 {
        assert!(crate::notice(fault, &options));
    }
}

/// Random lists meet again and again: both editions, their change, 22, and 7 because of the edition alone; bytes that are lost in every way, sums at
/// their limit, cleared and left, and such as no start leads to; every row of a power mode's table, and every clause of refusal 7 on modes.
#[test]
fn cases_are_met() {
    let options = crate::Options { calls: 300_000, random: true, ..crate::Options::default() };
    let Ok(statistics) = crate::run::<{ fault::NONE }>(&options) else { panic!("a difference") };
    assert!(statistics.on.iter().all(|calls| *calls > 60_000), "{statistics}");
    assert!(statistics.started.iter().all(|starts| *starts > 300) && statistics.changed > 150, "{statistics}");
    assert!(statistics.refusals[22] > 300, "{statistics}");
    assert!(statistics.by_edition.iter().all(|refused| *refused > 300), "{statistics}");
    let losses = &statistics.losses;
    assert!(losses.calls.iter().all(|calls| *calls > 60) && losses.bytes > 100_000 && losses.most == 125, "{statistics}");
    assert!(losses.limit.iter().zip([300, 20, 0, 100]).all(|(calls, least)| *calls > least), "{statistics}");
    assert!(losses.cleared.iter().all(|calls| *calls > 60) && losses.left.iter().all(|calls| *calls > 300), "{statistics}");
    assert!(losses.apart.iter().all(|calls| *calls > 300), "{statistics}");
    let modes = &statistics.modes;
    assert!(modes.rows.iter().flatten().all(|calls| *calls > 20), "{statistics}");
    assert!(modes.takes.iter().chain(&modes.deliveries).all(|calls| *calls > 20), "{statistics}");
    assert!(modes.controls.iter().chain([&modes.ignored, &modes.latched]).all(|calls| *calls > 60), "{statistics}");
    assert!(modes.kept > 1_000 && modes.both > 500 && modes.started > 30 && modes.begun > 60, "{statistics}");
    assert!(modes.refused.iter().all(|calls| *calls > 40), "{statistics}");
}

/// The recorded mix is the list that docs/PERFORMANCE.md describes.
#[test]
fn recorded_mix() {
    let list = crate::recorded::recorded();
    let count = |reads: bool, address: u8, code: Option<u8>| {
        list.iter().filter(|call| (call.reads, call.address) == (reads, address) && code.is_none_or(|code| call.byte == code)).count()
    };
    let shares = [(false, FIFO_DATA, None), (true, PRIMARY_STATUS, None), (false, COMMAND, Some(0x12)), (false, COMMAND, Some(0x00))];
    assert_eq!(shares.map(|(reads, address, code)| count(reads, address, code)), [500_398, 399_862, 99_740, 20_000]);
    // tests/instructions.c holds its list to the same sum.
    let sum = list.iter().fold(0u64, |sum, call| sum.wrapping_mul(31).wrapping_add(u64::from(call.byte) + 256 * u64::from(call.address)));
    assert_eq!(sum, 11_792_938_449_016_268_530);
}

/// What is printed can be read again.
#[test]
fn printed_lists_can_be_read() {
    let mut generator = crate::generate::Generator::new(Random::new(5));
    let mut session = crate::session::Session::<0>::new(1);
    for _ in 0..5_000 {
        let call = generator.next(session.plain(), session.memory());
        let list = parse(&format!("{call} # remark")).unwrap();
        assert_eq!(list.calls, std::slice::from_ref(&call));
        assert_eq!(session.perform(&call).err(), None);
    }
}
