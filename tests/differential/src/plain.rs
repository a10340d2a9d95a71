//! The reader bench in plain Rust, an MFRC531 or an MF RC530: host registers, FIFO, EEPROM, timer, requests, CRC, commands and frames.
//!
//! Written from the requirements (the manual has their rules), as firmware people would write it, to be compared with the proved
//! library and raced against it. Nothing here allocates; every event but `advance` and the commands' block moves is a few instructions, and
//! `advance` jumps over clocks in which nothing happens.
//!
//! The types leave no room for most malformed states: the stages of WriteE2 stand inside the command, and what a timer keeps exists only
//! while it runs. What the types do allow and the rules do not is judged where a chip's memory is read (`chip_memory`).

/// Clocks of 13.56 MHz that one programming of the EEPROM takes: 5.8 ms.
pub const PROGRAMMING_CLOCKS: u32 = 78_648;

/// Bytes of an EEPROM image.
pub const EEPROM_SIZE: usize = 512;

/// The least that a take's buffer has to hold: a full FIFO and a CRC.
pub const TAKE_BUFFER: usize = 66;

/// The two power modes, each by its place here: StandBy, then PowerDown.
pub mod power {
    pub const STAND_BY: usize = 0;
    pub const POWER_DOWN: usize = 1;

    /// Their bits of Control (09h).
    pub const BITS: [u8; 2] = [1 << 5, 1 << 4];

    /// Clocks that leaving them takes.
    pub const LEAVING: [u16; 2] = [4, 512];
}

/// Faults that can be planted, one by one, to see that a comparison notices them. `Chip` is the chip without a fault.
pub mod fault {
    pub const NONE: u8 = 0;
    pub const WATER_LEVEL_OFF_BY_ONE: u8 = 1;
    pub const COMMAND_WRITE_CLEARS_OVERFLOW: u8 = 2;
    pub const OVERFLOW_DROPS_OLDEST: u8 = 3;
    pub const RUNNING_TIMER_TAKES_PRESCALER: u8 = 4;
    pub const WRITE_RUNS_ON_TO_BLOCK_0: u8 = 5;
    pub const LOAD_CONFIG_FROM_061: u8 = 6;
    pub const READ_E2_OF_080: u8 = 7;
    pub const FRAME_OF_CRC_ONLY_IS_SHORT: u8 = 8;
    pub const PARITY_OF_INCOMPLETE_BYTE: u8 = 9;
    pub const TX_REQUEST_AT_EVERY_PROGRAMMING: u8 = 10;
    pub const GOOD_KEY_CLEARS_KEY_ERROR: u8 = 11;
    pub const IGNORED_COMMAND_CLEARS_ERRORS: u8 = 12;
    pub const KEY_FROM_1F5: u8 = 13;
    pub const PROGRAMMING_ONE_CLOCK_SHORT: u8 = 14;
    pub const CRC3309_BEFORE_CRC8: u8 = 15;
    pub const ALERTS_JUDGED_BYTE_BY_BYTE: u8 = 16;
    pub const FULL_PHASE_IS_WELL_FORMED: u8 = 17;
    pub const TAKE_CLEARS_LAST_BITS: u8 = 18;
    pub const LEFT_OVER_COUNT_IS_MALFORMED: u8 = 19;
    pub const BATCH_WITHOUT_CLOCKS_IS_WELL_FORMED: u8 = 20;
    pub const STAGE_01_DOES_NOT_PROGRAM: u8 = 21;
    pub const STAGE_81_IS_LISTED: u8 = 22;
    pub const NEXT_ADDRESS_JUDGED_FOR_WRITE_E2_ALONE: u8 = 23;
    pub const RESERVED_IS_JUDGED: u8 = 24;
    pub const EMPTY_FIFO_IS_SENT: u8 = 25;
    pub const HELD_BYTES_HIDE_RECEPTION: u8 = 26;
    pub const RECEPTION_IS_PREPARED: u8 = 27;
    pub const LAP_OF_RELOAD_AND_ONE: u8 = 28;
    pub const REQUEST_MISSED_AT_ITS_STEP: u8 = 29;
    pub const SECOND_PROGRAMMING_LOST: u8 = 30;
    pub const CLOCKS_IN_32_BITS: u8 = 31;
    pub const TYPE_BEFORE_LENGTH: u8 = 32;
    pub const TWO_TYPE_BYTES_DECIDE: u8 = 33;
    pub const EACH_TYPE_BYTE_BY_ITSELF: u8 = 34;
    pub const TYPE_BYTES_ARE_NOT_JUDGED: u8 = 35;
    pub const EDITION_ABOVE_1_IS_WELL_FORMED: u8 = 36;
    pub const REFUSED_START_CHANGES_EDITION: u8 = 37;
    pub const DROPPED_CRC_IS_LOST: u8 = 38;
    pub const BYTE_TAKEN_IN_AT_63_IS_LOST: u8 = 39;
    pub const LOST_BY_READ_E2_IS_NOT_ANSWERED: u8 = 40;
    pub const LOST_IS_ANSWERED_UP_TO_THE_LIMIT: u8 = 41;
    pub const SUM_RUNS_OVER: u8 = 42;
    pub const SUM_BEGINS_WITH_THE_FLAG: u8 = 43;
    pub const TAKE_CLEARS_SUM: u8 = 44;
    pub const COMMAND_WRITE_CLEARS_SUM: u8 = 45;
    pub const FLUSH_LEAVES_SUM: u8 = 46;
    pub const START_LEAVES_SUM: u8 = 47;
    pub const SUM_WITHOUT_THE_FLAG_IS_REFUSED: u8 = 48;
    pub const LAST_CLOCK_OF_A_LEAVING_COUNTS: u8 = 49;
    pub const LEAVINGS_SHARE_A_COUNT: u8 = 50;
    pub const ZERO_BEGINS_A_LEAVING_ANEW: u8 = 51;
    pub const ONE_HALTS_A_LEAVING: u8 = 52;
    pub const HOLD_AT_THE_WRITE: u8 = 53;
    pub const TIMER_MISSES_THE_END: u8 = 54;
    pub const WAITING_IS_NOT_CANCELLED: u8 = 55;
    pub const WAITING_IS_LEFT: u8 = 56;
    pub const WAITING_STOPS_THE_TIMER: u8 = 57;
    pub const WAITING_FOR_EVERY_BATCH: u8 = 58;
    pub const STANDING_STILL_IS_NO_PROGRAMMING: u8 = 59;
    pub const ONE_IN_A_LEAVING_WAITS: u8 = 60;
    pub const BATCH_BEHIND_THE_HOLD_IS_NOT_LATCHED: u8 = 61;
    pub const BLOCK_0_CANCELS_A_MODE: u8 = 62;
    pub const CLOCKS_BEHIND_THE_HOLD_COUNT: u8 = 63;
    pub const ONE_HAPPENING_IN_AN_ADVANCE: u8 = 64;
    pub const LEAVING_BY_CLOCKS_LET_THROUGH: u8 = 65;
    pub const ZERO_BESIDE_A_ONE_IS_IGNORED: u8 = 66;
    pub const FLUSH_ALONE_LEAVES_MODES: u8 = 67;
    pub const BIT_READS_0_IN_A_LEAVING: u8 = 68;
    pub const READY_WHILE_STANDING_STILL: u8 = 69;
    pub const COMMAND_WHILE_STANDING_STILL: u8 = 70;
    pub const NO_FLUSH_IN_A_MODE: u8 = 71;
    pub const NO_STOP_IN_A_MODE: u8 = 72;
    pub const NO_START_OF_THE_TIMER_IN_A_MODE: u8 = 73;
    pub const TAKE_IN_A_LEAVING: u8 = 74;
    pub const DELIVERY_IN_A_LEAVING: u8 = 75;
    pub const FRAMES_IN_STAND_BY: u8 = 76;
    pub const MODE_REFUSED_BEFORE_5_AND_6: u8 = 77;
    pub const LEAVING_SETS_A_REQUEST: u8 = 78;
    pub const START_KEEPS_A_MODE: u8 = 79;
    pub const WAITING_ALONE_IS_WELL_FORMED: u8 = 80;
    pub const WAITING_BESIDE_WRITE_E2_IS_WELL_FORMED: u8 = 81;
    pub const WAITING_IS_MALFORMED: u8 = 82;
    pub const HOLD_WITHOUT_A_BIT_IS_WELL_FORMED: u8 = 83;
    pub const LEAVING_WITHOUT_A_HOLD_IS_WELL_FORMED: u8 = 84;
    pub const ONE_CLOCK_TOO_MANY_IS_WELL_FORMED: u8 = 85;
    pub const WHOLE_LEAVING_IS_MALFORMED: u8 = 86;
    pub const STAND_BY_JUDGED_BY_512: u8 = 87;
    pub const HOLD_OVER_A_BEGUN_PROGRAMMING_IS_MALFORMED: u8 = 88;
    pub const FIXED_1_IS_TESTED_AS_0: u8 = 89;
    pub const EDITION_ABOVE_1_IS_CHECKED: u8 = 90;
    pub const EDITION_BEFORE_LENGTH: u8 = 91;
    pub const CHOICE_BY_ONE_TABLE: u8 = 92;
    pub const CHOICE_OF_NEITHER: u8 = 93;
    pub const RESCUE_BY_THE_USERS_EDITION: u8 = 94;
    pub const SIGNED_NAMES: u8 = 95;
    pub const EQUAL_NAMES_ARE_ASCENDING: u8 = 96;
    pub const LAST_BYTE_OF_A_NAME_IS_NOT_ORDERED: u8 = 97;
    pub const NAME_ENDS_AT_00: u8 = 98;
    pub const BYTES_BEHIND_A_TRAILER: u8 = 99;
    pub const OFFSETS_ARE_NOT_READ: u8 = 100;
    pub const OFFSET_OF_ANY_BODY: u8 = 101;
    pub const INDEX_OFFSET_IS_NOT_READ: u8 = 102;
    pub const NUMBER_IS_NOT_READ: u8 = 103;
    pub const LOW_BYTES_OF_THE_NUMBER_ARE_READ: u8 = 104;
    pub const MARK_IS_NOT_READ: u8 = 105;
    pub const READER_TAKES_257: u8 = 106;
    pub const READER_REFUSES_256: u8 = 107;
    pub const READER_REFUSES_NONE: u8 = 108;
    pub const BODIES_ARE_JUDGED: u8 = 109;
    pub const COUNT_BEFORE_PAIRS: u8 = 110;
    pub const ORDER_BEFORE_COUNT: u8 = 111;
    pub const BUFFER_BEFORE_ORDER: u8 = 112;
    pub const PAIRS_BY_COUNT: u8 = 113;
    pub const PAIRS_BY_RATIO: u8 = 114;
    pub const WRITER_TAKES_257: u8 = 115;
    pub const EXACT_BUFFER_IS_SHORT: u8 = 116;
    pub const REFUSED_WRITE_WRITES: u8 = 117;
    pub const UNORDERED_WRITE_WRITES: u8 = 118;
    pub const LATER_BYTES_ARE_CLEARED: u8 = 119;
    pub const INDEX_BEFORE_BODIES: u8 = 120;
    pub const NAMES_THEN_OFFSETS: u8 = 121;
    pub const NUMBER_BEFORE_INDEX_OFFSET: u8 = 122;
    pub const HIGH_BYTE_FIRST: u8 = 123;
    pub const OFFSETS_COUNT_BACK: u8 = 124;
    pub const FIND_BY_PREFIX: u8 = 125;
    pub const FIND_BY_16_BYTES: u8 = 126;
    pub const FIND_UNDER_THE_NEIGHBOUR: u8 = 127;
    pub const MISSING_NAME_IS_THE_NEXT: u8 = 128;
    pub const NAME_BEFORE_PACK: u8 = 129;

    /// The first of those that are planted into the profile check and the choice (`profile`) and not into the chip.
    pub const IN_PROFILES: u8 = FIXED_1_IS_TESTED_AS_0;

    /// The first of those that are planted into profile packs (`packs`).
    pub const IN_PACKS: u8 = SIGNED_NAMES;

    /// What the faults are, from 1 on.
    pub const NAMES: [&str; 129] = [
        "WaterLevel is off by one",
        "a Command write clears FIFOOvfl",
        "an overflow drops the oldest byte",
        "a running timer takes a new TPreScaler",
        "WriteE2 runs on from 1FFh to 000h",
        "LoadConfig may start at 061h",
        "ReadE2 may read 080h",
        "a frame of exactly the CRC sets CRCErr",
        "parity is tested on an incomplete byte",
        "TxIRq is set by a programming after which bytes wait",
        "a good key clears KeyErr",
        "a Command write that is ignored clears error flags",
        "LoadKeyE2 may start at 1F5h",
        "a programming takes one clock less",
        "CRC3309 goes before CRC8",
        "a byte that a command takes at once raises a LoAlert request",
        "a phase of 2^prescaler is well formed",
        "a take clears TxLastBits",
        "a latched count left over while nothing is programmed is malformed",
        "WriteE2 with latched bytes of one block and no clocks left is well formed",
        "clocks left at stage 01h are malformed",
        "stage 81h is listed",
        "the next address is judged for WriteE2 alone",
        "a reserved field is judged",
        "ModemState is TxData with an empty FIFO",
        "ModemState is Idle while bytes are held by a chip that receives",
        "ModemState is PrepareRx while the chip receives",
        "a restarting timer goes round TimerReload + 1",
        "TimerIRq is missed where the steps of an advance equal the value",
        "the clocks behind the first programming's end in an advance are lost",
        "the phase and the clocks of an advance are added in 32 bits",
        "a start judges the type bytes before the length",
        "the first two type bytes decide over the edition",
        "each type byte may be that of either edition",
        "the type bytes are not judged by refusal 7",
        "an edition's number above 1 is well formed, and its lowest bit counts",
        "a start that is refused with 2 changes the edition",
        "a dropped CRC is lost where the FIFO is full",
        "a byte that is taken in at 63 held is counted as lost",
        "the bytes that ReadE2 loses are not answered",
        "a call answers no more lost bytes than the sum has room for",
        "the sum of lost bytes runs over",
        "the sum of lost bytes begins with the setting of FIFOOvfl",
        "a take clears the sum of lost bytes",
        "a Command write clears the sum of lost bytes",
        "a flush leaves the sum of lost bytes",
        "a start leaves the sum of lost bytes",
        "the call for the sum of lost bytes refuses one above 0 beside a clear FIFOOvfl",
        "the last clock of a leaving reaches timer and programming",
        "both modes are left by one count, the longer",
        "a 0 written during a leaving begins it anew",
        "a 1 written during a leaving halts its count, and a later 0 goes on with it",
        "a mode has hold at once although there is a programming",
        "the timer misses the clock that ends a programming for which a mode waits",
        "a 0 written to a mode that waits is ignored",
        "a 0 written to a mode that waits begins a leaving",
        "the timer stands while a mode waits",
        "a mode waits until WriteE2 has programmed everything",
        "a mode has hold at once over a programming that the other one stops",
        "a 1 written during a leaving waits for a programming that stands still",
        "bytes that wait are not latched as a mode takes hold",
        "a mode that waits is off where WriteE2 meets block 0",
        "the clocks of an advance behind the taking of hold reach the timer",
        "the clocks of an advance behind the end of a leaving are lost",
        "StandBy is left by the clocks that PowerDown lets through",
        "a write that sets one power bit does not clear the other",
        "a write of FlushFIFO alone does not clear the power bits",
        "a power bit reads 0 while its mode is being left",
        "E2Ready is 1 while a programming stands still",
        "a Command write acts over a programming that stands still",
        "a flush does nothing in a mode",
        "TStopNow does nothing in a mode",
        "TStartNow does nothing in a mode",
        "a take is not refused while a mode is being left",
        "a delivery is not refused while a mode is being left",
        "takes and deliveries are refused in PowerDown alone",
        "refusal 4 for a mode goes before 5 and 6",
        "the end of a leaving sets IdleIRq",
        "a start keeps a mode in hold",
        "a power bit without hold and without a programming is well formed",
        "a power bit without hold is well formed where WriteE2 is active",
        "a power bit without hold is malformed over a programming too",
        "a hold without its bit is well formed",
        "a leaving without its hold is well formed",
        "a leaving with one clock too many to go is well formed",
        "a leaving that has just begun is malformed",
        "StandBy may have 512 clocks to go",
        "a hold over a programming of which clocks have passed is malformed",
        "the profile check tests a bit that is fixed at 1 for 0",
        "the profile check goes by the lowest bit of an edition's number above 1",
        "the profile check judges the edition's number before the length",
        "the choice judges both images by the MFRC531's table",
        "the choice judges an image of neither edition by the MFRC531's table",
        "the choice judges the rescue image by the edition of the user's",
        "names are compared as signed bytes",
        "equal names in a pack count as ascending",
        "the order of names goes by their first 15 bytes",
        "the order of names goes by the bytes before a 00h",
        "the reader takes bytes behind a pack's trailer",
        "the reader does not compare the offsets of bodies",
        "the reader takes the offset of any body",
        "the reader does not compare the index's offset",
        "the reader does not compare the number of profiles",
        "the reader compares two bytes of the number of profiles",
        "the reader does not compare RC53",
        "the reader takes 257 profiles",
        "the reader refuses 256 profiles",
        "the reader refuses a pack without profiles",
        "the reader refuses a body that fails the profile check",
        "the writer judges the number of profiles before their pairing",
        "the writer judges the order of names before their number",
        "the writer judges the buffer before the order of names",
        "the writer pairs names and bodies by whole ones alone",
        "the writer pairs any bodies that are twice as long as the names",
        "the writer takes 257 profiles",
        "the writer refuses a buffer as long as the pack",
        "a write that is refused for a short buffer fills it",
        "a write that is refused for the order of names has written the bodies",
        "the writer clears the buffer behind the pack",
        "the index stands before the bodies",
        "all names stand before all offsets",
        "the number of profiles stands before the index's offset",
        "offsets and number stand high byte first",
        "offsets are counted back from the trailer",
        "a find takes the beginning of a name for the name",
        "a find goes by the first 16 bytes of a longer name",
        "a find answers the body of the profile before",
        "a find of a missing name answers the next one's body",
        "a find judges the name's length before the pack",
    ];
}

/// Why a call did nothing. The chip and every buffer are as before.
#[derive(Clone, Copy, PartialEq, Eq, Debug)]
#[repr(u8)]
pub enum Refusal {
    AddressAbove63 = 1,
    ImageNot512Bytes = 2,
    NotSendingOrReceiving = 4,
    FrameMalformed = 5,
    BufferUnder66Bytes = 6,
    ChipMalformed = 7,
    NoPack = 14,
    NameMissing = 15,
    Unpaired = 16,
    Over256Profiles = 17,
    NotAscending = 18,
    BufferShort = 19,
    ImageOfNeitherEdition = 22,
}

/// The two chips of the family. Nothing that the chip does depends on it; a start and refusal 7 judge it, and the profile check has a table for each.
#[derive(Clone, Copy, PartialEq, Eq, Debug)]
#[repr(u8)]
pub enum Edition {
    Mfrc531 = 0,
    MfRc530 = 1,
}

impl Edition {
    pub const BOTH: [Edition; 2] = [Edition::Mfrc531, Edition::MfRc530];

    /// The product type: what its EEPROM has at 000h-003h.
    #[inline]
    pub const fn type_bytes(self) -> [u8; 4] {
        match self {
            Edition::Mfrc531 => [0x30, 0xCC, 0xFF, 0x0F],
            Edition::MfRc530 => [0x30, 0x88, 0xFE, 0x03],
        }
    }

    /// The edition of a number, as a chip's memory has it and as the profile check is told it.
    pub fn of_number(number: u8) -> Option<Self> {
        Edition::BOTH.into_iter().find(|edition| *edition as u8 == number)
    }

    /// The edition of an image, by its first four bytes and nothing else.
    pub fn of_image(image: &[u8]) -> Option<Self> {
        Edition::BOTH.into_iter().find(|edition| image.starts_with(&edition.type_bytes()))
    }
}

/// What a take answers.
#[derive(Clone, Copy, PartialEq, Eq, Debug)]
pub struct Taken {
    /// Bytes written to the buffer, CRC included.
    pub count: u8,
    /// BitFraming (0Fh) bits 2-0.
    pub last_bits: u8,
}

/// Bits of InterruptEn (06h) and InterruptRq (07h).
pub mod request {
    pub const TIMER: u8 = 1 << 5;
    pub const TX: u8 = 1 << 4;
    pub const RX: u8 = 1 << 3;
    pub const IDLE: u8 = 1 << 2;
    #[cfg(test)]
    pub const HI_ALERT: u8 = 1 << 1;
    #[cfg(test)]
    pub const LO_ALERT: u8 = 1;
    pub const ALL: u8 = 0x3F;
}

/// Bits of ErrorFlag (0Ah).
pub mod error {
    pub const KEY: u8 = 1 << 6;
    pub const ACCESS: u8 = 1 << 5;
    pub const OVERFLOW: u8 = 1 << 4;
    pub const CRC: u8 = 1 << 3;
    pub const PARITY: u8 = 1 << 1;
    pub const ALL: u8 = KEY | ACCESS | OVERFLOW | CRC | PARITY;
}

/// Registers that the chip itself looks at, by their place among 10h-2Fh.
mod setting {
    pub const CHANNEL_REDUNDANCY: usize = 0x22 - 0x10;
    pub const CRC_PRESET_LOW: usize = 0x23 - 0x10;
    pub const CRC_PRESET_HIGH: usize = 0x24 - 0x10;
    pub const FIFO_LEVEL: usize = 0x29 - 0x10;
    pub const TIMER_CLOCK: usize = 0x2A - 0x10;
    pub const TIMER_CONTROL: usize = 0x2B - 0x10;
    pub const TIMER_RELOAD: usize = 0x2C - 0x10;
}

/// Bits of ChannelRedundancy (22h).
pub mod redundancy {
    pub const CRC_3309: u8 = 1 << 5;
    pub const CRC_8: u8 = 1 << 4;
    pub const RX_CRC: u8 = 1 << 3;
    pub const TX_CRC: u8 = 1 << 2;
    pub const PARITY_ODD: u8 = 1 << 1;
    pub const PARITY: u8 = 1;
}

// ---- FIFO ------------------------------------------------------------------------------------------------------------------------------

/// Sixty-four bytes, first in, first out.
#[derive(Clone, Debug)]
pub struct Fifo {
    slots: [u8; 64],
    first: u8,
    held: u8,
}

impl Fifo {
    pub const SIZE: u8 = 64;

    pub const fn new() -> Self {
        Fifo { slots: [0; 64], first: 0, held: 0 }
    }

    #[inline]
    pub fn held(&self) -> u8 {
        self.held
    }

    /// Adds a byte at the end, or answers false when there is no room.
    #[inline]
    pub fn push(&mut self, byte: u8) -> bool {
        if self.held == Self::SIZE {
            return false;
        }
        self.slots[usize::from(self.first.wrapping_add(self.held) % Self::SIZE)] = byte;
        self.held += 1;
        true
    }

    /// Takes the oldest byte.
    #[inline]
    pub fn pop(&mut self) -> Option<u8> {
        if self.held == 0 {
            return None;
        }
        let byte = self.slots[usize::from(self.first)];
        self.first = (self.first + 1) % Self::SIZE;
        self.held -= 1;
        Some(byte)
    }

    #[inline]
    pub fn clear(&mut self) {
        self.held = 0;
    }

    /// The held bytes, oldest first.
    pub fn bytes(&self) -> impl Iterator<Item = u8> + '_ {
        (0..self.held).map(|place| self.slots[usize::from((self.first + place) % Self::SIZE)])
    }

    /// Takes a 16-bit number, low byte first. The caller knows that two bytes are held.
    fn pop_address(&mut self) -> u16 {
        let low = self.pop().unwrap_or(0);
        let high = self.pop().unwrap_or(0);
        u16::from_le_bytes([low, high]) % EEPROM_SIZE as u16
    }
}

impl Default for Fifo {
    fn default() -> Self {
        Self::new()
    }
}

// ---- Checksums -------------------------------------------------------------------------------------------------------------------------

/// x^16 + x^12 + x^5 + 1, least bit first, for each byte.
pub static TABLE_16: [u16; 256] = table_16();
/// x^8 + x^4 + x^3 + x^2 + 1, least bit first, for each byte.
static TABLE_8: [u8; 256] = table_8();

const fn table_16() -> [u16; 256] {
    let mut table = [0; 256];
    let mut index = 0;
    while index < 256 {
        let mut value = index as u16;
        let mut bit = 0;
        while bit < 8 {
            value = if value & 1 == 1 { value >> 1 ^ 0x8408 } else { value >> 1 };
            bit += 1;
        }
        table[index] = value;
        index += 1;
    }
    table
}

const fn table_8() -> [u8; 256] {
    let mut table = [0; 256];
    let mut index = 0;
    while index < 256 {
        let mut value = index as u8;
        let mut bit = 0;
        while bit < 8 {
            value = if value & 1 == 1 { value >> 1 ^ 0xB8 } else { value >> 1 };
            bit += 1;
        }
        table[index] = value;
        index += 1;
    }
    table
}

/// The checksum unit: its register, and the byte of ChannelRedundancy that it goes by.
#[derive(Clone, Copy, PartialEq, Eq, Debug, Default)]
pub struct Checksum {
    pub value: u16,
    pub mode: u8,
}

impl Checksum {
    /// As it begins, from ChannelRedundancy and the two presets. Eight bits wide it uses the low preset only.
    pub fn begin(mode: u8, low: u8, high: u8) -> Self {
        let high = if mode & redundancy::CRC_8 != 0 { 0 } else { high };
        Checksum { value: u16::from_le_bytes([low, high]), mode }
    }

    pub fn is_8_bits(&self) -> bool {
        self.mode & redundancy::CRC_8 != 0
    }

    /// Bytes that it takes in a frame.
    pub fn width(&self) -> usize {
        if self.is_8_bits() {
            1
        } else {
            2
        }
    }

    #[inline]
    pub fn add(&mut self, byte: u8) {
        let index = usize::from(self.value as u8 ^ byte);
        self.value = if self.is_8_bits() { u16::from(TABLE_8[index]) } else { self.value >> 8 ^ TABLE_16[index] };
    }

    /// What the host sees, low byte first: CRC3309 complements 16 bits, and never eight.
    pub fn result(&self) -> u16 {
        if self.mode & redundancy::CRC_3309 != 0 && !self.is_8_bits() {
            !self.value
        } else {
            self.value
        }
    }
}

// ---- Keys ------------------------------------------------------------------------------------------------------------------------------

/// A key from its twelve stored bytes: two for each byte, upper nibble first, each nibble complemented in the upper half.
pub fn key_of(stored: &[u8; 12]) -> Option<[u8; 6]> {
    let mut key = [0; 6];
    for (byte, pair) in key.iter_mut().zip(stored.chunks_exact(2)) {
        if pair.iter().any(|half| half >> 4 != !half & 0x0F) {
            return None;
        }
        *byte = pair[0] << 4 | pair[1] & 0x0F;
    }
    Some(key)
}

/// A nibble as a key's memory has it.
pub fn stored_nibble(nibble: u8) -> u8 {
    (!nibble & 0x0F) << 4 | nibble & 0x0F
}

// ---- Timer and command -----------------------------------------------------------------------------------------------------------------

/// What the timer keeps while it runs.
#[derive(Clone, Copy, PartialEq, Eq, Debug)]
pub struct Run {
    pub prescaler: u8,
    pub phase: u32,
}

/// The timer: its value can be read also when it stands.
#[derive(Clone, Copy, PartialEq, Eq, Debug, Default)]
pub struct Timer {
    pub value: u8,
    pub run: Option<Run>,
}

/// How far WriteE2 has got.
#[derive(Clone, Copy, PartialEq, Eq, Debug)]
pub enum Writing {
    /// Waits for its two address bytes.
    Unaddressed,
    /// Has its address, and waits for data.
    Ready { next: u16 },
    /// Programs the first `latched` bytes of the latch, which go right before `next`.
    Programming { next: u16, latched: u8, left: u32 },
}

/// The active command.
#[derive(Clone, Copy, PartialEq, Eq, Debug)]
pub enum Command {
    Idle,
    WriteE2(Writing),
    ReadE2,
    LoadConfig,
    LoadKeyE2,
    CalcCrc,
    Receive,
    LoadKey,
    Transmit,
    /// Sends first, and receives after a take.
    Transceive {
        receiving: bool,
    },
}

impl Command {
    /// The command of a code as it begins; none for a code that is no command.
    pub fn of_code(code: u8) -> Option<Self> {
        Some(match code {
            0x00 => Command::Idle,
            0x01 => Command::WriteE2(Writing::Unaddressed),
            0x03 => Command::ReadE2,
            0x07 => Command::LoadConfig,
            0x0B => Command::LoadKeyE2,
            0x12 => Command::CalcCrc,
            0x16 => Command::Receive,
            0x19 => Command::LoadKey,
            0x1A => Command::Transmit,
            0x1E => Command::Transceive { receiving: false },
            _ => return None,
        })
    }

    pub fn code(self) -> u8 {
        match self {
            Command::Idle => 0x00,
            Command::WriteE2(_) => 0x01,
            Command::ReadE2 => 0x03,
            Command::LoadConfig => 0x07,
            Command::LoadKeyE2 => 0x0B,
            Command::CalcCrc => 0x12,
            Command::Receive => 0x16,
            Command::LoadKey => 0x19,
            Command::Transmit => 0x1A,
            Command::Transceive { .. } => 0x1E,
        }
    }

    pub fn sends(self) -> bool {
        matches!(self, Command::Transmit | Command::Transceive { receiving: false })
    }

    pub fn receives(self) -> bool {
        matches!(self, Command::Receive | Command::Transceive { receiving: true })
    }

    pub fn programs(self) -> bool {
        matches!(self, Command::WriteE2(Writing::Programming { .. }))
    }

    /// The most bytes that can wait in the FIFO while the command does nothing about them.
    pub fn waits(self) -> u8 {
        match self {
            Command::WriteE2(Writing::Unaddressed) | Command::LoadConfig | Command::LoadKeyE2 => 1,
            Command::WriteE2(Writing::Ready { .. }) | Command::CalcCrc => 0,
            Command::ReadE2 => 2,
            Command::LoadKey => 11,
            Command::Idle
            | Command::WriteE2(Writing::Programming { .. })
            | Command::Receive
            | Command::Transmit
            | Command::Transceive { .. } => Fifo::SIZE,
        }
    }
}

// ---- Power modes -----------------------------------------------------------------------------------------------------------------------

/// What stands behind a power bit of Control. The bit reads 0 when the mode is off, and else 1.
#[derive(Clone, Copy, PartialEq, Eq, Debug, Default)]
pub enum Mode {
    #[default]
    Off,
    /// Set over a programming, at whose end it takes hold.
    Waiting,
    /// In hold: no clock reaches timer or programming.
    Held,
    /// Still in hold, for so many clocks more, at least one.
    Leaving { to_go: u16 },
}

impl Mode {
    #[inline]
    pub fn holds(self) -> bool {
        matches!(self, Mode::Held | Mode::Leaving { .. })
    }

    /// After a write of its bit. A programming may run or stand still; `whole` is what a leaving takes.
    #[inline]
    fn written(self, bit: bool, programs: bool, whole: u16) -> Self {
        match (self, bit) {
            (Mode::Off, true) if programs => Mode::Waiting,
            (Mode::Off, true) => Mode::Held,
            (Mode::Waiting, false) => Mode::Off,
            (Mode::Held, false) => Mode::Leaving { to_go: whole },
            (Mode::Leaving { .. }, true) => Mode::Held,
            (Mode::Off, false) | (Mode::Waiting, true) | (Mode::Held, true) | (Mode::Leaving { .. }, false) => self,
        }
    }

    /// After so many clocks in which no programming ends.
    fn given(self, clocks: u32) -> Self {
        match self {
            Mode::Leaving { to_go } if clocks >= to_go.into() => Mode::Off,
            Mode::Leaving { to_go } => Mode::Leaving { to_go: to_go - clocks as u16 },
            _ => self,
        }
    }

    /// After the end of a programming.
    fn programming_ended(self) -> Self {
        match self {
            Mode::Waiting => Mode::Held,
            _ => self,
        }
    }
}

// ---- The chip --------------------------------------------------------------------------------------------------------------------------

/// The chip.
#[allow(dead_code)] // by this program, which always says which fault it means
pub type Chip = FaultyChip<{ fault::NONE }>;

/// The chip with one of the faults of `fault` planted, or none.
#[derive(Clone, Debug)]
pub struct FaultyChip<const FAULT: u8> {
    pub edition: Edition,
    pub fifo: Fifo,
    pub timer: Timer,
    pub command: Command,
    /// What WriteE2 programs.
    pub latch: [u8; 16],
    /// What CRC result (0Dh, 0Eh) shows.
    pub checksum: Checksum,
    /// The one Page register.
    pub page: u8,
    pub enables: u8,
    pub requests: u8,
    pub errors: u8,
    /// Bytes lost since the latest flush or start; at its limit it stays. Any is well formed, whatever FIFOOvfl is.
    pub lost_sum: u16,
    /// StandBy and PowerDown: all that Control (09h) shows.
    pub modes: [Mode; 2],
    /// What a planted fault keeps of a leaving, for each mode; the chip without a fault has no use for it.
    pub halted: [u16; 2],
    pub rx_last_bits: u8,
    /// BitFraming (0Fh).
    pub bit_framing: u8,
    pub key: Option<[u8; 6]>,
    /// 10h-2Fh; the Page positions among them are never read.
    pub registers: [u8; 32],
    pub eeprom: [u8; EEPROM_SIZE],
}

impl<const FAULT: u8> FaultyChip<FAULT> {
    /// A chip as a start from an image leaves it.
    pub fn started(image: &[u8]) -> Result<Self, Refusal> {
        let (eeprom, edition) = Self::judged(image)?;
        Ok(Self::fresh(eeprom, edition))
    }

    /// An image that a start takes, with its edition: it has 512 bytes, and then the first four are an edition's.
    #[inline]
    fn judged(image: &[u8]) -> Result<(&[u8; EEPROM_SIZE], Edition), Refusal> {
        if FAULT == fault::TYPE_BEFORE_LENGTH && Edition::of_image(image).is_none() {
            return Err(Refusal::ImageOfNeitherEdition);
        }
        let eeprom: &[u8; EEPROM_SIZE] = image.try_into().map_err(|_| Refusal::ImageNot512Bytes)?;
        let edition = match FAULT {
            fault::TWO_TYPE_BYTES_DECIDE => Edition::BOTH.into_iter().find(|edition| eeprom[..2] == edition.type_bytes()[..2]),
            fault::EACH_TYPE_BYTE_BY_ITSELF => {
                let [one, other] = Edition::BOTH.map(Edition::type_bytes);
                let either = (0..4).all(|place| eeprom[place] == one[place] || eeprom[place] == other[place]);
                either.then(|| if eeprom[1] == one[1] { Edition::Mfrc531 } else { Edition::MfRc530 })
            }
            _ => Edition::of_image(eeprom),
        };
        Ok((eeprom, edition.ok_or(Refusal::ImageOfNeitherEdition)?))
    }

    #[inline]
    fn fresh(eeprom: &[u8; EEPROM_SIZE], edition: Edition) -> Self {
        let mut chip = FaultyChip {
            edition,
            fifo: Fifo::new(),
            timer: Timer::default(),
            command: Command::Idle,
            latch: [0; 16],
            checksum: Checksum::default(),
            page: 0x80,
            enables: 0,
            requests: 0,
            errors: error::KEY,
            lost_sum: 0,
            modes: [Mode::Off; 2],
            halted: [0; 2],
            rx_last_bits: 0,
            bit_framing: 0,
            key: None,
            registers: [0; 32],
            eeprom: *eeprom,
        };
        chip.load_registers(0x010);
        chip
    }

    /// When a chip is well formed (manual 10.3), as far as the types leave it open. The events lead from well-formed chips to such.
    #[inline]
    pub fn well_formed(&self) -> bool {
        let timer = match self.timer.run {
            Some(run) => self.timer.value >= 1 && run.prescaler <= 21 && run.phase < 1 << run.prescaler,
            None => true,
        };
        let writing = match self.command {
            Command::WriteE2(Writing::Ready { next }) => next < 0x200,
            Command::WriteE2(Writing::Programming { next, latched, left }) => {
                let first = (next + 0x200 - u16::from(latched)) % 0x200;
                let inside = (1..=16).contains(&latched) && first % 16 + u16::from(latched) <= 16 && first >= 0x10;
                next < 0x200 && (1..=78_648).contains(&left) && inside
            }
            _ => true,
        };
        let zeros = (self.enables | self.requests) & 0xC0 | self.errors & 0x85 | self.page & 0x78 | self.rx_last_bits & 0xF8;
        let checksum = !self.checksum.is_8_bits() || self.checksum.value < 0x100;
        let edition = self.eeprom[..4] == self.edition.type_bytes();
        let well_formed = self.fifo.held() <= self.command.waits() && timer && writing && zeros == 0 && checksum && edition;
        well_formed && (self.is_awake() || self.modes_well_formed())
    }

    #[inline(never)] // so that a chip with both modes off does not pay for it
    fn modes_well_formed(&self) -> bool {
        self.modes.iter().zip(power::LEAVING).all(|(mode, whole)| match mode {
            Mode::Off | Mode::Held => true,
            Mode::Waiting => self.command.programs(),
            Mode::Leaving { to_go } => (1..=whole).contains(to_go),
        })
    }

    /// A start: from whatever the chip was to a fresh one with this image.
    pub fn start(&mut self, image: &[u8]) -> Result<(), Refusal> {
        if FAULT == fault::REFUSED_START_CHANGES_EDITION {
            self.edition = Edition::of_image(image).unwrap_or(self.edition);
        }
        let (eeprom, edition) = Self::judged(image)?;
        let (sum, modes) = (self.lost_sum, self.modes);
        *self = Self::fresh(eeprom, edition);
        if FAULT == fault::START_LEAVES_SUM {
            self.lost_sum = sum;
        }
        if FAULT == fault::START_KEEPS_A_MODE {
            self.modes = modes.map(|mode| if mode == Mode::Held { mode } else { Mode::Off });
        }
        Ok(())
    }

    /// A host read of a register. Only a read of FIFOData changes the chip.
    #[inline]
    pub fn read(&mut self, address: u8) -> Result<u8, Refusal> {
        if address > 63 {
            return Err(Refusal::AddressAbove63);
        }
        Ok(match self.register(address) {
            0x00 => self.page,
            0x01 => self.command.code(),
            0x02 => {
                let before = self.alerts();
                let byte = self.fifo.pop().unwrap_or(0);
                self.raise_alerts(before);
                byte
            }
            0x03 => {
                let irq = self.requests & self.enables != 0;
                let err = self.errors != 0;
                self.modem_state() << 4 | u8::from(irq) << 3 | u8::from(err) << 2 | self.alerts()
            }
            0x04 => self.fifo.held(),
            0x05 => {
                let ready = !self.command.programs() || FAULT == fault::READY_WHILE_STANDING_STILL && self.holds();
                u8::from(self.timer.run.is_some()) << 7 | u8::from(ready) << 6 | 1 << 5 | self.rx_last_bits
            }
            0x06 => self.enables,
            0x07 => self.requests,
            0x09 => self.control(),
            0x0A => self.errors,
            0x0C => self.timer.value,
            0x0D => self.checksum.result() as u8,
            0x0E => (self.checksum.result() >> 8) as u8,
            0x0F => self.bit_framing,
            register @ 0x10..=0x2F => self.registers[usize::from(register - 0x10)],
            _ => 0,
        })
    }

    /// A host write to a register. The active command then does what it can. Answers how many bytes were lost.
    #[inline]
    pub fn write(&mut self, address: u8, byte: u8) -> Result<u8, Refusal> {
        if address > 63 {
            return Err(Refusal::AddressAbove63);
        }
        let before = self.alerts();
        let mut lost = 0;
        match self.register(address) {
            0x00 => self.page = byte & 0x87,
            0x01 => lost = self.write_command(byte & 0x3F),
            0x02 => {
                lost = self.offer(byte);
                if FAULT == fault::ALERTS_JUDGED_BYTE_BY_BYTE {
                    self.raise_alerts(before);
                    let before = self.alerts();
                    lost += self.work();
                    self.raise_alerts(before);
                }
                lost += self.work();
            }
            0x06 => self.enables = marked(self.enables, byte),
            0x07 => self.requests = marked(self.requests, byte),
            0x09 => self.write_control(byte),
            0x0F => self.bit_framing = byte,
            register @ 0x10..=0x2F => {
                self.registers[usize::from(register - 0x10)] = byte;
                if FAULT == fault::RUNNING_TIMER_TAKES_PRESCALER && register == 0x2A && byte & 0x1F <= 21 {
                    if let Some(run) = &mut self.timer.run {
                        *run = Run { prescaler: byte & 0x1F, phase: 0 };
                    }
                }
            }
            _ => {}
        }
        self.raise_alerts(before);
        Ok(lost)
    }

    /// An advance by clocks of 13.56 MHz. With both power modes off the timer and the programming see nothing of each other, so each jumps by itself.
    #[inline]
    pub fn advance(&mut self, clocks: u32) -> Result<(), Refusal> {
        let before = self.alerts();
        if self.is_awake() {
            self.advance_timer(clocks);
            self.advance_programming(clocks);
        } else {
            self.advance_in_modes(clocks);
        }
        self.raise_alerts(before);
        Ok(())
    }

    /// One clock by the words of the rules, to hold the jumps of `advance` to.
    #[cfg(test)]
    pub fn clock(&mut self) {
        let before = self.alerts();
        let reaches = !self.holds();
        let ends = reaches && matches!(self.command, Command::WriteE2(Writing::Programming { left: 1, .. }));
        if reaches {
            self.advance_timer(1);
            self.advance_programming(1);
        }
        self.modes = self.modes.map(|mode| match mode {
            Mode::Off => Mode::Off,
            Mode::Waiting if ends => Mode::Held,
            Mode::Waiting => Mode::Waiting,
            Mode::Held => Mode::Held,
            Mode::Leaving { to_go: 1 } => Mode::Off,
            Mode::Leaving { to_go } => Mode::Leaving { to_go: to_go - 1 },
        });
        self.raise_alerts(before);
    }

    /// A take of the frame that the chip sends: all held bytes, and the CRC if there is to be one.
    pub fn take(&mut self, buffer: &mut [u8]) -> Result<Taken, Refusal> {
        if FAULT == fault::MODE_REFUSED_BEFORE_5_AND_6 && self.holds() {
            return Err(Refusal::NotSendingOrReceiving);
        }
        if buffer.len() < TAKE_BUFFER {
            return Err(Refusal::BufferUnder66Bytes);
        }
        if !self.command.sends() || self.fifo.held() == 0 || self.refuses_frames(FAULT == fault::TAKE_IN_A_LEAVING) {
            return Err(Refusal::NotSendingOrReceiving);
        }
        let before = self.alerts();
        let mut count = 0;
        let mut checksum = self.frame_checksum();
        while let Some(byte) = self.fifo.pop() {
            checksum.add(byte);
            buffer[count] = byte;
            count += 1;
        }
        let last_bits = self.bit_framing & 7;
        if self.registers[setting::CHANNEL_REDUNDANCY] & redundancy::TX_CRC != 0 && last_bits == 0 {
            let width = checksum.width();
            buffer[count..count + width].copy_from_slice(&checksum.result().to_le_bytes()[..width]);
            count += width;
        }
        // The frame's begin, then its end: bits 0 and 1. With no clock between them one start is seen.
        if self.registers[setting::TIMER_CONTROL] & 0b11 != 0 {
            self.start_timer();
        }
        self.requests |= request::TX;
        match self.command {
            Command::Transceive { .. } => self.command = Command::Transceive { receiving: true },
            _ => self.end(),
        }
        if FAULT == fault::TAKE_CLEARS_LAST_BITS {
            self.bit_framing &= !7;
        }
        if FAULT == fault::TAKE_CLEARS_SUM {
            self.lost_sum = 0;
        }
        self.raise_alerts(before);
        Ok(Taken { count: count as u8, last_bits })
    }

    /// A delivery of a frame that the chip receives: its bytes, the parity bit of each, and how many bits of the last byte count (0: all). Answers how
    /// many bytes were lost; a CRC that is dropped is not offered.
    pub fn deliver(&mut self, bytes: &[u8], parities: &[u8], last_bits: u8) -> Result<u8, Refusal> {
        if FAULT == fault::MODE_REFUSED_BEFORE_5_AND_6 && self.holds() {
            return Err(Refusal::NotSendingOrReceiving);
        }
        if bytes.is_empty() || bytes.len() > 64 || parities.len() != bytes.len() || parities.iter().any(|&bit| bit > 1) || last_bits > 7 {
            return Err(Refusal::FrameMalformed);
        }
        if !self.command.receives() || self.refuses_frames(FAULT == fault::DELIVERY_IN_A_LEAVING) {
            return Err(Refusal::NotSendingOrReceiving);
        }
        let before = self.alerts();
        let mode = self.registers[setting::CHANNEL_REDUNDANCY];
        if mode & redundancy::PARITY != 0 {
            let left_out = usize::from(last_bits != 0 && FAULT != fault::PARITY_OF_INCOMPLETE_BYTE);
            let complete = bytes.len() - left_out;
            let wanted = u32::from(mode & redundancy::PARITY_ODD != 0);
            let right = |(byte, &bit): (&u8, &u8)| (byte.count_ones() + u32::from(bit)) % 2 == wanted;
            if !bytes[..complete].iter().zip(parities).all(right) {
                self.errors |= error::PARITY;
            }
        }
        let mut passed = bytes;
        if mode & redundancy::RX_CRC != 0 {
            let mut checksum = self.frame_checksum();
            let width = checksum.width();
            let short = if FAULT == fault::FRAME_OF_CRC_ONLY_IS_SHORT { bytes.len() <= width } else { bytes.len() < width };
            if short || last_bits != 0 {
                self.errors |= error::CRC;
            } else {
                let (data, trailer) = bytes.split_at(bytes.len() - width);
                data.iter().for_each(|&byte| checksum.add(byte));
                if trailer != &checksum.result().to_le_bytes()[..width] {
                    self.errors |= error::CRC;
                }
                passed = data;
            }
        }
        let mut lost: u8 = passed.iter().map(|&byte| self.offer(byte)).sum();
        if FAULT == fault::DROPPED_CRC_IS_LOST && self.fifo.held() == Fifo::SIZE {
            (passed.len()..bytes.len()).for_each(|_| lost += self.lose());
        }
        self.rx_last_bits = last_bits;
        if self.registers[setting::TIMER_CONTROL] & 0b1100 != 0 {
            self.timer.run = None;
        }
        self.requests |= request::RX;
        self.end();
        self.raise_alerts(before);
        Ok(lost)
    }

    /// The call for the sum of lost bytes, which is no event.
    #[inline]
    pub fn lost_sum(&self) -> Result<u16, Refusal> {
        if FAULT == fault::SUM_WITHOUT_THE_FLAG_IS_REFUSED && self.errors & error::OVERFLOW == 0 && self.lost_sum > 0 {
            return Err(Refusal::ChipMalformed);
        }
        Ok(self.lost_sum)
    }

    // ---- Registers ---------------------------------------------------------------------------------------------------------------------

    /// The register that a host address means now. Every multiple of eight is Page (00h).
    #[inline]
    pub fn register(&self, address: u8) -> u8 {
        match (address % 8, self.page & 0x80 != 0) {
            (0, _) => 0,
            (low, true) => (self.page & 7) << 3 | low,
            (_, false) => address,
        }
    }

    /// ModemState by the sheet's codes: data is being sent, or reception is awaited.
    #[inline]
    fn modem_state(&self) -> u8 {
        let held = self.fifo.held() > 0;
        match self.command {
            Command::Receive | Command::Transceive { receiving: true } => match FAULT {
                fault::HELD_BYTES_HIDE_RECEPTION if held => 0b000,
                fault::RECEPTION_IS_PREPARED => 0b101,
                _ => 0b110,
            },
            Command::Transmit | Command::Transceive { receiving: false } if held || FAULT == fault::EMPTY_FIFO_IS_SENT => 0b010,
            _ => 0b000,
        }
    }

    /// HiAlert in bit 1 and LoAlert in bit 0, as PrimaryStatus and the requests have them.
    #[inline]
    fn alerts(&self) -> u8 {
        let level = self.registers[setting::FIFO_LEVEL] & 0x3F;
        let level = if FAULT == fault::WATER_LEVEL_OFF_BY_ONE { level + 1 } else { level };
        let held = self.fifo.held();
        let hi = Fifo::SIZE - held <= level;
        let lo = held <= level;
        u8::from(hi) << 1 | u8::from(lo)
    }

    /// Requests what the event has raised.
    #[inline]
    fn raise_alerts(&mut self, before: u8) {
        self.requests |= self.alerts() & !before;
    }

    fn write_control(&mut self, byte: u8) {
        let acts = |idle: u8| FAULT != idle || !self.holds();
        let (flushes, stops, starts) =
            (acts(fault::NO_FLUSH_IN_A_MODE), acts(fault::NO_STOP_IN_A_MODE), acts(fault::NO_START_OF_THE_TIMER_IN_A_MODE));
        self.write_modes(byte);
        if byte & 1 != 0 && flushes {
            self.fifo.clear();
            self.errors &= !error::OVERFLOW;
            if FAULT != fault::FLUSH_LEAVES_SUM {
                self.lost_sum = 0;
            }
        }
        if byte & 4 != 0 && stops {
            self.timer.run = None;
        }
        if byte & 2 != 0 && starts {
            self.start_timer();
        }
    }

    /// Each power bit by itself, from its state before the write.
    #[inline]
    fn write_modes(&mut self, byte: u8) {
        if FAULT == fault::FLUSH_ALONE_LEAVES_MODES && byte & 0x37 == 1 {
            return;
        }
        let programs = match FAULT {
            fault::HOLD_AT_THE_WRITE => false,
            fault::STANDING_STILL_IS_NO_PROGRAMMING => self.command.programs() && !self.holds(),
            _ => self.command.programs(),
        };
        for (place, mode) in self.modes.iter_mut().enumerate() {
            let bit = byte & power::BITS[place] != 0;
            let whole = power::LEAVING[place];
            *mode = match (FAULT, *mode, bit) {
                (fault::ZERO_BESIDE_A_ONE_IS_IGNORED, before, false) if byte & 0x30 != 0 => before,
                (fault::ZERO_BEGINS_A_LEAVING_ANEW, Mode::Leaving { .. }, false) => Mode::Leaving { to_go: whole },
                (fault::WAITING_IS_NOT_CANCELLED, Mode::Waiting, false) => Mode::Waiting,
                (fault::WAITING_IS_LEFT, Mode::Waiting, false) => Mode::Leaving { to_go: whole },
                (fault::ONE_IN_A_LEAVING_WAITS, Mode::Leaving { .. }, true) if programs => Mode::Waiting,
                (fault::ONE_HALTS_A_LEAVING, Mode::Leaving { to_go }, true) => {
                    self.halted[place] = to_go;
                    Mode::Held
                }
                (fault::ONE_HALTS_A_LEAVING, Mode::Held, false) if self.halted[place] > 0 => {
                    Mode::Leaving { to_go: std::mem::take(&mut self.halted[place]) }
                }
                (_, before, bit) => before.written(bit, programs, whole),
            };
        }
        if let (fault::LEAVINGS_SHARE_A_COUNT, [Mode::Leaving { to_go: one }, Mode::Leaving { to_go: other }]) = (FAULT, self.modes) {
            self.modes = [Mode::Leaving { to_go: one.max(other) }; 2];
        }
    }

    /// Control as it reads.
    #[inline]
    pub fn control(&self) -> u8 {
        let reads = |mode: Mode| mode != Mode::Off && !(FAULT == fault::BIT_READS_0_IN_A_LEAVING && matches!(mode, Mode::Leaving { .. }));
        let [stand_by, power_down] = self.modes.map(reads);
        u8::from(stand_by) << 5 | u8::from(power_down) << 4
    }

    /// Both modes are off.
    #[inline]
    fn is_awake(&self) -> bool {
        self.modes.iter().all(|mode| *mode == Mode::Off)
    }

    /// A mode has hold, so that no clock reaches timer or programming.
    #[inline]
    pub fn holds(&self) -> bool {
        self.modes.iter().any(|mode| mode.holds())
    }

    /// A programming stands still of which clocks have passed: no list of calls leads there, for a mode takes hold without one, or as one begins.
    pub fn stands_begun(&self) -> bool {
        let begun = matches!(self.command, Command::WriteE2(Writing::Programming { left, .. }) if left < PROGRAMMING_CLOCKS);
        begun && self.holds()
    }

    /// A mode has frames refused. Only a fault lets those pass that come while it is being left.
    #[inline]
    fn refuses_frames(&self, leaving_passes: bool) -> bool {
        let refuses = |mode: Mode| if leaving_passes { mode == Mode::Held } else { mode.holds() };
        let [stand_by, power_down] = self.modes.map(refuses);
        stand_by && FAULT != fault::FRAMES_IN_STAND_BY || power_down
    }

    /// Answers how many bytes the command loses at once.
    fn write_command(&mut self, code: u8) -> u8 {
        if self.command.programs() && !(FAULT == fault::COMMAND_WHILE_STANDING_STILL && self.holds()) {
            if FAULT == fault::IGNORED_COMMAND_CLEARS_ERRORS {
                self.errors &= !(error::ACCESS | error::CRC | error::PARITY);
            }
            return 0;
        }
        self.errors &= !(error::ACCESS | error::CRC | error::PARITY);
        if FAULT == fault::COMMAND_WRITE_CLEARS_OVERFLOW {
            self.errors &= !error::OVERFLOW;
        }
        if FAULT == fault::COMMAND_WRITE_CLEARS_SUM {
            self.lost_sum = 0;
        }
        let Some(command) = Command::of_code(code) else {
            self.end();
            return 0;
        };
        self.command = command;
        match command {
            Command::LoadKey | Command::LoadKeyE2 => self.errors &= !error::KEY,
            Command::CalcCrc => self.checksum = self.frame_checksum(),
            _ => {}
        }
        self.work()
    }

    /// A byte for the FIFO. The newest one is lost when it is full. Answers how many were lost.
    #[inline]
    fn offer(&mut self, byte: u8) -> u8 {
        if self.fifo.push(byte) {
            let counted = FAULT == fault::BYTE_TAKEN_IN_AT_63_IS_LOST && self.fifo.held() == Fifo::SIZE;
            return if counted { self.lose() } else { 0 };
        }
        if FAULT == fault::OVERFLOW_DROPS_OLDEST {
            self.fifo.pop();
            self.fifo.push(byte);
        }
        let lost = self.lose();
        self.errors |= error::OVERFLOW;
        lost
    }

    /// Counts a byte as lost. Answers how many were.
    #[inline]
    fn lose(&mut self) -> u8 {
        let sum = self.lost_sum;
        self.lost_sum = match FAULT {
            fault::SUM_RUNS_OVER => sum.wrapping_add(1),
            fault::SUM_BEGINS_WITH_THE_FLAG if self.errors & error::OVERFLOW == 0 => 1,
            _ => sum.saturating_add(1),
        };
        u8::from(FAULT != fault::LOST_IS_ANSWERED_UP_TO_THE_LIMIT || self.lost_sum != sum)
    }

    /// A checksum as the settings of now begin it.
    fn frame_checksum(&self) -> Checksum {
        let mut mode = self.registers[setting::CHANNEL_REDUNDANCY];
        if FAULT == fault::CRC3309_BEFORE_CRC8 && mode & redundancy::CRC_3309 != 0 {
            mode &= !redundancy::CRC_8;
        }
        Checksum::begin(mode, self.registers[setting::CRC_PRESET_LOW], self.registers[setting::CRC_PRESET_HIGH])
    }

    // ---- Clocks ------------------------------------------------------------------------------------------------------------------------

    /// A start event of the timer.
    fn start_timer(&mut self) {
        let reload = self.registers[setting::TIMER_RELOAD];
        let prescaler = self.registers[setting::TIMER_CLOCK] & 0x1F;
        self.timer = if reload == 0 || prescaler > 21 {
            Timer { value: 0, run: None }
        } else {
            Timer { value: reload, run: Some(Run { prescaler, phase: 0 }) }
        };
    }

    /// Clocks from one happening to the next: the end of a leaving, and the end of a programming for which a mode waits.
    #[inline(never)] // so that an advance with both modes off does not pay for it
    fn advance_in_modes(&mut self, mut clocks: u32) {
        while clocks > 0 {
            clocks -= if self.holds() { self.hold_back(clocks) } else { self.let_through(clocks) };
        }
    }

    /// Clocks that reach neither timer nor programming, up to the end of a leaving. Answers how many those are.
    fn hold_back(&mut self, clocks: u32) -> u32 {
        let [_, power_down] = self.modes;
        let counts = |place| FAULT != fault::LEAVING_BY_CLOCKS_LET_THROUGH || place == power::POWER_DOWN || !power_down.holds();
        let mut part = clocks;
        for (place, mode) in self.modes.into_iter().enumerate() {
            if let Mode::Leaving { to_go } = mode {
                part = if counts(place) { part.min(to_go.into()) } else { part };
            }
        }
        let before = self.modes;
        for (place, mode) in self.modes.iter_mut().enumerate() {
            *mode = if counts(place) { mode.given(part) } else { *mode };
        }
        if FAULT == fault::LEAVING_SETS_A_REQUEST && self.modes.iter().zip(before).any(|(mode, before)| before.holds() && !mode.holds()) {
            self.requests |= request::IDLE;
        }
        if FAULT == fault::LAST_CLOCK_OF_A_LEAVING_COUNTS && !self.holds() {
            self.advance_timer(1);
            self.advance_programming(1);
        }
        if FAULT == fault::ONE_HAPPENING_IN_AN_ADVANCE {
            return clocks;
        }
        part
    }

    /// Clocks that reach timer and programming, up to the end of a programming for which a mode waits: it takes hold behind that clock. Answers how
    /// many those are.
    fn let_through(&mut self, clocks: u32) -> u32 {
        let waits = self.modes.contains(&Mode::Waiting);
        let end = match self.command {
            Command::WriteE2(Writing::Programming { left, .. }) if waits && left <= clocks => Some(left),
            _ => None,
        };
        let part = end.unwrap_or(clocks);
        match FAULT {
            fault::WAITING_STOPS_THE_TIMER if waits => {}
            fault::TIMER_MISSES_THE_END if end.is_some() => self.advance_timer(part - 1),
            fault::CLOCKS_BEHIND_THE_HOLD_COUNT => self.advance_timer(clocks),
            _ => self.advance_timer(part),
        }
        self.advance_programming(part);
        if end.is_some() && !(FAULT == fault::WAITING_FOR_EVERY_BATCH && self.command.programs()) {
            self.modes = self.modes.map(Mode::programming_ended);
        }
        if FAULT == fault::BLOCK_0_CANCELS_A_MODE && end.is_some() && self.command == Command::Idle {
            self.modes = [Mode::Off; 2];
        }
        part
    }

    fn advance_timer(&mut self, clocks: u32) {
        let Some(run) = &mut self.timer.run else { return };
        let phase = u64::from(run.phase) + u64::from(clocks);
        let phase = if FAULT == fault::CLOCKS_IN_32_BITS { phase & 0xFFFF_FFFF } else { phase };
        let steps = phase >> run.prescaler;
        let value = u64::from(self.timer.value);
        run.phase = phase as u32 & ((1 << run.prescaler) - 1);
        if steps < value || FAULT == fault::REQUEST_MISSED_AT_ITS_STEP && steps == value {
            self.timer.value = (value - steps) as u8;
            return;
        }
        // The value has come to its end, at least once: what remains of the steps runs through the reload value.
        self.requests |= request::TIMER;
        let restarts = self.registers[setting::TIMER_CLOCK] & 0x20 != 0;
        let reload = u64::from(self.registers[setting::TIMER_RELOAD]);
        if restarts && reload != 0 {
            let lap = if FAULT == fault::LAP_OF_RELOAD_AND_ONE { reload + 1 } else { reload };
            self.timer.value = (reload - (steps - value) % lap) as u8;
        } else {
            self.timer = Timer { value: 0, run: None };
        }
    }

    fn advance_programming(&mut self, mut clocks: u32) {
        while let Command::WriteE2(Writing::Programming { next, latched, left }) = self.command {
            if clocks < left {
                self.command = Command::WriteE2(Writing::Programming { next, latched, left: left - clocks });
                return;
            }
            clocks -= left;
            if FAULT == fault::SECOND_PROGRAMMING_LOST {
                clocks = 0;
            }
            // `latched` is at most 16 and all in one block, so only the end of the memory can be the end of the batch and 000h at once.
            let end = if next == 0 { EEPROM_SIZE } else { usize::from(next) };
            let count = usize::from(latched);
            self.eeprom[end - count..end].copy_from_slice(&self.latch[..count]);
            self.command = Command::WriteE2(Writing::Ready { next });
            if self.fifo.held() == 0 || FAULT == fault::TX_REQUEST_AT_EVERY_PROGRAMMING {
                self.requests |= request::TX;
            }
            if FAULT == fault::BATCH_BEHIND_THE_HOLD_IS_NOT_LATCHED && self.modes.contains(&Mode::Waiting) {
                return;
            }
            // WriteE2 offers nothing, so nothing is lost.
            self.work();
        }
    }

    // ---- Commands ----------------------------------------------------------------------------------------------------------------------

    /// The command ends by itself.
    fn end(&mut self) {
        self.command = Command::Idle;
        self.requests |= request::IDLE;
    }

    /// The active command does what it can with the bytes that wait. Answers how many bytes were lost, which ReadE2 alone can lose.
    fn work(&mut self) -> u8 {
        let held = self.fifo.held();
        match self.command {
            Command::WriteE2(Writing::Unaddressed) if held >= 2 => {
                let next = self.fifo.pop_address();
                self.command = Command::WriteE2(Writing::Ready { next });
                self.write_block(next);
            }
            Command::WriteE2(Writing::Ready { next }) => self.write_block(next),
            Command::ReadE2 if held >= 3 => return self.read_block(),
            Command::LoadConfig if held >= 2 => {
                let address = self.fifo.pop_address();
                let last = if FAULT == fault::LOAD_CONFIG_FROM_061 { 0x061 } else { 0x060 };
                if (0x010..=last).contains(&address) {
                    self.load_registers(usize::from(address));
                } else {
                    self.errors |= error::ACCESS;
                }
                self.end();
            }
            Command::LoadKeyE2 if held >= 2 => {
                let address = usize::from(self.fifo.pop_address());
                let last = if FAULT == fault::KEY_FROM_1F5 { 0x1F5 } else { 0x1F4 };
                let key = if address <= last {
                    let mut stored = [0; 12];
                    for (place, byte) in stored.iter_mut().enumerate() {
                        // Only the fault reads beyond the end, where it finds a nibble: 30h, at 000h, is none and would hide it.
                        *byte = *self.eeprom.get(address + place).unwrap_or(&0xF0);
                    }
                    key_of(&stored)
                } else {
                    None
                };
                self.load_key(key);
            }
            Command::LoadKey if held >= 12 => {
                let mut stored = [0; 12];
                stored.fill_with(|| self.fifo.pop().unwrap_or(0));
                self.load_key(key_of(&stored));
            }
            Command::CalcCrc if held > 0 => {
                while let Some(byte) = self.fifo.pop() {
                    self.checksum.add(byte);
                }
                self.requests |= request::TX;
            }
            _ => {}
        }
        0
    }

    /// WriteE2 at an address: latches what waits, up to the end of the block, and begins to program it.
    fn write_block(&mut self, next: u16) {
        if self.fifo.held() == 0 {
            return;
        }
        if next < 0x010 && FAULT != fault::WRITE_RUNS_ON_TO_BLOCK_0 {
            self.errors |= error::ACCESS;
            self.end();
            return;
        }
        let room = 16 - (next % 16) as u8;
        let latched = room.min(self.fifo.held());
        for byte in &mut self.latch[..usize::from(latched)] {
            *byte = self.fifo.pop().unwrap_or(0);
        }
        let next = (next + u16::from(latched)) % EEPROM_SIZE as u16;
        let left = if FAULT == fault::PROGRAMMING_ONE_CLOCK_SHORT { PROGRAMMING_CLOCKS - 1 } else { PROGRAMMING_CLOCKS };
        self.command = Command::WriteE2(Writing::Programming { next, latched, left });
    }

    /// ReadE2 with its three arguments held. Answers how many bytes were lost.
    #[inline(never)] // so that a byte written for another command does not pay for it
    fn read_block(&mut self) -> u8 {
        let from = usize::from(self.fifo.pop_address());
        let count = usize::from(self.fifo.pop().unwrap_or(0));
        let limit = if FAULT == fault::READ_E2_OF_080 { 0x081 } else { 0x080 };
        let mut lost = 0;
        if count != 0 && from + count > limit {
            self.errors |= error::ACCESS;
        } else if count != 0 {
            lost = (from..from + count).map(|address| self.offer(self.eeprom[address])).sum();
        }
        self.end();
        if FAULT == fault::LOST_BY_READ_E2_IS_NOT_ANSWERED {
            return 0;
        }
        lost
    }

    /// Registers 10h-2Fh from 32 bytes of the EEPROM, Page positions skipped.
    fn load_registers(&mut self, from: usize) {
        for (place, register) in self.registers.iter_mut().enumerate() {
            if place % 8 != 0 {
                *register = self.eeprom[from + place];
            }
        }
    }

    /// A key command ends: with a key, or with KeyErr and none.
    fn load_key(&mut self, key: Option<[u8; 6]>) {
        if key.is_none() {
            self.errors |= error::KEY;
        } else if FAULT == fault::GOOD_KEY_CLEARS_KEY_ERROR {
            self.errors &= !error::KEY;
        }
        self.key = key;
        self.end();
    }
}

/// InterruptEn or InterruptRq after a write (manual 4.2): the bits that it marks become what its bit 7 is.
#[inline]
fn marked(old: u8, byte: u8) -> u8 {
    let marks = byte & request::ALL;
    if byte & 0x80 != 0 {
        old | marks
    } else {
        old & !marks
    }
}
