//! A chip's state as it lies in memory: the library's own layout, which the compiler checks against the header's numbers.
use core::mem::{align_of, offset_of, size_of};

/// What [`ChipMemory::stage`] is: the active command's code in bits 5-0, and how far it is. Bit 6 is set where WriteE2 has its address or the
/// chip sends, bit 7 where it receives. A stage that is not listed is malformed.
#[allow(missing_docs)]
pub mod stage {
    pub const IDLE: u8 = 0x00;
    /// WriteE2 waits for its address.
    pub const WRITE_E2: u8 = 0x01;
    pub const READ_E2: u8 = 0x03;
    pub const LOAD_CONFIG: u8 = 0x07;
    pub const LOAD_KEY_E2: u8 = 0x0B;
    pub const CALC_CRC: u8 = 0x12;
    pub const LOAD_KEY: u8 = 0x19;
    /// WriteE2 waits for data.
    pub const WRITE_E2_ADDRESSED: u8 = 0x41;
    pub const TRANSMIT: u8 = 0x5A;
    pub const TRANSCEIVE_SENDING: u8 = 0x5E;
    pub const RECEIVE: u8 = 0x96;
    pub const TRANSCEIVE_RECEIVING: u8 = 0x9E;
}

/// What [`ChipMemory::stand_by`] and [`ChipMemory::power_down`] are, each beside its bit of Control. 0: the mode is off, or waits for the end of the
/// programming where the bit is 1. [`HOLD`](mode::HOLD): it has hold. With clocks to go besides: it is being left. Any other state is malformed.
/// [`PowerMode`](crate::PowerMode) has them by name.
pub mod mode {
    /// The mode has hold.
    pub const HOLD: u16 = 0x8000;
    /// A mask: clocks until the mode is left, 0 where it is not being left.
    pub const TO_GO: u16 = 0x7FFF;
}

/// A chip's whole state. Any values are a state of this type; which of them are a chip's is judged by each call.
///
/// The reserved fields are for later requests: no call looks at them, and a start leaves them 0.
#[derive(Clone, Copy, Debug, PartialEq, Eq)]
#[repr(C)]
pub struct ChipMemory {
    /// Clocks since the latest timer step; 0 while the timer stands.
    pub timer_phase: u32,
    /// Clocks until WriteE2's programming ends, not counting those in power modes. There is a programming exactly while this is above 0, and bit 6 of
    /// the stage means nothing then.
    pub programming_left: u32,
    /// The CRC register, before CRC3309 complements it.
    pub crc_register: u16,
    /// Where WriteE2's next byte goes.
    pub next_address: u16,
    /// What [`Chip::lost_sum`](crate::Chip::lost_sum) answers. No value is malformed.
    pub lost_sum: u16,
    #[allow(missing_docs)]
    pub reserved_number: u16,
    /// StandBy, as [`mode`] has it.
    pub stand_by: u16,
    /// PowerDown, as [`mode`] has it.
    pub power_down: u16,
    /// Page.
    pub page: u8,
    /// Control, of which bits 5 and 4 are kept, as they read.
    pub control: u8,
    /// 1 where the key buffer holds a key, else 0.
    pub key_loaded: u8,
    /// RxLastBits of SecondaryStatus.
    pub rx_last_bits: u8,
    /// InterruptEn.
    pub interrupt_en: u8,
    /// ChannelRedundancy as the latest CalcCRC read it.
    pub crc_mode: u8,
    /// InterruptRq.
    pub interrupt_rq: u8,
    /// ErrorFlag.
    pub error_flag: u8,
    /// TRunning, 1 or 0.
    pub timer_running: u8,
    /// TPreScaler as the timer's start read it; 0 while the timer stands.
    pub timer_prescaler: u8,
    /// While WriteE2 programs: how many bytes of the latch, which go right before `next_address`.
    pub latched: u8,
    /// The edition's number, that of an [`Edition`](crate::Edition): the one whose product type the EEPROM begins with. Only a start changes it.
    pub edition: u8,
    /// The active command and how far it is: one of [`stage`].
    pub stage: u8,
    /// The FIFO's read position: slot = position mod 64.
    pub fifo_read: u8,
    /// The FIFO's write position. Less the read position, by remainder 256, it is how many bytes are held.
    pub fifo_write: u8,
    /// TimerValue.
    pub timer_value: u8,
    /// BitFraming.
    pub bit_framing: u8,
    #[allow(missing_docs)]
    pub reserved_17: [u8; 7],
    /// Registers 10h-2Fh.
    pub registers: [u8; 32],
    /// The FIFO's slots.
    pub slots: [u8; 64],
    /// The bytes that WriteE2 programs.
    pub latch: [u8; 16],
    /// The key buffer, or zeros.
    pub key: [u8; 6],
    /// The EEPROM.
    pub eeprom: [u8; 512],
}

impl ChipMemory {
    /// All zeros. This is no chip's state, as the EEPROM begins with no edition's product type: every call but a start is refused.
    pub const fn zeroed() -> ChipMemory {
        ChipMemory {
            timer_phase: 0,
            programming_left: 0,
            crc_register: 0,
            next_address: 0,
            lost_sum: 0,
            reserved_number: 0,
            stand_by: 0,
            power_down: 0,
            page: 0,
            control: 0,
            key_loaded: 0,
            rx_last_bits: 0,
            interrupt_en: 0,
            crc_mode: 0,
            interrupt_rq: 0,
            error_flag: 0,
            timer_running: 0,
            timer_prescaler: 0,
            latched: 0,
            edition: 0,
            stage: stage::IDLE,
            fifo_read: 0,
            fifo_write: 0,
            timer_value: 0,
            bit_framing: 0,
            reserved_17: [0; 7],
            registers: [0; 32],
            slots: [0; 64],
            latch: [0; 16],
            key: [0; 6],
            eeprom: [0; 512],
        }
    }

    /// How many bytes the FIFO holds: at most 64 where this is a chip's state.
    pub const fn held(&self) -> u8 {
        self.fifo_write.wrapping_sub(self.fifo_read)
    }

    /// The bytes that the FIFO holds, the next one to be read first; none where this is no chip's state.
    pub fn held_bytes(&self) -> impl Iterator<Item = u8> + Clone + '_ {
        let held = if self.held() <= 64 { self.held() } else { 0 };
        (0..held).map(|place| self.slots[usize::from(self.fifo_read.wrapping_add(place) % 64)])
    }
}

macro_rules! at {
    ($($field:ident $offset:literal),* $(,)?) => {
        $(assert!(offset_of!(ChipMemory, $field) == $offset, stringify!($field));)*
    };
}

const _: () = {
    assert!(size_of::<ChipMemory>() == 676 && align_of::<ChipMemory>() == 4);
    at!(timer_phase 0, programming_left 4, crc_register 8, next_address 10, lost_sum 12, reserved_number 14);
    at!(stand_by 16, power_down 18);
    at!(page 20, control 21, key_loaded 22, rx_last_bits 23, interrupt_en 24, crc_mode 25, interrupt_rq 26, error_flag 27);
    at!(timer_running 28, timer_prescaler 29, latched 30, edition 31, stage 32, fifo_read 33, fifo_write 34, timer_value 35);
    at!(bit_framing 36, reserved_17 37, registers 44, slots 76, latch 140, key 156, eeprom 162);
};
