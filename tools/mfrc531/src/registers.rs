//! Registers, commands and editions by name, and registers' bytes in words.
use mfrc531::bits::{
    bit_framing, channel_redundancy, control, error_flag, fifo_level, interrupt_rq, page, primary_status, secondary_status, timer_clock,
    timer_control,
};
use mfrc531::{Chip, Command, Edition, ModemState, Register};

/// The parts of a register's byte: a mask and its name. One bit is a flag, several are a number.
fn parts(register: Register) -> &'static [(u8, &'static str)] {
    match register {
        Register::Page => &[(page::USE_PAGE_SELECT, "UsePageSelect"), (page::PAGE_SELECT, "PageSelect")],
        Register::PrimaryStatus => &[
            (primary_status::IRQ, "IRq"),
            (primary_status::ERR, "Err"),
            (primary_status::HI_ALERT, "HiAlert"),
            (primary_status::LO_ALERT, "LoAlert"),
        ],
        Register::SecondaryStatus => &[
            (secondary_status::T_RUNNING, "TRunning"),
            (secondary_status::E2_READY, "E2Ready"),
            (secondary_status::CRC_READY, "CRCReady"),
            (secondary_status::RX_LAST_BITS, "RxLastBits"),
        ],
        Register::InterruptEn => &[
            (interrupt_rq::TIMER, "TimerIEn"),
            (interrupt_rq::TX, "TxIEn"),
            (interrupt_rq::RX, "RxIEn"),
            (interrupt_rq::IDLE, "IdleIEn"),
            (interrupt_rq::HI_ALERT, "HiAlertIEn"),
            (interrupt_rq::LO_ALERT, "LoAlertIEn"),
        ],
        Register::InterruptRq => &[
            (interrupt_rq::TIMER, "TimerIRq"),
            (interrupt_rq::TX, "TxIRq"),
            (interrupt_rq::RX, "RxIRq"),
            (interrupt_rq::IDLE, "IdleIRq"),
            (interrupt_rq::HI_ALERT, "HiAlertIRq"),
            (interrupt_rq::LO_ALERT, "LoAlertIRq"),
        ],
        Register::Control => &[
            (control::STAND_BY, "StandBy"),
            (control::POWER_DOWN, "PowerDown"),
            (control::T_STOP_NOW, "TStopNow"),
            (control::T_START_NOW, "TStartNow"),
            (control::FLUSH_FIFO, "FlushFIFO"),
        ],
        Register::ErrorFlag => &[
            (error_flag::KEY_ERR, "KeyErr"),
            (error_flag::ACCESS_ERR, "AccessErr"),
            (error_flag::FIFO_OVFL, "FIFOOvfl"),
            (error_flag::CRC_ERR, "CRCErr"),
            (error_flag::PARITY_ERR, "ParityErr"),
        ],
        Register::BitFraming => &[(bit_framing::TX_LAST_BITS, "TxLastBits")],
        Register::ChannelRedundancy => &[
            (channel_redundancy::CRC_3309, "CRC3309"),
            (channel_redundancy::CRC_8, "CRC8"),
            (channel_redundancy::RX_CRC_EN, "RxCRCEn"),
            (channel_redundancy::TX_CRC_EN, "TxCRCEn"),
            (channel_redundancy::PARITY_ODD, "ParityOdd"),
            (channel_redundancy::PARITY_EN, "ParityEn"),
        ],
        Register::FifoLevel => &[(fifo_level::WATER_LEVEL, "WaterLevel")],
        Register::TimerClock => &[(timer_clock::T_AUTO_RESTART, "TAutoRestart"), (timer_clock::T_PRE_SCALER, "TPreScaler")],
        Register::TimerControl => &[
            (timer_control::T_STOP_RX_END, "TStopRxEnd"),
            (timer_control::T_STOP_RX_BEGIN, "TStopRxBegin"),
            (timer_control::T_START_TX_END, "TStartTxEnd"),
            (timer_control::T_START_TX_BEGIN, "TStartTxBegin"),
        ],
        _ => &[],
    }
}

/// What a register's byte says, as it is read.
pub fn in_words(register: Register, byte: u8) -> String {
    match register {
        Register::Command => Command::try_from(byte & 0x3F).map_or("no command".to_string(), |command| command.to_string()),
        Register::FifoLength if byte == 1 => "1 byte held".to_string(),
        Register::FifoLength => format!("{byte} bytes held"),
        Register::TimerValue | Register::TimerReload => byte.to_string(),
        _ => flags(register, byte, "none"),
    }
}

/// What a write of a byte to a register asks. InterruptEn and InterruptRq set or clear the bits that are marked.
pub fn asked_in_words(register: Register, byte: u8) -> String {
    match register {
        Register::InterruptEn | Register::InterruptRq => {
            format!("{} {}", if byte & interrupt_rq::SET != 0 { "sets" } else { "clears" }, flags(register, byte, "nothing"))
        }
        _ => in_words(register, byte),
    }
}

/// The parts of a byte in words. PrimaryStatus begins with ModemState, by its name, where that is not Idle.
fn flags(register: Register, byte: u8, none: &str) -> String {
    let parts = parts(register);
    let mut words = Vec::new();
    if register == Register::PrimaryStatus {
        words.extend(ModemState::of(byte).ok().filter(|&state| state != ModemState::Idle).map(|state| state.to_string()));
    }
    for &(mask, name) in parts {
        if mask.is_power_of_two() {
            words.extend((byte & mask != 0).then(|| name.to_string()));
        } else {
            words.push(format!("{name} {}", (byte & mask) >> mask.trailing_zeros()));
        }
    }
    match parts {
        [] => String::new(),
        _ if words.is_empty() => none.to_string(),
        _ => words.join(" "),
    }
}

/// A copy of a chip whose Page is set to linear addresses, so that reads leave the chip itself as it is.
pub fn linear_copy(chip: &Chip) -> Chip {
    let mut copy = chip.clone();
    let _ = copy.write_at(0x00, 0x00);
    copy
}

/// The register that a host address reaches under a value of Page; none where nothing is.
pub fn reached(page: u8, address: u8) -> Option<Register> {
    let register = if page & page::USE_PAGE_SELECT != 0 { 8 * (page & page::PAGE_SELECT) + address % 8 } else { address };
    if register < 0x40 && register % 8 == 0 {
        return Some(Register::Page);
    }
    Register::try_from(register).ok()
}

/// A register by the data sheet's name, or by the Rust crate's; capitals do not matter.
pub fn named(name: &str) -> Option<Register> {
    let same = |register: &&Register| register.name().eq_ignore_ascii_case(name) || format!("{register:?}").eq_ignore_ascii_case(name);
    Register::ALL.iter().find(same).copied()
}

/// A command by its name; capitals do not matter.
pub fn command_named(name: &str) -> Option<Command> {
    Command::ALL.iter().find(|command| command.name().eq_ignore_ascii_case(name)).copied()
}

/// An edition by the word that is typed for it; capitals do not matter.
pub fn edition_named(word: &str) -> Option<Edition> {
    let same = |edition: &&Edition| format!("{edition:?}").eq_ignore_ascii_case(word);
    Edition::ALL.iter().find(same).copied()
}

/// The register at an address of 10h-2Fh as the profile check names it: `2Ah TimerClock`.
pub fn titled(address: u8) -> String {
    reached(0, address).map_or(format!("{address:02X}h"), |register| format!("{address:02X}h {register}"))
}

pub fn digits(bytes: &[u8]) -> String {
    bytes.iter().map(|byte| format!("{byte:02X}")).collect::<Vec<_>>().join(" ")
}
