//! Host addresses of registers, by the data sheet's names, for the tests and the race.

pub const COMMAND: u8 = 0x01;
pub const FIFO_DATA: u8 = 0x02;
pub const PRIMARY_STATUS: u8 = 0x03;
pub const FIFO_LENGTH: u8 = 0x04;
pub const SECONDARY_STATUS: u8 = 0x05;
pub const INTERRUPT_RQ: u8 = 0x07;
pub const CONTROL: u8 = 0x09;
#[cfg(test)]
pub const ERROR_FLAG: u8 = 0x0A;
#[cfg(test)]
pub const TIMER_VALUE: u8 = 0x0C;
pub const CHANNEL_REDUNDANCY: u8 = 0x22;
