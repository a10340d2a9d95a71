//! A first firmware in Rust, step by step what examples/lock.c does: start, interrupts, key, checksum, a Transceive, PowerDown, and refused calls.
use mfrc531::bits::{control, interrupt_en};
use mfrc531::{check_profile, shipped_image, Chip, Command, Edition, Refusal, Register, SHIPPED_PROFILE};

fn send_bytes(chip: &mut Chip, bytes: &[u8]) -> Result<(), Refusal> {
    for &byte in bytes {
        chip.write(Register::FifoData, byte)?;
    }
    Ok(())
}

/// One line about the chip, as a polling loop sees it.
fn show(chip: &mut Chip, step: &str) -> Result<(), Refusal> {
    let status = chip.read(Register::PrimaryStatus)?;
    let length = chip.read(Register::FifoLength)?;
    let requests = chip.read(Register::InterruptRq)?;
    let errors = chip.read(Register::ErrorFlag)?;
    println!("{step:<34} PrimaryStatus {status:02X}  FIFOLength {length:2}  InterruptRq {requests:02X}  ErrorFlag {errors:02X}");
    Ok(())
}

fn hex(bytes: &[u8]) -> String {
    bytes.iter().map(|byte| format!(" {byte:02X}")).collect()
}

/// Each nibble of a key complemented, then true, the upper one first.
fn stored(key: [u8; 6]) -> Vec<u8> {
    key.iter().flat_map(|byte| [byte >> 4, byte & 0x0F]).map(|nibble| (!nibble & 0x0F) << 4 | nibble).collect()
}

fn transceive(chip: &mut Chip) -> Result<(), Refusal> {
    chip.write(Register::InterruptRq, 0x7F)?;
    chip.write(Register::ChannelRedundancy, 0x0F)?; // odd parity, checksum added when sending and checked when receiving
    send_bytes(chip, &[0x30, 0x04])?;
    chip.write(Register::Command, Command::Transceive as u8)?;
    let mut buffer = [0; 66];
    let frame = chip.take(&mut buffer)?;
    println!("frame sent                        {}", hex(&buffer[..frame.length]));
    chip.deliver(&[0x12, 0x34, 0x26, 0xCF], &[1, 0, 0, 1], 0)?;
    show(chip, "card's answer delivered")?;
    let mut received = Vec::new();
    while chip.read(Register::FifoLength)? > 0 {
        received.push(chip.read(Register::FifoData)?);
    }
    println!("bytes received                    {}", hex(&received));
    Ok(())
}

/// The battery is spared until the next card: registers, key and FIFO stay as they are. A 0 begins the leaving, and the bit reads 1 until its end.
fn power_down(chip: &mut Chip) -> Result<(), Refusal> {
    chip.write(Register::Control, control::POWER_DOWN)?;
    chip.advance(13_560_000)?;
    show(chip, "a second in PowerDown")?;
    chip.write(Register::Control, 0)?;
    let mut clocks = 0;
    while chip.read(Register::Control)? & control::POWER_DOWN != 0 {
        chip.advance(1)?;
        clocks += 1;
    }
    println!("PowerDown left                     in {clocks} clocks");
    Ok(())
}

fn main() -> Result<(), Box<dyn std::error::Error>> {
    check_profile(Edition::Mfrc531, &SHIPPED_PROFILE)?;
    let mut chip = Chip::start(&shipped_image())?;
    chip.write(Register::Page, 0x00)?; // linear addresses
    show(&mut chip, "started from the shipped image")?;

    chip.write(Register::InterruptEn, 0x7F)?; // clear all enables
    chip.write(Register::InterruptEn, interrupt_en::SET | interrupt_en::RX | interrupt_en::TX | interrupt_en::IDLE)?;
    chip.write(Register::InterruptRq, 0x7F)?; // clear all requests
    show(&mut chip, "Rx, Tx and Idle enabled")?;

    chip.write(Register::Command, Command::LoadKey as u8)?;
    send_bytes(&mut chip, &stored([0xA0, 0xA1, 0xA2, 0xA3, 0xA4, 0xA5]))?;
    show(&mut chip, "LoadKey, twelve bytes")?;

    chip.write(Register::Command, Command::CalcCrc as u8)?;
    send_bytes(&mut chip, &[0x12, 0x34])?;
    let (low, high) = (chip.read(Register::CrcResultLsb)?, chip.read(Register::CrcResultMsb)?);
    println!("CalcCRC of 12 34                   {low:02X} {high:02X}, expected 26 CF");
    chip.write(Register::Command, Command::Idle as u8)?;

    transceive(&mut chip)?;
    power_down(&mut chip)?;

    println!("read at address 64                 {}", chip.read_at(64).unwrap_err());
    let mut memory = *chip.memory();
    memory.stage = 0x3E; // no command of the chip has this stage
    println!("write on a chip with stage 3E      {}", Chip::from_memory(memory).write(Register::FifoData, 0x55).unwrap_err());
    Ok(())
}
