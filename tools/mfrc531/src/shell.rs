//! A chip driven by lines: from a terminal, a pipe or a file.
use crate::output::{complain, Output};
use crate::posted::{bytes_of_file, plain, quoted, same_file, Fault, Form};
use crate::registers::{asked_in_words, command_named, digits, edition_named, in_words, linear_copy, named, reached};
use crate::waveform::{clocks_to_change, timer_steps, Waveform};
use crate::Ended;
use mfrc531::bits::{channel_redundancy, page};
use mfrc531::{shipped_image, shipped_image_of, Chip, Edition, PowerMode, Refusal, Register};
use std::collections::VecDeque;
use std::ffi::OsString;
use std::fs::File;
use std::io::{self, BufRead, BufReader, IsTerminal, Read};
use std::path::Path;

/// The longest line that is read; a delivery of 64 bytes with a parity value for each needs a tenth of it.
const MOST_IN_LINE: u64 = 4096;
/// How many calls the history keeps.
const MOST_IN_HISTORY: usize = 10_000;
/// Timer steps that a waveform takes of one advance: 24 megabytes of it.
const MOST_STEPS: u64 = 1_000_000;

pub const HELP: &str = "\
start [EDITION] [FILE]      a start, from the shipped image or from a file: an image of 512 bytes, which says its edition by its first
                            four bytes, or a profile of 32, which is put at 10h-2Fh of an image with those four bytes and zeros;
                            EDITION is mfrc531, as it is without the word, or rc530
read REGISTER               a host read; a read of FIFOData removes the byte
write REGISTER BYTE         a host write; for Command the byte may be a command's name
advance CLOCKS              so many clocks pass, 0 to 4294967295
take [LENGTH [FILL]]        takes the frame that the chip sends, into a buffer of LENGTH bytes (66), filled with FILL (00)
deliver BYTES.. [parity VALUES..] [bits N]
                            a frame that the chip receives; parity: 0 or 1 for each byte, without it those that ChannelRedundancy asks;
                            bits: how many of the last byte count, 0 for all. The lists' form, BYTES PARITIES N, is taken too
lost                        how many bytes were lost since the latest flush or start; changes nothing
status                      the registers of pages 0 and 1, in words, the FIFO, the bytes lost, how far StandBy and PowerDown are, and a
                            programming, if there is one; changes nothing
history                     the calls so far, with their answers
help, quit

Addresses and bytes are in hexadecimal digits, all other numbers are decimal; '#' begins a comment.
REGISTER is a host address, taken as it is (Page decides what it reaches), or a name. A name always reaches its register: while
UsePageSelect is set and PageSelect selects another page, the shell first writes Page, and shows that write as a call of its own.
A write or a delivery says how many bytes were lost in it, if any: those offered to the FIFO while it held 64.
A refused call changes nothing and is no error of the input.";

struct Bench<'a> {
    chip: Chip,
    /// Clocks since the shell began.
    clock: u64,
    history: VecDeque<String>,
    calls: usize,
    waveform: Option<(Waveform, &'a Path)>,
    output: &'a mut Output,
}

/// Why the shell ends before the input does.
enum Stop {
    Quit,
    /// The line cannot be done.
    Line(String),
    /// The waveform cannot be written.
    Waveform(io::Error),
}

impl From<String> for Stop {
    fn from(what: String) -> Stop {
        Stop::Line(what)
    }
}

pub fn run(script: Option<&OsString>, waveform: Option<&OsString>, output: &mut Output) -> Ended {
    let name = script.map_or(Path::new("-"), Path::new);
    let mut terminal = false;
    let mut input: Box<dyn BufRead> = if name == Path::new("-") {
        terminal = io::stdin().is_terminal();
        Box::new(BufReader::new(io::stdin()))
    } else {
        match File::open(name) {
            Ok(file) => Box::new(BufReader::new(file)),
            Err(error) => {
                complain(name, None, &plain(&error));
                return Ended::Unreadable;
            }
        }
    };
    let waveform = waveform.map(Path::new);
    if waveform.is_some_and(|file| name != Path::new("-") && same_file(file, name)) {
        complain(name, None, "the waveform would be written over the lines that are read");
        return Ended::Unreadable;
    }
    let opened = waveform.map(|file| Waveform::create(file).map(|opened| (opened, file))).transpose();
    let opened = match opened {
        Ok(opened) => opened,
        Err(error) => {
            complain(waveform.unwrap_or(name), None, &plain(&error));
            return Ended::Unreadable;
        }
    };
    let Ok(chip) = Chip::start(&shipped_image()) else {
        complain(name, None, "the library refuses the shipped image");
        return Ended::Unreadable;
    };
    let mut bench = Bench { chip, clock: 0, history: VecDeque::new(), calls: 0, waveform: opened, output };
    if terminal {
        bench.output.line("An MFRC531, started from the shipped image. 'help' says what can be typed, 'quit' ends.");
    }
    let mut ended = bench.lines(&mut *input, name, terminal);
    let clock = bench.clock;
    if let Some((opened, file)) = &mut bench.waveform {
        if let Err(error) = opened.finish(clock) {
            complain(file, None, &plain(&error));
            ended = Ended::Unreadable;
        }
    }
    bench.output.flush();
    ended
}

/// The next line without its end, none at the input's end. An error is of the line alone, or of the input.
fn next_line(input: &mut dyn BufRead) -> io::Result<Option<Result<String, String>>> {
    let mut line = Vec::new();
    input.take(MOST_IN_LINE + 1).read_until(b'\n', &mut line)?;
    if line.is_empty() {
        return Ok(None);
    }
    if line.len() as u64 > MOST_IN_LINE {
        return Ok(Some(Err("the line is longer than 4,096 bytes".to_string())));
    }
    Ok(Some(String::from_utf8(line).map_err(|_| "the line is not text".to_string())))
}

impl Bench<'_> {
    /// Every line of the input. A line that cannot be done ends it, but not at a terminal.
    fn lines(&mut self, input: &mut dyn BufRead, name: &Path, terminal: bool) -> Ended {
        let mut number = 0;
        if let Err(Stop::Waveform(error)) = self.sample() {
            return self.waveform_fails(&error);
        }
        loop {
            if terminal {
                self.output.part("mfrc531> ");
            }
            number += 1;
            let line = match next_line(input) {
                Ok(Some(line)) => line,
                Ok(None) => {
                    if terminal {
                        self.output.line("");
                    }
                    return Ended::Well;
                }
                Err(error) => {
                    self.output.flush();
                    complain(name, None, &plain(&error));
                    return Ended::Unreadable;
                }
            };
            let line = line.map(|line| if number == 1 { line.trim_start_matches('\u{FEFF}').to_string() } else { line });
            match line.map_err(Stop::Line).and_then(|line| self.line(&line)) {
                // Another program may wait for the answer at the end of a pipe.
                Ok(()) => self.output.flush(),
                Err(Stop::Quit) => return Ended::Well,
                Err(Stop::Waveform(error)) => return self.waveform_fails(&error),
                Err(Stop::Line(what)) => {
                    self.output.flush();
                    complain(name, Some(number), &what);
                    if !terminal {
                        return Ended::Unreadable;
                    }
                }
            }
        }
    }

    fn waveform_fails(&mut self, error: &io::Error) -> Ended {
        self.output.flush();
        if let Some((_, file)) = self.waveform.take() {
            complain(file, None, &plain(error));
        }
        Ended::Unreadable
    }

    fn line(&mut self, line: &str) -> Result<(), Stop> {
        let line = line.split('#').next().unwrap_or("").trim();
        let mut words = line.split_whitespace();
        let Some(verb) = words.next() else {
            return Ok(());
        };
        let words: Vec<&str> = words.collect();
        match (verb.to_ascii_lowercase().as_str(), &words[..]) {
            ("start", [] | ["shipped"]) => self.start(None, None),
            ("start", ["shipped" | "noise" | "keys", _, _, ..]) | ("memory" | "corrupt" | "mend" | "repeat" | "end", _) => {
                Err(format!("{} is for the lists of the differential test alone", quoted(line)).into())
            }
            ("start", [first, rest @ ..]) => {
                let file = line[verb.len()..].trim();
                match edition_named(first) {
                    Some(edition) if rest.is_empty() => self.start(Some(edition), None),
                    Some(edition) => self.start(Some(edition), Some(file[first.len()..].trim())),
                    None => self.start(None, Some(file)),
                }
            }
            ("read", [register]) => self.read(register),
            ("write", [register, byte]) => self.write(register, byte),
            ("advance", [clocks]) => self.advance(clocks),
            ("take", []) => self.take("66", "00"),
            ("take", [length]) => self.take(length, "00"),
            ("take", [length, fill]) => self.take(length, fill),
            ("deliver", [_, ..]) => self.deliver(&words),
            ("lost", []) => {
                self.output.line(&format!("lost: {} since the latest flush or start", lost_in_words(&self.chip)));
                Ok(())
            }
            ("status", []) => self.status(),
            ("history", []) => self.show_history(),
            ("help", []) => {
                self.output.line(HELP);
                Ok(())
            }
            ("quit" | "exit", []) => Err(Stop::Quit),
            ("read", _) => Err("read takes one word: read REGISTER".to_string().into()),
            ("write", _) => Err("write takes two words: write REGISTER BYTE".to_string().into()),
            ("advance", _) => Err("advance takes one word: advance CLOCKS".to_string().into()),
            ("take", _) => Err("take takes at most two words: take [LENGTH [FILL]]".to_string().into()),
            ("deliver", _) => Err("deliver takes bytes: deliver BYTES.. [parity VALUES..] [bits N]".to_string().into()),
            ("lost" | "status" | "history" | "help" | "quit" | "exit", _) => Err(format!("{verb} takes no words").into()),
            _ => Err(format!("{} is no verb; help lists them", quoted(verb)).into()),
        }
    }

    /// A call: prints it with its answer and what has changed in the registers of pages 0 and 1 and in the power modes, and keeps it in the history.
    fn call(&mut self, call: &str, event: impl FnOnce(&mut Bench<'_>) -> Result<Result<String, Refusal>, Stop>) -> Result<(), Stop> {
        let (before, modes_before) = (registers_seen(&self.chip), modes_seen(&self.chip));
        let answer = event(self)?.unwrap_or_else(|refusal| refusal.to_string());
        let after = registers_seen(&self.chip);
        self.sample()?;
        let text = format!("{call}: {answer}");
        self.output.line(&text);
        for ((register, old), (_, new)) in before.iter().zip(&after).filter(|(before, after)| before != after) {
            self.output.line(&format!("    {register} {old:02X}h -> {new:02X}h{}", behind_comma(&in_words(*register, *new))));
        }
        for ((name, old), (_, new)) in modes_before.iter().zip(modes_seen(&self.chip)).filter(|((_, old), (_, new))| old != new) {
            self.output.line(&format!("    {name} {} -> {}", mode_in_words(*old), mode_in_words(new)));
        }
        self.calls += 1;
        if self.history.len() == MOST_IN_HISTORY {
            self.history.pop_front();
        }
        self.history.push_back(format!("{:>5}  clock {:>8}  {text}", self.calls, self.clock));
        Ok(())
    }

    fn sample(&mut self) -> Result<(), Stop> {
        match &mut self.waveform {
            Some((waveform, _)) => waveform.sample(self.clock, &self.chip).and_then(|()| waveform.flush()).map_err(Stop::Waveform),
            None => Ok(()),
        }
    }

    fn start(&mut self, edition: Option<Edition>, file: Option<&str>) -> Result<(), Stop> {
        let (image, from) = match file {
            None => (shipped_image_of(edition.unwrap_or(Edition::Mfrc531)).to_vec(), "from the shipped image".to_string()),
            Some(file) => {
                let bytes = bytes_of_file(Path::new(file), Form::Told).map_err(|Fault { line, what }| {
                    let place = line.map_or(String::new(), |line| format!("{line}:"));
                    Stop::Line(format!("{file}:{place} {what}"))
                })?;
                match bytes.len() {
                    32 => {
                        let mut image = shipped_image_of(edition.unwrap_or(Edition::Mfrc531)).to_vec();
                        image[0x10..0x30].copy_from_slice(&bytes);
                        (image, "from a profile of 32 bytes".to_string())
                    }
                    512 if edition.is_some() => return Err("an image says its edition itself: start FILE".to_string().into()),
                    length => (bytes, format!("from {length} bytes")),
                }
            }
        };
        let words = [edition.map(|edition| format!(" {edition:?}").to_lowercase()), file.map(|file| format!(" {file}"))];
        let call = format!("start{}", words.into_iter().flatten().collect::<String>());
        self.call(&call, |bench| {
            let started = bench.chip.restart(&image);
            let edition = bench.chip.edition().map_or("no edition", Edition::name);
            Ok(started.map(|()| format!("{from}, an {edition}")))
        })
    }

    /// The host address for a word: an address as it is, or the one that reaches a register by its name, for which Page may have to be written.
    fn address(&mut self, word: &str) -> Result<u8, Stop> {
        if let Some(address) = byte_of(word) {
            return Ok(address);
        }
        let register = named(word).ok_or_else(|| format!("{} is neither an address in hexadecimal digits nor a register", quoted(word)))?;
        let (present, address) = (self.chip.memory().page, u8::from(register));
        if present & page::USE_PAGE_SELECT == 0 || register == Register::Page {
            return Ok(address);
        }
        if present & page::PAGE_SELECT != address / 8 {
            let selected = page::USE_PAGE_SELECT | (address / 8);
            self.host_write(0x00, selected, &format!(", to reach {register}"))?;
        }
        Ok(address % 8)
    }

    fn read(&mut self, word: &str) -> Result<(), Stop> {
        let address = self.address(word)?;
        let register = reached(self.chip.memory().page, address);
        self.call(&format!("read {address:02X}"), |bench| {
            Ok(bench.chip.read_at(address).map(|byte| match register {
                Some(register) => format!("{register} is {byte:02X}h{}", behind_comma(&in_words(register, byte))),
                None => format!("no register is there, {byte:02X}h"),
            }))
        })
    }

    fn write(&mut self, word: &str, value: &str) -> Result<(), Stop> {
        // The value is read first: a line that cannot be done shall not have written Page.
        let byte = byte_of(value).or_else(|| command_named(value).map(u8::from));
        let byte = byte.ok_or_else(|| format!("{} is neither a byte in hexadecimal digits nor a command", quoted(value)))?;
        let register = byte_of(word).map_or_else(|| named(word), |address| reached(self.chip.memory().page, address));
        if byte_of(value).is_none() && register.is_some_and(|register| register != Register::Command) {
            return Err(format!("{} is a command, for the register Command", quoted(value)).into());
        }
        let address = self.address(word)?;
        self.host_write(address, byte, "")
    }

    fn host_write(&mut self, address: u8, byte: u8, remark: &str) -> Result<(), Stop> {
        let register = reached(self.chip.memory().page, address);
        let asked = match register {
            Some(register) => format!("{register} gets {byte:02X}h{}{remark}", behind_comma(&asked_in_words(register, byte))),
            None => "no register is there".to_string(),
        };
        self.call(&format!("write {address:02X} {byte:02X}"), |bench| {
            Ok(bench.chip.write_at(address, byte).map(|lost| asked + &lost_behind_comma(lost)))
        })
    }

    fn advance(&mut self, word: &str) -> Result<(), Stop> {
        let clocks: u32 = number_of(word)?;
        let steps = timer_steps(&self.chip, clocks);
        if self.waveform.is_some() && steps > MOST_STEPS {
            return Err(format!("advance {clocks} makes {steps} timer steps, and a waveform takes {MOST_STEPS} of one advance").into());
        }
        self.call(&format!("advance {clocks}"), |bench| {
            let mut rest = clocks;
            // Clocks in parts are the same clocks; the waveform has to see each change.
            while let Some((waveform, _)) = &mut bench.waveform {
                let part = clocks_to_change(&bench.chip).min(rest);
                if part == rest {
                    break;
                }
                if let Err(refusal) = bench.chip.advance(part) {
                    return Ok(Err(refusal));
                }
                rest -= part;
                bench.clock += u64::from(part);
                waveform.sample(bench.clock, &bench.chip).map_err(Stop::Waveform)?;
            }
            if let Err(refusal) = bench.chip.advance(rest) {
                return Ok(Err(refusal));
            }
            bench.clock += u64::from(rest);
            Ok(Ok(moment(bench.clock)))
        })
    }

    fn take(&mut self, length: &str, fill: &str) -> Result<(), Stop> {
        let length: u16 = number_of(length)?;
        let fill = byte_of(fill).ok_or_else(|| format!("{} is no byte in hexadecimal digits", quoted(fill)))?;
        let mut buffer = vec![fill; usize::from(length)];
        let call = if length == 66 { "take".to_string() } else { format!("take {length}") };
        self.call(&call, |bench| {
            Ok(bench.chip.take(&mut buffer).map(|frame| {
                let last = match frame.last_bits {
                    0 => String::new(),
                    bits => format!(", {bits} bits of the last"),
                };
                format!("{}{last}: {}", counted(frame.length), digits(&buffer[..frame.length]))
            }))
        })
    }

    fn deliver(&mut self, words: &[&str]) -> Result<(), Stop> {
        let frame = frame_of(words)?;
        let (parities, told) = match frame.parities {
            Some(parities) => (parities, ""),
            None => {
                let odd = self.chip.memory().registers[0x22 - 0x10] & channel_redundancy::PARITY_ODD != 0;
                let parity = |byte: &u8| ((byte.count_ones() + u32::from(odd)) % 2) as u8;
                (frame.bytes.iter().map(parity).collect(), if odd { ", parity made odd" } else { ", parity made even" })
            }
        };
        let bits = match frame.last_bits {
            0 => String::new(),
            bits => format!(" bits {bits}"),
        };
        let shown: String = parities.iter().map(|parity| format!(" {parity}")).collect();
        let bytes = if frame.bytes.is_empty() { "-".to_string() } else { digits(&frame.bytes) };
        let call = format!("deliver {bytes} parity{shown}{bits}");
        self.call(&call, |bench| {
            let delivered = bench.chip.deliver(&frame.bytes, &parities, frame.last_bits);
            Ok(delivered.map(|lost| format!("{} delivered{told}{}", counted(frame.bytes.len()), lost_behind_comma(lost))))
        })
    }

    fn status(&mut self) -> Result<(), Stop> {
        let memory = *self.chip.memory();
        self.output.line(&moment(self.clock));
        for (register, byte) in registers_seen(&self.chip) {
            let words = in_words(register, byte);
            self.output.line(format!("{register:<16} {:02X}h  {byte:02X}h  {words}", register as u8).trim_end());
        }
        let held: Vec<u8> = memory.held_bytes().collect();
        self.output.line(format!("{:<16} {}", "FIFO", if held.is_empty() { "empty".to_string() } else { digits(&held) }).trim_end());
        self.output.line(&format!("{:<16} {}", "lost", lost_in_words(&self.chip)));
        let modes = modes_seen(&self.chip);
        for (name, mode) in modes {
            self.output.line(&format!("{name:<16} {}", mode_in_words(mode)));
        }
        if memory.programming_left > 0 {
            let still = modes.iter().any(|(_, mode)| matches!(mode, Some(PowerMode::Hold | PowerMode::Leaving(_))));
            let told = if still { ", stands still" } else { "" };
            self.output.line(&format!("{:<16} {} clocks more{told}", "programming", memory.programming_left));
        }
        Ok(())
    }

    fn show_history(&mut self) -> Result<(), Stop> {
        if self.calls > self.history.len() {
            self.output.line(&format!("the latest {} of {} calls:", self.history.len(), self.calls));
        }
        for entry in &self.history {
            self.output.line(entry);
        }
        if self.history.is_empty() {
            self.output.line("no calls yet");
        }
        Ok(())
    }
}

/// The registers of pages 0 and 1 as reads would find them, but FIFOData, which a read changes.
fn registers_seen(chip: &Chip) -> Vec<(Register, u8)> {
    let mut copy = linear_copy(chip);
    let page = chip.memory().page;
    let shown = Register::ALL.iter().filter(|&&register| (register as u8) < 0x10 && register != Register::FifoData);
    shown.map(|&register| (register, if register == Register::Page { page } else { copy.read(register).unwrap_or(0) })).collect()
}

/// The power modes.
fn modes_seen(chip: &Chip) -> [(&'static str, Option<PowerMode>); 2] {
    [("StandBy", chip.stand_by_mode()), ("PowerDown", chip.power_down_mode())]
}

fn mode_in_words(mode: Option<PowerMode>) -> String {
    mode.map_or("malformed".to_string(), |mode| mode.to_string())
}

/// Words behind a comma, if there are any.
fn behind_comma(words: &str) -> String {
    if words.is_empty() {
        String::new()
    } else {
        format!(", {words}")
    }
}

/// How many bytes a call has lost, behind a comma, if there are any.
fn lost_behind_comma(lost: u8) -> String {
    match lost {
        0 => String::new(),
        lost => format!(", lost {lost}"),
    }
}

/// The sum of lost bytes, which goes no higher than 65,535.
fn lost_in_words(chip: &Chip) -> String {
    match chip.lost_sum() {
        Ok(u16::MAX) => format!("{} or more", u16::MAX),
        Ok(sum) => sum.to_string(),
        Err(refusal) => refusal.to_string(),
    }
}

fn counted(bytes: usize) -> String {
    format!("{bytes} byte{}", if bytes == 1 { "" } else { "s" })
}

/// A clock's number, and its time at 13.56 MHz.
fn moment(clock: u64) -> String {
    format!("clock {clock}, {:.3} us", clock as f64 / 13.56)
}

/// A byte in hexadecimal digits: `F`, `0F`, `0x0F` or `0Fh`.
fn byte_of(word: &str) -> Option<u8> {
    let digits = word.strip_prefix("0x").or_else(|| word.strip_prefix("0X")).or_else(|| word.strip_suffix(['h', 'H'])).unwrap_or(word);
    let formed = matches!(digits.len(), 1 | 2) && digits.bytes().all(|byte| byte.is_ascii_hexdigit());
    formed.then(|| u8::from_str_radix(digits, 16).ok()).flatten()
}

fn number_of<N: std::str::FromStr>(word: &str) -> Result<N, String> {
    let formed = !word.is_empty() && word.bytes().all(|byte| byte.is_ascii_digit());
    formed.then(|| word.parse().ok()).flatten().ok_or_else(|| format!("{} is no decimal number, or too great", quoted(word)))
}

struct Frame {
    bytes: Vec<u8>,
    parities: Option<Vec<u8>>,
    last_bits: u8,
}

/// The words of a delivery: `12 34 26CF parity 1 0 0 1 bits 7`, or as the differential test's lists have it, `123426CF 01000001 0`, with `-` for no bytes.
fn frame_of(words: &[&str]) -> Result<Frame, String> {
    if let [bytes, parities, last_bits] = words {
        if last_bits.len() == 1 && last_bits.bytes().all(|byte| byte.is_ascii_digit()) && !matches!(*parities, "parity" | "bits") {
            return Ok(Frame { bytes: run_of(bytes)?, parities: Some(run_of(parities)?), last_bits: number_of(last_bits)? });
        }
    }
    let mut frame = Frame { bytes: Vec::new(), parities: None, last_bits: 0 };
    let mut words = words.iter().peekable();
    while let Some(&word) = words.next_if(|word| !matches!(**word, "parity" | "bits")) {
        frame.bytes.extend(run_of(word)?);
    }
    while let Some(&word) = words.next() {
        if word == "parity" && frame.parities.is_none() {
            let mut parities = Vec::new();
            while let Some(&values) = words.next_if(|word| !matches!(**word, "parity" | "bits")) {
                let formed = values.bytes().all(|value| value.is_ascii_digit());
                let digits = formed.then(|| values.bytes().map(|value| value - b'0'));
                parities.extend(digits.ok_or_else(|| format!("{} is no parity value, 0 or 1", quoted(values)))?);
            }
            frame.parities = Some(parities);
        } else if word == "bits" {
            let count = words.next().ok_or_else(|| "bits takes a number".to_string())?;
            frame.last_bits = number_of(count)?;
        } else {
            return Err(format!("{} is not understood here", quoted(word)));
        }
    }
    Ok(frame)
}

/// Bytes in hexadecimal digits, two for each, with nothing between them; `-` for none.
fn run_of(word: &str) -> Result<Vec<u8>, String> {
    if word == "-" {
        return Ok(Vec::new());
    }
    if word.len() == 4 && (word.starts_with("0x") || word.starts_with("0X")) {
        return run_of(&word[2..]);
    }
    if !word.is_ascii() || word.len() % 2 == 1 {
        return Err(format!("{} is no bytes in hexadecimal digits, two for each", quoted(word)));
    }
    let byte = |pair: &[u8]| std::str::from_utf8(pair).ok().and_then(byte_of);
    word.as_bytes()
        .chunks(2)
        .map(byte)
        .collect::<Option<Vec<u8>>>()
        .ok_or_else(|| format!("{} is no bytes in hexadecimal digits, two for each", quoted(word)))
}
