//! The check of profiles as people post them.
use crate::output::{complain, Output};
use crate::posted::{bytes_of_file, Fault, Form};
use crate::registers::{digits, titled};
use crate::Ended;
use mfrc531::bits::{fifo_level, timer_clock, timer_control};
use mfrc531::{check_profile, Edition, ProfileRefusal};
use std::ffi::OsString;
use std::path::Path;

const IMAGE: usize = 512;

pub struct Options {
    pub form: Form,
    /// Whose profiles they are. Not given, they are the MFRC531's, and that of an image is its own edition's.
    pub edition: Option<Edition>,
    /// The files are images: their profiles are judged, bytes 10h-2Fh.
    pub images: bool,
    pub files: Vec<OsString>,
}

pub fn run(options: &Options, output: &mut Output) -> Ended {
    let mut ended = Ended::Well;
    for file in &options.files {
        let name = Path::new(file);
        let judged = match bytes_of_file(name, options.form).and_then(|bytes| profile_of(bytes, options)) {
            Ok((profile, edition)) => {
                let title = if options.files.len() > 1 { format!("{}: ", name.display()) } else { String::new() };
                judge(&profile, edition, &title, output)
            }
            Err(fault) => {
                output.flush();
                complain(name, fault.line, &fault.what);
                Ended::Unreadable
            }
        };
        ended = ended.max(judged);
    }
    ended
}

/// What is judged of a file's bytes: all of them, or the profile of an image; and whose it is, where that is known.
fn profile_of(bytes: Vec<u8>, options: &Options) -> Result<(Vec<u8>, Option<Edition>), Fault> {
    if !options.images {
        return Ok((bytes, options.edition));
    }
    if bytes.len() != IMAGE {
        return Err(Fault::whole(format!("{}, an image has 512", counted(bytes.len()))));
    }
    let edition = options.edition.or(Edition::of(&bytes));
    let edition = edition.ok_or_else(|| Fault::whole(format!("{}; --edition says whose profile it is", of_no_edition(&bytes))))?;
    Ok((bytes[0x10..0x30].to_vec(), Some(edition)))
}

fn of_no_edition(image: &[u8]) -> String {
    format!("the image's first four bytes, {}, are no edition's", digits(&image[..4]))
}

/// Prints a profile's line behind a title, and what it means below.
pub fn judge(profile: &[u8], edition: Option<Edition>, title: &str, output: &mut Output) -> Ended {
    let verdict = check_profile(edition.unwrap_or(Edition::Mfrc531), profile);
    output.line(&format!("{title}{}", line(verdict)));
    for sentence in meaning(profile, edition, verdict) {
        output.line(&format!("  {sentence}"));
    }
    if verdict.is_ok() {
        Ended::Well
    } else {
        Ended::Refused
    }
}

/// The line of the program profile_check, which it prints for the MFRC531.
fn line(verdict: Result<(), ProfileRefusal>) -> String {
    verdict.map_or_else(|refusal| refusal.to_string(), |()| "pass".to_string())
}

fn counted(bytes: usize) -> String {
    if bytes == 1 {
        "1 byte found".to_string()
    } else {
        format!("{bytes} bytes found")
    }
}

/// What is said of a profile that is not 32 bytes.
pub fn not_32_bytes(bytes: usize) -> String {
    format!("{}, 32 needed", counted(bytes))
}

/// The register and the data sheet as the edition has them.
fn fixed_in(edition: Option<Edition>, register: u8) -> (String, &'static str) {
    match (edition, register) {
        (Some(Edition::Rc530), 0x13 | 0x17) => (format!("{register:02X}h PreSet{register:02X}"), "the MF RC530's data sheet"),
        (Some(Edition::Rc530), _) => (titled(register), "the MF RC530's data sheet"),
        _ => (titled(register), "the data sheet"),
    }
}

fn meaning(profile: &[u8], edition: Option<Edition>, verdict: Result<(), ProfileRefusal>) -> Vec<String> {
    let byte = |register: u8| usize::from(register).checked_sub(0x10).and_then(|place| profile.get(place)).copied().unwrap_or(0);
    let sentence = match verdict {
        Ok(()) => "the profile can be loaded".to_string(),
        Err(ProfileRefusal::Not32Bytes) => {
            let mut sentences = vec![not_32_bytes(profile.len())];
            if profile.len() == IMAGE {
                sentences.push("this is an image of 512 bytes; its profile is bytes 10h-2Fh".to_string());
                sentences.push(match edition.or(Edition::of(profile)) {
                    Some(edition) => {
                        let inner = line(check_profile(edition, &profile[0x10..0x30]));
                        format!("that profile by itself, as the {edition}'s: {inner} (mfrc531 profile --image says more)")
                    }
                    None => format!("{}; --edition says whose profile it is", of_no_edition(profile)),
                });
            }
            return sentences;
        }
        Err(ProfileRefusal::FixedBit { register, bit }) => {
            let value = byte(register) >> bit & 1;
            let (title, sheet) = fixed_in(edition, register);
            format!("{title}: {:02X}h has bit {bit} at {value}; {sheet} fixes it at {}", byte(register), 1 - value)
        }
        Err(ProfileRefusal::PrescalerAbove21 { register }) => {
            format!("{}: prescaler {}, the highest is 21", titled(register), byte(register) & timer_clock::T_PRE_SCALER)
        }
        Err(ProfileRefusal::ReloadZeroWithStart { register }) => {
            let control = byte(0x2B);
            let starts = [(timer_control::T_START_TX_BEGIN, "TStartTxBegin"), (timer_control::T_START_TX_END, "TStartTxEnd")];
            let set: Vec<&str> = starts.iter().filter(|(bit, _)| control & bit != 0).map(|&(_, name)| name).collect();
            let verb = if set.len() == 1 { "is" } else { "are" };
            format!("{}: reload value 0 while {} of 2Bh TimerControl {verb} set; the lowest is 1", titled(register), set.join(" and "))
        }
        Err(ProfileRefusal::WaterLevelAbove31 { register }) => {
            let level = byte(register) & fifo_level::WATER_LEVEL;
            format!("{}: water level {level}, the highest is 31; LoAlert or HiAlert would be on at every fill", titled(register))
        }
        Err(_) => "this program does not know the refusal; the library is newer".to_string(),
    };
    vec![sentence]
}
