//! Profile packs: what is in one, the check of its profiles, one profile by its name, and packs made of profiles as people post them.
use crate::output::{complain, Output};
use crate::posted::{bytes_of_file, content_of_file, plain, quoted, same_file, Fault, Form};
use crate::profile::{judge, not_32_bytes};
use crate::registers::digits;
use crate::Ended;
use mfrc531::{find_in_pack, pack_length, write_pack, Edition, Pack, ProfileRefusal, Refusal, PACK_MOST_SIZE, PACK_NAME_SIZE};
use std::ffi::{OsStr, OsString};
use std::os::unix::ffi::OsStrExt;
use std::path::{Path, PathBuf};

type Name = [u8; PACK_NAME_SIZE];

pub enum Task {
    List { pack: OsString },
    Check { pack: OsString, edition: Option<Edition> },
    Get { pack: OsString, name: Name, raw: bool },
    Make { pack: OsString, profiles: Vec<(Name, OsString)>, form: Form },
}

/// Why a task was not done: the file, what is wrong with it, and how the run ends.
struct Failure {
    file: PathBuf,
    fault: Fault,
    ended: Ended,
}

impl Failure {
    fn refused(file: &Path, what: String) -> Failure {
        Failure { file: file.to_path_buf(), fault: Fault::whole(what), ended: Ended::Refused }
    }

    fn unreadable(file: &Path, fault: Fault) -> Failure {
        Failure { file: file.to_path_buf(), fault, ended: Ended::Unreadable }
    }
}

pub fn run(task: &Task, output: &mut Output) -> Ended {
    let done = match task {
        Task::List { pack } => list(Path::new(pack), output),
        Task::Check { pack, edition } => check(Path::new(pack), *edition, output),
        Task::Get { pack, name, raw } => get(Path::new(pack), name, *raw, output),
        Task::Make { pack, profiles, form } => make(Path::new(pack), profiles, *form, output),
    };
    done.unwrap_or_else(|Failure { file, fault, ended }| {
        complain(&file, fault.line, &fault.what);
        ended
    })
}

// ---- Names -----------------------------------------------------------------------------------------------------------------------------

/// The name that is typed: its bytes, `\xNN` for any byte and `\\` for a backslash, and 00h up to 16 bytes.
pub fn name_of(typed: &[u8]) -> Result<Name, String> {
    let as_typed = || quoted(&String::from_utf8_lossy(typed)).replace("\\\\", "\\");
    let wrong = |what: &str| format!("the name {} {what}", as_typed());
    let digit = |character: u8| char::from(character).to_digit(16);
    let mut bytes = Vec::new();
    let mut rest = typed;
    while let [first, after @ ..] = rest {
        let (byte, after) = match (first, after) {
            (b'\\', [b'\\', after @ ..]) => (b'\\', after),
            (b'\\', [b'x', high, low, after @ ..]) => match (digit(*high), digit(*low)) {
                (Some(high), Some(low)) => ((high << 4 | low) as u8, after),
                _ => return Err(wrong("has no two hexadecimal digits behind \\x")),
            },
            (b'\\', _) => return Err(wrong("has a \\ that begins neither \\xNN nor \\\\")),
            (&byte, after) => (byte, after),
        };
        bytes.push(byte);
        rest = after;
    }
    let mut name = [0; PACK_NAME_SIZE];
    let front = name.get_mut(..bytes.len()).ok_or_else(|| wrong(&format!("has {} bytes, the most are 16", bytes.len())))?;
    front.copy_from_slice(&bytes);
    Ok(name)
}

/// A profile as it is typed for a pack, NAME=PROFILE.
pub fn named_profile(typed: &OsStr) -> Result<(Name, OsString), String> {
    let bytes = typed.as_bytes();
    let end = bytes.iter().position(|&byte| byte == b'=');
    let end = end.ok_or_else(|| format!("{} is no NAME=PROFILE", quoted(&typed.to_string_lossy())))?;
    Ok((name_of(&bytes[..end])?, OsStr::from_bytes(&bytes[end + 1..]).to_os_string()))
}

/// A name as it can be typed, for any command: without 00h at its end, but for one where there is nothing else; what does not print, `=`, and `-` at
/// the start, as `\xNN`.
fn shown(name: &Name) -> String {
    let end = name.iter().rposition(|&byte| byte != 0).unwrap_or(0);
    let mut text = String::new();
    for chunk in name[..=end].utf8_chunks() {
        for character in chunk.valid().chars() {
            let prints = matches!(character, '\'' | '"') || character.escape_debug().len() == 1;
            match character {
                '\\' => text.push_str("\\\\"),
                _ if prints && character != '=' && !(character == '-' && text.is_empty()) => text.push(character),
                _ => text.push_str(&escaped(character.encode_utf8(&mut [0; 4]).as_bytes())),
            }
        }
        text.push_str(&escaped(chunk.invalid()));
    }
    text
}

fn escaped(bytes: &[u8]) -> String {
    bytes.iter().map(|byte| format!("\\x{byte:02X}")).collect()
}

// ---- Tasks -----------------------------------------------------------------------------------------------------------------------------

/// The bytes of a file for the library to judge: of a longer one than any pack, one byte more than that.
fn bytes_of_pack(file: &Path) -> Result<Vec<u8>, Failure> {
    content_of_file(file, PACK_MOST_SIZE + 1).map_err(|fault| Failure::unreadable(file, fault))
}

fn pack_of<'a>(file: &Path, bytes: &'a [u8]) -> Result<Pack<'a>, Failure> {
    Pack::new(bytes).map_err(|refusal| Failure::refused(file, refusal.to_string()))
}

fn list(file: &Path, output: &mut Output) -> Result<Ended, Failure> {
    let bytes = bytes_of_pack(file)?;
    let pack = pack_of(file, &bytes)?;
    for (place, (name, body)) in pack.iter().enumerate() {
        output.line(&format!("{}: body at {:04X}h", shown(name), place * body.len()));
    }
    output.line(&if pack.len() == 1 { "1 profile".to_string() } else { format!("{} profiles", pack.len()) });
    Ok(Ended::Well)
}

fn check(file: &Path, edition: Option<Edition>, output: &mut Output) -> Result<Ended, Failure> {
    let bytes = bytes_of_pack(file)?;
    let pack = pack_of(file, &bytes)?;
    Ok(pack.iter().fold(Ended::Well, |ended, (name, body)| ended.max(judge(body, edition, &format!("{}: ", shown(name)), output))))
}

fn get(file: &Path, name: &Name, raw: bool, output: &mut Output) -> Result<Ended, Failure> {
    let bytes = bytes_of_pack(file)?;
    let body = find_in_pack(&bytes, name).map_err(|refusal| {
        let which = if refusal == Refusal::NameNotFound { format!(" '{}'", shown(name)) } else { String::new() };
        Failure::refused(file, format!("{refusal}{which}"))
    })?;
    if raw {
        output.bytes(body);
    } else {
        body.chunks(16).for_each(|line| output.line(&digits(line)));
    }
    Ok(Ended::Well)
}

/// Writes a pack, to standard output for `-`, once all profiles are read and the library has laid it out.
fn make(file: &Path, given: &[(Name, OsString)], form: Form, output: &mut Output) -> Result<Ended, Failure> {
    let mut profiles = Vec::new();
    for (name, profile) in given {
        profiles.push((*name, body_of(Path::new(profile), form, file)?));
    }
    profiles.sort_unstable();
    let (names, bodies): (Vec<_>, Vec<_>) = profiles.into_iter().unzip();
    let mut buffer = vec![0; pack_length(names.len())];
    let length = write_pack(&names, &bodies, &mut buffer).map_err(|refusal| {
        let twice = names.windows(2).find(|two| refusal == Refusal::NamesNotAscending && two[0] == two[1]);
        let which = twice.map_or(String::new(), |two| format!(": '{}' is given twice", shown(&two[0])));
        Failure::refused(file, format!("{refusal}{which}"))
    })?;
    buffer.truncate(length);
    if file == Path::new("-") {
        output.bytes(&buffer);
    } else {
        std::fs::write(file, buffer).map_err(|error| Failure::unreadable(file, Fault::whole(plain(&error))))?;
    }
    Ok(Ended::Well)
}

/// The 32 bytes of a profile for a pack, which may not be written over it.
fn body_of(file: &Path, form: Form, pack: &Path) -> Result<[u8; 32], Failure> {
    if file != Path::new("-") && same_file(file, pack) {
        return Err(Failure::unreadable(file, Fault::whole("the pack would be written over a profile that is read")));
    }
    let bytes = bytes_of_file(file, form).map_err(|fault| Failure::unreadable(file, fault))?;
    let refused = |bytes: Vec<u8>| Failure::refused(file, format!("{}: {}", ProfileRefusal::Not32Bytes, not_32_bytes(bytes.len())));
    bytes.try_into().map_err(refused)
}
