//! The reader bench on the command line: checks start-up profiles as people post them, keeps them in packs, and drives a chip by typed lines.
mod output;
mod pack;
mod posted;
mod profile;
mod registers;
mod shell;
mod waveform;

use mfrc531::Edition;
use output::Output;
use posted::Form;
use std::ffi::OsString;
use std::io::{self, Write};
use std::os::unix::ffi::OsStrExt;
use std::process::ExitCode;

/// How a run ends; the number is the exit status.
#[derive(Clone, Copy, PartialEq, Eq, PartialOrd, Ord)]
pub enum Ended {
    Well = 0,
    Refused = 1,
    Unreadable = 2,
}

const USAGE: &str = "\
mfrc531: an MFRC531 or MF RC530 card-reader chip in software, and the check of its start-up profiles

    mfrc531 profile [--edition mfrc531 | rc530] [--image] [--raw | --text] FILE..
    mfrc531 pack list FILE
    mfrc531 pack check [--edition mfrc531 | rc530] FILE
    mfrc531 pack get [--raw] FILE NAME
    mfrc531 pack make [--raw | --text] OUT NAME=PROFILE..
    mfrc531 shell [--vcd OUT.vcd] [FILE]
    mfrc531 --help | --version

profile   For each file ('-' is standard input) a line, the one that profile_check prints for the same bytes, with the file's name before
          it where several are given, and below it what it means. A profile is 32 bytes, for registers 10h-2Fh.
          --edition rc530 judges by the bits that the data sheet of the MF RC530 fixes; else it is by those of the MFRC531, as
          profile_check does. Exit status: 0 all pass, 1 one is refused, 2 one cannot be read.

          A file is raw bytes, or text in hexadecimal digits: with 0x or h, commas or semicolons; the dumps of xxd, hexdump and od -t x1
          with offsets and column of text; arrays of C with comments; strings of \\x escapes. '#' begins a comment. Text is what has no
          control characters and few bytes above 7Fh: no raw profile that passes is text, since 25h is 00 in it. --raw and --text say
          which it is.

          An image of 512 bytes is refused (9), since it is no profile, and the lines below say what its profile, bytes 10h-2Fh, would
          get. With --image every file is an image, and that profile is judged in its place. Without --edition the profile of an image
          is judged as that of the image's own edition, by its first four bytes: 30 CC FF 0F the MFRC531, 30 88 FE 03 the MF RC530.

pack      A pack is a file of up to 256 profiles, each with a name. list prints the names, where the 32 bytes of each profile begin in the
          file, and how many there are. check judges each as 'mfrc531 profile' does. get prints a profile as hexadecimal text, or with
          --raw as raw bytes. make writes a pack of profiles, files as above, which need not pass the check; in any order, and of none
          it makes the empty pack. '-' is standard input for FILE and PROFILE, and standard output for OUT; an OUT with '=' in its
          name needs a '/' too.

          A name has 16 bytes. It is typed as text of up to 16 bytes, and bytes 00 follow it; \\xNN stands for any byte and \\\\ for a
          backslash. NAME ends before the first '=', so \\x3D stands for one in it. A name is printed so that it can be typed again.

          Exit status: 0 all is well; 1 a profile is refused or is not 32 bytes (9), the file is no pack (14), no profile has the name
          (15), over 256 profiles (17), a name is given twice (18); 2 a file cannot be read or written.

shell     Drives a chip by lines from a terminal, a pipe or a file: starts, host reads and writes, clocks, frames. It begins with an
          MFRC531 started from the shipped image. Exit status: 0, or 2 at the first line that cannot be done (a terminal goes on).
          --vcd writes IRq and ModemState (of PrimaryStatus), E2Ready, TRunning, the FIFO's held count, the sum of lost bytes, the
          timer's value, the command, StandBy and PowerDown (0 off, 1 waits for the programming, 2 in hold, 3 being left) as a
          waveform, for GTKWave. Its time scale is 1 ps, since no scale divides the clock of 13.56 MHz: clock n stands at
          n * 25000000 / 339 ps, rounded. Calls at one clock stand 1 ps apart, in their order.

What can be typed in the shell:

";

fn main() -> ExitCode {
    let arguments: Vec<OsString> = std::env::args_os().skip(1).collect();
    let mut output = Output::new();
    let ended = match chosen(&arguments) {
        Ok(Task::Help) => {
            let indented: String = shell::HELP.lines().map(|line| format!("    {line}").trim_end().to_string() + "\n").collect();
            output.part(&format!("{USAGE}{indented}"));
            Ended::Well
        }
        Ok(Task::Version) => {
            output.line(concat!("mfrc531 ", env!("CARGO_PKG_VERSION")));
            Ended::Well
        }
        Ok(Task::Profile(options)) => profile::run(&options, &mut output),
        Ok(Task::Pack(task)) => pack::run(&task, &mut output),
        Ok(Task::Shell { script, waveform }) => shell::run(script.as_ref(), waveform.as_ref(), &mut output),
        Err(what) => {
            let _ = writeln!(io::stderr(), "mfrc531: {what}; mfrc531 --help says how it is called");
            Ended::Unreadable
        }
    };
    output.flush();
    ExitCode::from(ended as u8)
}

enum Task {
    Help,
    Version,
    Profile(profile::Options),
    Pack(pack::Task),
    Shell { script: Option<OsString>, waveform: Option<OsString> },
}

fn chosen(arguments: &[OsString]) -> Result<Task, String> {
    let Some((first, rest)) = arguments.split_first() else {
        return Err("a command is missing".to_string());
    };
    match first.to_str() {
        Some("--help" | "-h" | "help") => Ok(Task::Help),
        Some("--version" | "-V") => Ok(Task::Version),
        Some("profile") => chosen_profile(rest),
        Some("pack") => chosen_pack(rest),
        Some("shell") => chosen_shell(rest),
        _ => Err(format!("{} is no command", posted::quoted(&first.to_string_lossy()))),
    }
}

/// What is typed behind a command: its options, and the other words.
struct Given {
    edition: Option<Edition>,
    images: bool,
    form: Form,
    waveform: Option<OsString>,
    words: Vec<OsString>,
}

/// The arguments of a command that takes these options; none where they ask for the help. What follows `--` is no option.
fn given(arguments: &[OsString], options: &[&str]) -> Result<Option<Given>, String> {
    let mut given = Given { edition: None, images: false, form: Form::Told, waveform: None, words: Vec::new() };
    let mut arguments = arguments.iter();
    while let Some(argument) = arguments.next() {
        let Some(word) = argument.to_str().filter(|word| word.starts_with('-') && *word != "-") else {
            given.words.push(argument.clone());
            continue;
        };
        let (option, value) = word.split_once('=').map_or((word, None), |(option, value)| (option, Some(OsString::from(value))));
        let mut value_or = |missing: &str| value.clone().or_else(|| arguments.next().cloned()).ok_or(missing.to_string());
        match option {
            "--" if value.is_none() => {
                given.words.extend(arguments.cloned());
                break;
            }
            "--help" | "-h" if value.is_none() => return Ok(None),
            _ if !options.contains(&option) => return Err(unknown(word)),
            "--edition" => given.edition = Some(edition_of(&value_or("--edition needs mfrc531 or rc530")?.to_string_lossy())?),
            "--vcd" => given.waveform = Some(value_or("--vcd needs a file")?),
            "--image" if value.is_none() => given.images = true,
            "--raw" if value.is_none() => given.form = Form::Raw,
            "--text" if value.is_none() => given.form = Form::Text,
            _ => return Err(unknown(word)),
        }
    }
    Ok(Some(given))
}

fn chosen_profile(arguments: &[OsString]) -> Result<Task, String> {
    let Some(given) = given(arguments, &["--edition", "--image", "--raw", "--text"])? else {
        return Ok(Task::Help);
    };
    if given.words.is_empty() {
        return Err("profile needs a file, or - for standard input".to_string());
    }
    Ok(Task::Profile(profile::Options { form: given.form, edition: given.edition, images: given.images, files: given.words }))
}

fn chosen_pack(arguments: &[OsString]) -> Result<Task, String> {
    let (verb, rest) = arguments.split_first().ok_or("pack needs list, check, get or make")?;
    let verb = verb.to_string_lossy();
    let options: &[&str] = match &*verb {
        "list" => &[],
        "check" => &["--edition"],
        "get" => &["--raw"],
        "make" => &["--raw", "--text"],
        "--help" | "-h" => return Ok(Task::Help),
        _ => return Err(format!("{} is none of list, check, get and make, which pack needs", posted::quoted(&verb))),
    };
    let Some(given) = given(rest, options)? else {
        return Ok(Task::Help);
    };
    // A word with '=' in the place of OUT is a profile before which OUT was forgotten.
    let is_out = |word: &OsString| !word.as_bytes().contains(&b'=') || word.as_bytes().contains(&b'/');
    let task = match (&*verb, &given.words[..]) {
        ("list", [pack]) => pack::Task::List { pack: pack.clone() },
        ("check", [pack]) => pack::Task::Check { pack: pack.clone(), edition: given.edition },
        ("get", [pack, name]) => {
            pack::Task::Get { pack: pack.clone(), name: pack::name_of(name.as_bytes())?, raw: given.form == Form::Raw }
        }
        ("get", _) => return Err("pack get takes a file, or - for standard input, and a name".to_string()),
        ("make", [pack, profiles @ ..]) if is_out(pack) => {
            let profiles = profiles.iter().map(|typed| pack::named_profile(typed)).collect::<Result<_, _>>()?;
            pack::Task::Make { pack: pack.clone(), profiles, form: given.form }
        }
        ("make", _) => return Err("pack make takes a file to write, and behind it NAME=PROFILE for each profile".to_string()),
        _ => return Err(format!("pack {verb} takes one file, or - for standard input")),
    };
    Ok(Task::Pack(task))
}

fn chosen_shell(arguments: &[OsString]) -> Result<Task, String> {
    let Some(mut given) = given(arguments, &["--vcd"])? else {
        return Ok(Task::Help);
    };
    if given.words.len() > 1 {
        return Err("shell takes one file".to_string());
    }
    Ok(Task::Shell { script: given.words.pop(), waveform: given.waveform })
}

fn edition_of(word: &str) -> Result<Edition, String> {
    registers::edition_named(word).ok_or_else(|| format!("{} is no edition: mfrc531 or rc530", posted::quoted(word)))
}

fn unknown(option: &str) -> String {
    format!("{} is no option", posted::quoted(option))
}
