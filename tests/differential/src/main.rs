//! Calls on two chips: the proved library by its C interface, and a plain model written from the requirements. After each call the answer,
//! every lent byte, the whole chip and the sum of lost bytes are compared. See README.md.

mod answer;
mod built;
mod call;
mod checksum;
mod chip_memory;
mod clocks;
mod edges;
mod generate;
mod library;
mod packs;
mod plain;
mod profile;
mod race;
mod random;
mod recorded;
mod registers;
mod session;
mod statistics;
#[cfg(test)]
mod tests;

use answer::Answer;
use call::{parse, Call, List};
use generate::Generator;
use random::Random;
use session::Session;
use statistics::{Glance, Statistics};
use std::process::ExitCode;
use std::time::{Duration, Instant};

/// The chip without a fault.
const NONE: u8 = plain::fault::NONE;

const USAGE: &str = "differential [--calls N] [--seed S] [--break N|all] [--random] [--trace] | --replay FILE | --race | --mixes | --count CHIP KIND ROUNDS";

/// Lists written by hand, run before the random ones.
const DIRECTED: [(&str, &str); 8] = [
    ("numbers", include_str!("../lists/numbers.txt")),
    ("memory", include_str!("../lists/memory.txt")),
    ("clocks", include_str!("../lists/clocks.txt")),
    ("frames", include_str!("../lists/frames.txt")),
    ("refusals", include_str!("../lists/refusals.txt")),
    ("editions", include_str!("../lists/editions.txt")),
    ("lost", include_str!("../lists/lost.txt")),
    ("power", include_str!("../lists/power.txt")),
];

struct Options {
    calls: u64,
    seed: u64,
    /// Print each call before it is made.
    trace: bool,
    /// Leave the directed lists out.
    random: bool,
    replay: Option<String>,
    race: bool,
    /// Race the two mixes alone.
    mixes: bool,
    /// Make calls of a kind on a plain chip or on plain packs, for tests/instructions: chip, kind, rounds.
    count: Option<(String, String, u64)>,
    faults: Vec<u8>,
}

impl Default for Options {
    fn default() -> Self {
        Options {
            calls: 1_000_000,
            seed: 1,
            trace: false,
            random: false,
            replay: None,
            race: false,
            mixes: false,
            count: None,
            faults: Vec::new(),
        }
    }
}

fn main() -> ExitCode {
    match options() {
        Ok(options) => {
            let good = if options.race {
                race::run();
                println!();
                checksum::race();
                println!();
                race::packs();
                true
            } else if options.mixes {
                race::mixes();
                true
            } else if let Some((chip, kind, rounds)) = &options.count {
                let calls = race::count(chip, kind, *rounds);
                match calls {
                    Some(calls) => println!("{calls}"),
                    None => eprintln!("no such chip or kind: {chip} {kind}"),
                }
                calls.is_some()
            } else if let Some(file) = &options.replay {
                replay(file)
            } else if options.faults.is_empty() {
                compare(&options)
            } else {
                options.faults.iter().filter(|&&fault| !notice(fault, &options)).count() == 0
            };
            ExitCode::from(u8::from(!good))
        }
        Err(message) => {
            eprintln!("{message}\n{USAGE}");
            ExitCode::from(2)
        }
    }
}

fn options() -> Result<Options, String> {
    let mut options = Options::default();
    let mut words = std::env::args().skip(1);
    while let Some(word) = words.next() {
        let mut value = || words.next().ok_or(format!("{word} wants a value"));
        match word.as_str() {
            "--calls" => options.calls = number(&value()?)?,
            "--seed" => options.seed = number(&value()?)?,
            "--trace" => options.trace = true,
            "--random" => options.random = true,
            "--race" => options.race = true,
            "--mixes" => options.mixes = true,
            "--count" => options.count = Some((value()?, value()?, number(&value()?)?)),
            "--replay" => options.replay = Some(value()?),
            "--break" => {
                let all = plain::fault::NAMES.len() as u64;
                options.faults = match value()?.as_str() {
                    "all" => (1..=all as u8).collect(),
                    one => match number(one)? {
                        fault if (1..=all).contains(&fault) => vec![fault as u8],
                        _ => return Err(format!("faults are 1 to {all}")),
                    },
                };
            }
            _ => return Err(format!("unknown: {word}")),
        }
    }
    Ok(options)
}

fn number(word: &str) -> Result<u64, String> {
    let plain: String = word.chars().filter(|&letter| letter != ',' && letter != '_').collect();
    plain.parse().map_err(|_| format!("not a number: {word}"))
}

// ---- The runs --------------------------------------------------------------------------------------------------------------------------

/// A difference, with the list that leads to it.
struct Failure {
    list: List,
    difference: String,
    /// Calls of the whole run, up to the one that differs.
    calls: u64,
    /// Where in the run the list stands.
    origin: String,
}

/// The whole comparison. True if nothing differs.
fn compare(options: &Options) -> bool {
    println!("Plain chip against {}, seed {}, {} calls.", library::NAME, options.seed, options.calls);
    if let Err(message) = edges::lengths().and_then(|()| edges::upper_halves()).and_then(|()| edges::starts()).and_then(|()| edges::types())
    {
        println!("DIFFERENCE in the directed calls at the edges of the interface: {message}");
        return false;
    }
    let begin = Instant::now();
    let profiles = match profile::compare::<NONE>(options.seed, options.calls / 5, false) {
        Ok(met) => met,
        Err(message) => {
            println!("DIFFERENCE (seed {}): {message}", options.seed);
            return false;
        }
    };
    let packs = match packs::compare(packs::Plain::with::<NONE>(), options.seed, options.calls, false) {
        Ok(met) => met,
        Err(message) => {
            println!("DIFFERENCE (seed {}) in packs: {message}", options.seed);
            return false;
        }
    };
    let checksums = match checksum::compare(options.seed, options.calls / 100) {
        Ok(calls) => calls,
        Err(message) => {
            println!("DIFFERENCE (seed {}) in a checksum over a slice: {message}", options.seed);
            return false;
        }
    };
    let (states, calls) = match built::judged::<NONE>(options.seed).and_then(|states| built::worked::<NONE>().map(|calls| (states, calls)))
    {
        Ok(built) => built,
        Err(message) => {
            println!("DIFFERENCE on a chip that was built: {message}");
            return false;
        }
    };
    let parts = match clocks::in_parts(options.seed, options.calls / 20) {
        Ok(advances) => advances,
        Err(message) => {
            println!("DIFFERENCE (seed {}) of clocks in parts: {message}", options.seed);
            return false;
        }
    };
    match run::<NONE>(options) {
        Ok(statistics) => {
            println!(
                "No difference, {:.1} s. {statistics}; besides, {} built states judged, {} of them with a sum of lost bytes above 0 and {} with one \
                 that FIFOOvfl does not agree with, {} well formed with a power mode that is not off, of which {} have a programming that stands still \
                 with clocks behind it, and {} malformed by a mode, and {calls} calls on such, {parts}, {checksums} checksums over slices, {profiles}; {packs}",
                begin.elapsed().as_secs_f64(),
                states.all,
                states.summed,
                states.apart,
                states.in_modes,
                states.begun,
                states.by_modes
            );
            true
        }
        Err(failure) => {
            report::<NONE>(&failure, options.seed);
            false
        }
    }
}

/// Directed lists, then random ones until there are enough calls.
fn run<const FAULT: u8>(options: &Options) -> Result<Statistics, Box<Failure>> {
    let mut statistics = Statistics::default();
    let directed = if options.random { &[][..] } else { &DIRECTED };
    for (name, text) in directed {
        let list = match parse(text) {
            Ok(list) => list,
            Err(message) => panic!("lists/{name}.txt: {message}"),
        };
        statistics.lists += 1;
        let mut session = Session::<FAULT>::new(list.memory);
        for (place, call) in list.calls.iter().enumerate() {
            if let Err(difference) = one(&mut session, call, &mut statistics, options.trace) {
                let list = List { memory: list.memory, calls: list.calls[..=place].to_vec() };
                return Err(Box::new(Failure { list, difference, calls: statistics.calls, origin: format!("lists/{name}.txt") }));
            }
        }
    }
    let mut seeds = Random::new(options.seed);
    while statistics.calls < options.calls {
        statistics.lists += 1;
        let mut random = Random::new(seeds.number());
        let memory = random.number() & 0xFFFF_FFFF;
        let most = random.of(&[20, 300, 300, 3_000, 3_000, 10_000]);
        let length = (1 + random.below(most)).min(options.calls - statistics.calls);
        let mut generator = Generator::new(random);
        let mut session = Session::<FAULT>::new(memory);
        let mut list = List { memory, calls: Vec::new() };
        for _ in 0..length {
            let call = generator.next(session.plain(), session.memory());
            list.calls.push(call);
            let call = &list.calls[list.calls.len() - 1];
            if let Err(difference) = one(&mut session, call, &mut statistics, options.trace) {
                let origin = format!("random list {}", statistics.lists);
                return Err(Box::new(Failure { list, difference, calls: statistics.calls, origin }));
            }
        }
    }
    Ok(statistics)
}

/// One call on both chips, counted.
fn one<const FAULT: u8>(session: &mut Session<FAULT>, call: &Call, statistics: &mut Statistics, trace: bool) -> Result<(), String> {
    if trace {
        println!("{call}");
    }
    let before = session.plain().map(Glance::of);
    let malformed = session.malformed();
    let result = session.perform(call);
    let after = session.plain().map(Glance::of);
    statistics.count(call, *result.as_ref().unwrap_or(&0), before, after, malformed);
    result.map(|_| ())
}

/// A list from a file, on both chips. True if nothing differs.
fn replay(file: &str) -> bool {
    println!("Plain chip against {}, the list of {file}.", library::NAME);
    let list = match std::fs::read_to_string(file).map_err(|error| error.to_string()).and_then(|text| parse(&text)) {
        Ok(list) => list,
        Err(message) => {
            println!("{file}: {message}");
            return false;
        }
    };
    show::<NONE>(&list);
    match difference::<NONE>(&list) {
        Some((_, difference)) => {
            println!("DIFFERENCE at the last call: {difference}");
            false
        }
        None => {
            println!("No difference, {} calls.", list.calls.len());
            true
        }
    }
}

// ---- A difference ----------------------------------------------------------------------------------------------------------------------

/// `difference` for a chip with one fault or with none.
type Difference = fn(&List) -> Option<(usize, String)>;

/// The place of the first call of a list that differs, and how.
fn difference<const FAULT: u8>(list: &List) -> Option<(usize, String)> {
    let mut session = Session::<FAULT>::new(list.memory);
    list.calls.iter().enumerate().find_map(|(place, call)| session.perform(call).err().map(|difference| (place, difference)))
}

/// A shorter list that differs too, as `difference` finds it: drops calls while a difference stays, then bytes of what is left.
fn shrink(difference: Difference, mut list: List) -> (List, String) {
    let mut found = String::new();
    let end = Instant::now() + Duration::from_secs(20);
    if let Some((place, message)) = difference(&list) {
        list.calls.truncate(place + 1);
        found = message;
    }
    let attempt = |list: &mut List, found: &mut String, shorter: List| match difference(&shorter) {
        Some((place, message)) if Instant::now() < end => {
            *list = shorter;
            list.calls.truncate(place + 1);
            *found = message;
            true
        }
        _ => false,
    };
    let mut chunk = list.calls.len().next_power_of_two();
    loop {
        let mut changed = false;
        let mut start = list.calls.len().saturating_sub(chunk);
        loop {
            let mut shorter = list.clone();
            shorter.calls.drain(start..(start + chunk).min(shorter.calls.len()));
            changed |= attempt(&mut list, &mut found, shorter);
            if start == 0 {
                break;
            }
            start = start.min(list.calls.len()).saturating_sub(chunk);
        }
        if chunk > 1 {
            chunk /= 2;
        } else if !changed {
            break;
        }
    }
    for place in 0..list.calls.len() {
        let mut part = 0;
        while let Some(simpler) = list.calls.get(place).and_then(|call| without(call, part)) {
            let mut shorter = list.clone();
            shorter.calls[place] = simpler;
            if !attempt(&mut list, &mut found, shorter) {
                part += 1;
            }
        }
    }
    (list, found)
}

/// The call without its n-th edit, or without its n-th byte; none when there is no such part.
fn without(call: &Call, part: usize) -> Option<Call> {
    match call {
        Call::Corrupt { edits } if part < edits.len() => {
            let mut edits = edits.clone();
            edits.remove(part);
            Some(Call::Corrupt { edits })
        }
        Call::Deliver { bytes, parities, last_bits } if part < bytes.len() && part < parities.len() => {
            let (mut bytes, mut parities) = (bytes.clone(), parities.clone());
            bytes.remove(part);
            parities.remove(part);
            Some(Call::Deliver { bytes, parities, last_bits: *last_bits })
        }
        _ => None,
    }
}

/// Prints a list with the answers, up to the first difference.
fn show<const FAULT: u8>(list: &List) {
    let mut session = Session::<FAULT>::new(list.memory);
    println!("    memory {:X}", list.memory);
    for call in &list.calls {
        let result = session.perform(call);
        let answer = match (&result, call) {
            (Ok(_), Call::Corrupt { .. } | Call::Mend) => {
                session.malformed().map_or("well formed".to_string(), |reason| format!("malformed: {reason}"))
            }
            (Ok(answer), _) => Answer(*answer).to_string(),
            (Err(difference), _) => format!("DIFFERENCE: {difference}"),
        };
        let remark = call.remark().map_or(String::new(), |remark| format!("; {remark}"));
        println!("    {:<40} # {answer}{remark}", call.to_string());
        if result.is_err() {
            return;
        }
    }
}

fn report<const FAULT: u8>(failure: &Failure, seed: u64) {
    println!("DIFFERENCE in {} (seed {seed}), at call {} of the run: {}", failure.origin, failure.calls, failure.difference);
    let (list, found) = shrink(difference::<FAULT>, failure.list.clone());
    println!("Shortest list found, {} calls (of {}): {found}", list.calls.len(), failure.list.calls.len());
    println!("To repeat it, put these lines into a file and give --replay FILE:");
    show::<FAULT>(&list);
}

// ---- Planted faults --------------------------------------------------------------------------------------------------------------------

/// What a fault of the chip is looked for with, by its number.
struct Planted {
    run: fn(&Options) -> Result<Statistics, Box<Failure>>,
    difference: Difference,
    show: fn(&List),
}

/// The comparison of profile checks and choices, with a fault by its number.
type Profiles = fn(u64, u64, bool) -> Result<profile::Met, String>;

/// Plants a fault into the plain profile check and choice. True if the comparison notices it.
fn notice_in_profiles(fault: u8, options: &Options) -> bool {
    macro_rules! planted {
        ($($number:literal)*) => {
            match fault {
                $($number => profile::compare::<$number>,)*
                _ => return false,
            }
        };
    }
    let compare: Profiles = planted!(89 90 91 92 93 94);
    noticed(fault, compare(options.seed, options.calls / 5, options.random))
}

/// Prints whether a comparison has noticed a fault, which is what it answers.
fn noticed<Met: std::fmt::Display>(fault: u8, compared: Result<Met, String>) -> bool {
    let name = plain::fault::NAMES[usize::from(fault) - 1];
    match &compared {
        Err(message) => println!("fault {fault}, {name}: noticed: {message}"),
        Ok(met) => println!("fault {fault}, {name}: NOT NOTICED in {met}"),
    }
    compared.is_err()
}

/// Plants a fault into the plain packs. True if the comparison notices it.
fn notice_in_packs(fault: u8, options: &Options) -> bool {
    macro_rules! planted {
        ($($number:literal)*) => {
            match fault {
                $($number => packs::Plain::with::<$number>(),)*
                _ => return false,
            }
        };
    }
    let plain = planted!(
        95 96 97 98 99 100 101 102 103 104 105 106 107 108 109 110 111 112 113 114 115 116 117 118 119 120 121 122 123 124 125 126 127 128 129
    );
    noticed(fault, packs::compare(plain, options.seed, options.calls, options.random))
}

/// Plants a fault into the plain chip, into the plain profile check and choice, or into the plain packs. True if the comparison notices it.
fn notice(fault: u8, options: &Options) -> bool {
    if fault >= plain::fault::IN_PACKS {
        return notice_in_packs(fault, options);
    }
    if fault >= plain::fault::IN_PROFILES {
        return notice_in_profiles(fault, options);
    }
    macro_rules! planted {
        ($($number:literal)*) => {
            match fault {
                $($number => Planted { run: run::<$number>, difference: difference::<$number>, show: show::<$number> },)*
                _ => return false,
            }
        };
    }
    let planted = planted!(
        1 2 3 4 5 6 7 8 9 10 11 12 13 14 15 16 17 18 19 20 21 22 23 24 25 26 27 28 29 30 31 32 33 34 35 36 37 38 39 40 41 42 43 44 45 46
        47 48 49 50 51 52 53 54 55 56 57 58 59 60 61 62 63 64 65 66 67 68 69 70 71 72 73 74 75 76 77 78 79 80 81 82 83 84 85 86 87 88
    );
    let name = plain::fault::NAMES[usize::from(fault) - 1];
    match (planted.run)(options).err() {
        Some(failure) => {
            let (list, found) = shrink(planted.difference, failure.list);
            println!(
                "fault {fault}, {name}: noticed at call {} ({}), shortest list {} calls: {found}",
                failure.calls,
                failure.origin,
                list.calls.len()
            );
            if options.faults.len() == 1 {
                (planted.show)(&list);
            }
            true
        }
        None => {
            println!("fault {fault}, {name}: NOT NOTICED in {} calls", options.calls);
            false
        }
    }
}
