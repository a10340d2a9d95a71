//! Bytes as people post them: raw, or as text in hexadecimal digits.
use std::fs::File;
use std::io::{self, Read};
use std::path::Path;

/// No profile and no image is longer in any form; it also ends a read of a device that never ends.
pub const MOST_BYTES: usize = 1 << 20;

/// What is wrong, and in which line where that is known.
#[derive(Debug, PartialEq, Eq)]
pub struct Fault {
    pub line: Option<usize>,
    pub what: String,
}

impl Fault {
    pub fn at(line: usize, what: impl Into<String>) -> Fault {
        Fault { line: Some(line), what: what.into() }
    }

    pub fn whole(what: impl Into<String>) -> Fault {
        Fault { line: None, what: what.into() }
    }
}

/// How the bytes are written.
#[derive(Clone, Copy, PartialEq, Eq)]
pub enum Form {
    /// Text where the content is text, else raw.
    Told,
    Raw,
    Text,
}

/// The words of the operating system for an error, without its number.
pub fn plain(error: &io::Error) -> String {
    let text = error.to_string();
    text.split(" (os error").next().unwrap_or(&text).to_string()
}

/// The content of a file, `-` for standard input, and no more of it than a limit.
pub fn content_of_file(name: &Path, limit: usize) -> Result<Vec<u8>, Fault> {
    let mut content = Vec::new();
    let limit = limit as u64;
    let read = if name == Path::new("-") {
        io::stdin().lock().take(limit).read_to_end(&mut content)
    } else {
        File::open(name).and_then(|file| file.take(limit).read_to_end(&mut content))
    };
    read.map(|_| content).map_err(|error| Fault::whole(plain(&error)))
}

/// Whether two names are of one file that is there.
pub fn same_file(one: &Path, other: &Path) -> bool {
    matches!((one.canonicalize(), other.canonicalize()), (Ok(one), Ok(other)) if one == other)
}

/// The bytes of a file, `-` for standard input.
pub fn bytes_of_file(name: &Path, form: Form) -> Result<Vec<u8>, Fault> {
    let content = content_of_file(name, MOST_BYTES + 1)?;
    if content.len() > MOST_BYTES {
        return Err(Fault::whole("more than 1,048,576 bytes, which no profile or image needs"));
    }
    bytes_of(&content, form)
}

pub fn bytes_of(content: &[u8], form: Form) -> Result<Vec<u8>, Fault> {
    let text = match form {
        Form::Raw => None,
        Form::Told => text_of(content),
        Form::Text => Some(text_of(content).unwrap_or_else(|| String::from_utf8_lossy(content).into_owned())),
    };
    text.map_or_else(|| Ok(content.to_vec()), |text| bytes_of_text(&text))
}

// ---- Text or not -----------------------------------------------------------------------------------------------------------------------

fn is_control(character: char) -> bool {
    character.is_control() && !matches!(character, '\t' | '\n' | '\r' | '\x0B' | '\x0C')
}

/// The text, if the content is text. Every profile that passes has a byte 00h (25h PreSet25), so none of them is.
fn text_of(content: &[u8]) -> Option<String> {
    let wide = |pair: fn([u8; 2]) -> u16| {
        let units = content[2..].chunks_exact(2).map(|two| pair([two[0], two[1]]));
        char::decode_utf16(units).collect::<Result<String, _>>().ok().filter(|text| text.is_ascii() && !text.chars().any(is_control))
    };
    let decoded = match content {
        [0xFF, 0xFE, rest @ ..] if rest.len() % 2 == 0 => wide(u16::from_le_bytes),
        [0xFE, 0xFF, rest @ ..] if rest.len() % 2 == 0 => wide(u16::from_be_bytes),
        _ => None,
    };
    if decoded.is_some() {
        return decoded;
    }
    let marked = content.strip_prefix(&[0xEF, 0xBB, 0xBF]);
    let content = marked.unwrap_or(content);
    let controls = content.iter().any(|&byte| byte < 0x80 && is_control(char::from(byte)));
    let foreign = content.iter().filter(|byte| !byte.is_ascii()).count();
    // Bytes above 7Fh are letters in a comment, unless there are many of them or the length says that this is a profile or an image.
    let length_of_bytes = marked.is_none() && matches!(content.len(), 32 | 512);
    let text = !controls && (foreign == 0 || (!length_of_bytes && foreign * 4 <= content.len()));
    text.then(|| String::from_utf8_lossy(content).into_owned())
}

// ---- Text ------------------------------------------------------------------------------------------------------------------------------

fn bytes_of_text(text: &str) -> Result<Vec<u8>, Fault> {
    let text = text.replace("\r\n", "\n").replace('\r', "\n").replace(['\u{FEFF}', '\u{200B}', '\u{A0}'], " ");
    let lines: Vec<(usize, &str)> = text.lines().enumerate().map(|(place, line)| (place + 1, line.trim_end())).collect();
    let first = lines.iter().find(|(_, line)| !line.trim().is_empty() && !is_remark(line));
    match first {
        Some(&(number, line)) if is_intel_record(line) => {
            Err(Fault::at(number, "records of Intel HEX are not read: make raw bytes of them (objcopy -I ihex -O binary)"))
        }
        Some((_, line)) if offset_of(line).is_some() => bytes_of_dump(&lines),
        _ => bytes_of_list(&text),
    }
}

fn is_remark(line: &str) -> bool {
    let line = line.trim_start();
    (line.starts_with('#') && !line.starts_with("#define")) || line.starts_with("//") || line.starts_with(';')
}

fn is_intel_record(line: &str) -> bool {
    line.trim().strip_prefix(':').is_some_and(|digits| digits.len() >= 10 && is_hex(digits))
}

fn is_hex(word: &str) -> bool {
    !word.is_empty() && word.bytes().all(|byte| byte.is_ascii_hexdigit())
}

/// A word as an error names it: short, and without what a terminal would obey.
pub fn quoted(word: &str) -> String {
    let shown: String = word.chars().take(20).flat_map(char::escape_default).collect();
    format!("'{shown}{}'", if word.chars().nth(20).is_some() { ".." } else { "" })
}

// ---- Dumps, with an offset at each line's start ----------------------------------------------------------------------------------------

struct Offset<'a> {
    digits: &'a str,
    /// What follows the offset, without blanks before it.
    rest: &'a str,
    /// Without a colon the words of four digits are those of `hexdump` and `od -x`, which print the low byte last.
    colon: bool,
}

/// The offset at the start of a line of a dump: `00000010:`, `0x10:`, `10h:`, or at least six digits and single bytes or words after them.
fn offset_of(line: &str) -> Option<Offset<'_>> {
    let line = line.trim_start();
    if let Some((before, rest)) = line.split_once(':') {
        let digits = before.strip_prefix("0x").or_else(|| before.strip_prefix("0X")).unwrap_or(before);
        let digits = digits.strip_suffix(['h', 'H']).unwrap_or(digits);
        let apart = digits.len() > 2 || rest.is_empty() || rest.starts_with([' ', '\t']);
        if is_hex(digits) && (1..=16).contains(&digits.len()) && apart {
            return Some(Offset { digits, rest: rest.trim_start(), colon: true });
        }
    }
    let (digits, rest) = line.split_once([' ', '\t']).unwrap_or((line, ""));
    let rest = rest.trim_start();
    let next = rest.split_whitespace().next().unwrap_or("");
    // Bytes may be written in one row of digits too: then the digits are even in number, and no byte stands alone after them.
    let odd = digits.len() % 2 == 1 && !next.is_empty();
    let even = next.len() == 2 && is_hex(next) && u64::from_str_radix(digits, 16).is_ok_and(|value| value % 8 == 0);
    let starts = is_hex(digits) && (6..=16).contains(&digits.len()) && (odd || even);
    starts.then_some(Offset { digits, rest, colon: false })
}

enum Row<'a> {
    /// `*`: lines like the one before it are left out.
    Repeated,
    Bytes {
        offset: u64,
        rest: &'a str,
        colon: bool,
    },
}

fn bytes_of_dump(lines: &[(usize, &str)]) -> Result<Vec<u8>, Fault> {
    let rows = rows_of(lines, 16)?;
    match rows_of(lines, 8) {
        Ok(octal) if counts_in_octal(&rows, &octal) => bytes_of_rows(&octal),
        _ => bytes_of_rows(&rows),
    }
}

/// Whether the first line has as many bytes as its offset and the next say in octal digits, as od counts, and not in hexadecimal ones.
fn counts_in_octal(hexadecimal: &[(usize, Row<'_>)], octal: &[(usize, Row<'_>)]) -> bool {
    let step = |rows: &[(usize, Row<'_>)]| match rows {
        [(_, Row::Bytes { offset, colon: false, .. }), (_, Row::Bytes { offset: next, .. }), ..] => next.checked_sub(*offset),
        _ => None,
    };
    let found = match octal {
        [(_, Row::Bytes { rest, .. }), ..] => bytes_of_row(rest, false, None, None).ok().map(|read| read.bytes.len() as u64),
        _ => None,
    };
    found.is_some() && step(octal) == found && step(hexadecimal) != found
}

fn rows_of<'a>(lines: &[(usize, &'a str)], radix: u32) -> Result<Vec<(usize, Row<'a>)>, Fault> {
    let mut rows: Vec<(usize, Row<'_>)> = Vec::new();
    for &(number, line) in lines {
        let trimmed = line.trim();
        if trimmed.is_empty() || is_remark(line) {
            continue;
        }
        if trimmed == "*" {
            rows.push((number, Row::Repeated));
            continue;
        }
        // The last line of hexdump and od is an offset alone.
        let offset = offset_of(line).or_else(|| is_hex(trimmed).then_some(Offset { digits: trimmed, rest: "", colon: false }));
        let Some(Offset { digits, rest, colon }) = offset else {
            return Err(Fault::at(number, format!("{} is no offset, with which the lines before begin", quoted(first_word(trimmed)))));
        };
        let value = u64::from_str_radix(digits, radix).map_err(|_| Fault::at(number, format!("{} is no offset", quoted(digits))))?;
        rows.push((number, Row::Bytes { offset: value, rest, colon }));
    }
    Ok(rows)
}

fn first_word(line: &str) -> &str {
    line.split_whitespace().next().unwrap_or("")
}

fn bytes_of_rows(rows: &[(usize, Row<'_>)]) -> Result<Vec<u8>, Fault> {
    let mut bytes: Vec<u8> = Vec::new();
    let mut base = None;
    let mut latest: Vec<u8> = Vec::new();
    // Where the digits of a full line end, if a column of text follows them.
    let mut digits_end = None;
    let mut repeats = false;
    for (place, (number, row)) in rows.iter().enumerate() {
        let Row::Bytes { offset, rest, colon } = row else {
            repeats = true;
            if latest.is_empty() {
                return Err(Fault::at(*number, "'*' repeats a line, and none stands before it"));
            }
            continue;
        };
        let base = *base.get_or_insert(*offset);
        let wanted = offset.checked_sub(base).and_then(|wanted| usize::try_from(wanted).ok());
        if repeats {
            repeats = false;
            while wanted.is_some_and(|wanted| bytes.len() < wanted && wanted <= MOST_BYTES) {
                bytes.extend_from_slice(&latest);
            }
        }
        if wanted != Some(bytes.len()) {
            return Err(Fault::at(
                *number,
                format!("the offset {offset:X}h stands where {:X}h was due", base.wrapping_add(bytes.len() as u64)),
            ));
        }
        let next = rows.get(place + 1).map(|(_, row)| row);
        let count = match next {
            Some(Row::Bytes { offset: after, .. }) => Some(usize::try_from(after.saturating_sub(*offset)).unwrap_or(usize::MAX)),
            Some(Row::Repeated) if !latest.is_empty() => Some(latest.len()),
            _ => None,
        };
        let read = bytes_of_row(rest, *colon, count, digits_end).map_err(|what| Fault::at(*number, what))?;
        if read.text && count.is_some() {
            digits_end = digits_end.max(Some(read.digits_end));
        }
        latest = read.bytes;
        bytes.extend_from_slice(&latest);
        if bytes.len() > MOST_BYTES {
            return Err(Fault::at(*number, "more than 1,048,576 bytes"));
        }
    }
    Ok(bytes)
}

struct RowRead {
    bytes: Vec<u8>,
    /// Whether a column of text follows the digits, and where the digits end.
    text: bool,
    digits_end: usize,
}

/// The bytes of a line of a dump behind its offset. `count`: how many the next offset asks; `cut`: where the digits end in lines before.
fn bytes_of_row(rest: &str, colon: bool, count: Option<usize>, cut: Option<usize>) -> Result<RowRead, String> {
    let before_bar = rest.split('|').next().unwrap_or(rest);
    let mut read = RowRead { bytes: Vec::new(), text: before_bar.len() < rest.len(), digits_end: 0 };
    let mut groups = Vec::new();
    let mut at = 0;
    let separates = |character: char| character.is_whitespace() || character == ',' || character == ';';
    while let Some(start) = before_bar[at..].find(|character| !separates(character)).map(|found| at + found) {
        let end = before_bar[start..].find(separates).map_or(before_bar.len(), |found| start + found);
        let (gap, word) = (start - at, &before_bar[start..end]);
        let complete = count.is_some_and(|count| read.bytes.len() >= count);
        // In the last line the offsets do not say how many bytes there are: the text begins where it did before, or, in the only line, at a
        // gap, which may also stand in the middle of sixteen single bytes.
        let beyond = count.is_none() && cut.is_some_and(|cut| start >= cut);
        let behind_gap =
            count.is_none() && cut.is_none() && gap > 1 && at > 0 && !(word.len() == 2 && is_hex(word) && read.bytes.len() == 8);
        // The next offset then says that bytes are missing.
        let no_byte = gap > 1 && at > 0 && bytes_of_word(word).is_err();
        let remark = word.starts_with("//") || word.starts_with('#') || word.starts_with("/*");
        if complete && gap == 1 && groups.last().is_some_and(|&bytes| is_hex(word) && word.len() == 2 * bytes) {
            return Err(format!("{} stands behind as many bytes as the next offset allows", quoted(word)));
        }
        if complete || beyond || behind_gap || no_byte || (remark && !read.bytes.is_empty()) {
            read.text = true;
            check_order(&read.bytes, &groups, &before_bar[start..])?;
            break;
        }
        let group = bytes_of_group(word, colon)?;
        groups.push(group.len());
        read.bytes.extend(group);
        read.digits_end = end;
        at = end;
    }
    // hexdump prints a last odd byte as a word.
    if let Some(count) = count.filter(|&count| !colon && read.bytes.len() == count + 1 && groups.last() == Some(&2)) {
        read.bytes.truncate(count);
    }
    Ok(read)
}

fn bytes_of_group(word: &str, colon: bool) -> Result<Vec<u8>, String> {
    if !colon && is_hex(word) && word.len() > 4 {
        return Err(format!("{} is neither a byte nor a word of four digits: dump single bytes, as xxd or hexdump -C do", quoted(word)));
    }
    let mut bytes = bytes_of_word(word)?;
    if !colon && bytes.len() == 2 {
        bytes.reverse();
    }
    Ok(bytes)
}

/// Refuses groups with their lowest byte first, as `xxd -e` prints: the column of text then agrees with them turned round, and not as they are.
fn check_order(bytes: &[u8], groups: &[usize], text: &str) -> Result<(), String> {
    let shown =
        |bytes: &[u8]| -> String { bytes.iter().map(|&byte| if (0x20..0x7F).contains(&byte) { char::from(byte) } else { '.' }).collect() };
    let mut turned = Vec::new();
    let mut from = 0;
    for &group in groups {
        turned.extend(bytes[from..from + group].iter().rev());
        from += group;
    }
    let text = text.trim();
    if shown(bytes).trim() != text && shown(&turned).trim() == text {
        return Err("the groups have their lowest byte first: dump single bytes, as xxd or hexdump -C do".to_string());
    }
    Ok(())
}

// ---- Lists of bytes --------------------------------------------------------------------------------------------------------------------

/// A mark or a word of a list, with its line.
struct Piece {
    line: usize,
    word: String,
}

fn bytes_of_list(text: &str) -> Result<Vec<u8>, Fault> {
    let pieces = pieces_of(text)?;
    // What is assigned, and of that what stands in brackets or in quotes.
    let assigned = pieces.iter().position(|piece| piece.word == "=").map_or(0, |place| place + 1);
    let pieces = &pieces[assigned..];
    let (pieces, array) = match bracketed(pieces, "{", "}")? {
        Some(inner) => (inner, true),
        None => match bracketed(pieces, "[", "]")? {
            Some(inner) => (inner, true),
            None => (pieces, false),
        },
    };
    let quotes = pieces.iter().any(|piece| piece.word == "\"");
    let mut inside = !quotes;
    let mut words = Vec::new();
    for piece in pieces {
        match piece.word.as_str() {
            "\"" => inside = !inside,
            "{" | "}" | "[" | "]" | "(" | ")" if array => {}
            _ if inside => words.push(piece),
            _ => {}
        }
    }
    let prefixed = words.iter().any(|piece| piece.word.starts_with("0x") || piece.word.starts_with("0X"));
    let surely_hex = !prefixed
        && words.iter().all(|piece| piece.word.len() == 2 && is_hex(&piece.word))
        && words.iter().any(|piece| piece.word.bytes().any(|byte| byte.is_ascii_alphabetic()));
    let mut bytes = Vec::new();
    for Piece { line, word } in words {
        let decimal = word.bytes().all(|byte| byte.is_ascii_digit());
        if array && !quotes && decimal && word.len() > 1 && !surely_hex {
            return Err(Fault::at(*line, format!("{} in an array may be decimal: write its bytes with 0x", quoted(word))));
        }
        bytes.extend(bytes_of_word(word).map_err(|what| Fault::at(*line, what))?);
    }
    Ok(bytes)
}

/// What stands between the first opening bracket and the one that closes it; none where there is no opening one.
fn bracketed<'a>(pieces: &'a [Piece], open: &str, close: &str) -> Result<Option<&'a [Piece]>, Fault> {
    let Some(first) = pieces.iter().position(|piece| piece.word == open) else {
        return Ok(None);
    };
    let mut depth = 0usize;
    for (place, piece) in pieces.iter().enumerate().skip(first) {
        if piece.word == open {
            depth += 1;
        } else if piece.word == close {
            depth -= 1;
            if depth == 0 {
                return match pieces[place..].iter().find(|piece| piece.word == open) {
                    Some(second) => Err(Fault::at(second.line, "a second array begins: give one profile to a file")),
                    None => Ok(Some(&pieces[first + 1..place])),
                };
            }
        }
    }
    Err(Fault::at(pieces[first].line, format!("this {open} has no {close}")))
}

/// The words and marks of a list, without comments and separators.
fn pieces_of(text: &str) -> Result<Vec<Piece>, Fault> {
    let mut pieces = Vec::new();
    let mut comment = None;
    for (place, line) in text.lines().enumerate() {
        let number = place + 1;
        let mut rest = line.trim_start();
        if let Some(definition) = rest.strip_prefix("#define") {
            // The name that is defined is dropped.
            rest = definition.trim_start().split_once([' ', '\t']).map_or("", |(_, value)| value);
        } else if comment.is_none() && rest.starts_with(';') {
            continue;
        }
        let mut word = String::new();
        let mut push = |word: &mut String| {
            if !word.is_empty() {
                pieces.push(Piece { line: number, word: std::mem::take(word) });
            }
        };
        while let Some(character) = rest.chars().next() {
            let mut taken = character.len_utf8();
            if comment.is_some() {
                if rest.starts_with("*/") {
                    (comment, taken) = (None, 2);
                }
            } else if rest.starts_with("/*") {
                push(&mut word);
                (comment, taken) = (Some(number), 2);
            } else if rest.starts_with("//") || character == '#' {
                break;
            } else if rest.starts_with("\\x") {
                push(&mut word);
                word.push_str("0x");
                taken = 2;
            } else {
                match character {
                    ',' | ';' | ':' | '-' | '\\' => push(&mut word),
                    '{' | '}' | '[' | ']' | '(' | ')' | '=' | '"' | '\'' => {
                        // The b of b"..", a string of bytes, is no digit.
                        if matches!(character, '"' | '\'') && word.eq_ignore_ascii_case("b") {
                            word.clear();
                        }
                        push(&mut word);
                        word.push(if character == '\'' { '"' } else { character });
                        push(&mut word);
                    }
                    _ if character.is_whitespace() => push(&mut word),
                    _ => word.push(character),
                }
            }
            rest = &rest[taken..];
        }
        push(&mut word);
    }
    comment.map_or(Ok(pieces), |line| Err(Fault::at(line, "this /* has no */")))
}

/// The bytes of one word: `3F`, `0x3F`, `3Fh`, `$3F`, a single digit, or an even number of digits.
fn bytes_of_word(word: &str) -> Result<Vec<u8>, String> {
    let prefix = ["0x", "0X", "$"].iter().find_map(|prefix| word.strip_prefix(prefix));
    let prefixed = prefix.map(|digits| digits.trim_end_matches(['u', 'U', 'l', 'L']));
    let suffixed = word.strip_suffix(['h', 'H']).map(|digits| digits.strip_prefix('0').filter(|less| less.len() == 2).unwrap_or(digits));
    if let Some(digits) = prefixed.or(suffixed) {
        return match digits.len() {
            1 | 2 if is_hex(digits) => Ok(vec![u8::from_str_radix(digits, 16).unwrap_or(0)]),
            3.. if is_hex(digits) => Err(format!("{} is more than a byte", quoted(word))),
            _ => Err(format!("{} is no byte in hexadecimal digits", quoted(word))),
        };
    }
    if !is_hex(word) {
        return Err(format!("{} is no byte in hexadecimal digits", quoted(word)));
    }
    if word.len() > 1 && word.len() % 2 == 1 {
        return Err(format!("{} has an odd number of digits", quoted(word)));
    }
    let value = |pair: &[u8]| pair.iter().fold(0, |value, &digit| value << 4 | char::from(digit).to_digit(16).unwrap_or(0) as u8);
    Ok(word.as_bytes().chunks(2).map(value).collect())
}
