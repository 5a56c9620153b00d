//! Why a line of a listing is no word's. The core's reader only says which line it
//! is; what is said here decides nothing.

use plus::listing::{text_of, words_of};
use std::borrow::Cow;

/// What the first bad line of a text has that no word's line has, in a few words.
pub fn hint(text: &[u8], line: usize) -> String {
    let Some(found) = text.split_inclusive(|&byte| byte == b'\n').nth(line - 1) else {
        return "it is empty".to_string();
    };
    let (mended, faults) = mended(found);
    if is_word(&mended) {
        return faults.join(", ");
    }
    form(&mended)
}

/// The number of a text's first bad line and its hint, if it is a listing but for
/// such faults: a line of it is a word's, or would be without them.
pub fn near(text: &[u8], line: usize) -> Option<String> {
    let first = text.split_inclusive(|&byte| byte == b'\n').next()?;
    let listing = line > 1 || is_word(&mended(first).0);
    listing.then(|| format!("line {line} is no word's: {}", hint(text, line)))
}

/// Whether this is a word's line, but for its LF.
fn is_word(line: &str) -> bool {
    words_of(format!("{line}\n").as_bytes()).is_ok_and(|words| words.len() == 1)
}

/// A line without the faults that are often seen, and what these were.
fn mended(line: &[u8]) -> (String, Vec<String>) {
    let mut faults = vec![];
    let mut fault = |said: &str| faults.push(said.to_string());
    let mut rest = line;
    if let Some(after) = rest.strip_prefix(b"\xEF\xBB\xBF") {
        fault("it begins with a byte order mark");
        rest = after;
    }
    match rest.strip_suffix(b"\n") {
        Some(before) => rest = before,
        None => fault("it has no LF at its end"),
    }
    if let Some(before) = rest.strip_suffix(b"\r") {
        fault("it has a CR before its LF");
        rest = before;
    }
    let text = String::from_utf8_lossy(rest);
    let blanks = one_blank(&text);
    if blanks != text {
        fault("it has a blank too many");
    }
    let upper = blanks.to_ascii_uppercase();
    if upper != blanks {
        fault("it has lower case");
    }
    let plain = without_zeros(&upper);
    if plain != upper {
        fault("it has a zero before a number");
    }
    match named(&plain) {
        Some(name) => {
            fault(&format!("its word has a name, {name}"));
            (name, faults)
        }
        None => (plain.into_owned(), faults),
    }
}

/// One blank between the parts, and none elsewhere.
fn one_blank(line: &str) -> String {
    let parts: Vec<&str> = line.split([' ', '\t']).filter(|p| !p.is_empty()).collect();
    parts.join(" ").replace(" +", "+").replace("+ ", "+")
}

/// No zeros before the number in decimal that a line has.
fn without_zeros(line: &str) -> Cow<'_, str> {
    let mut parts: Vec<&str> = line.split(' ').collect();
    if let [kind @ ("LOAD" | "PAUSE" | "REPEAT"), number, ..] = &parts[..] {
        let last = number.len().saturating_sub(1);
        let zeros = number.bytes().take(last).take_while(|&d| d == b'0').count();
        let (kind, number) = (*kind, &number[zeros..]);
        parts[..2].copy_from_slice(&[kind, number]);
        return parts.join(" ").into();
    }
    line.into()
}

/// The line of a WORD that has another.
fn named(line: &str) -> Option<String> {
    let digits = line.strip_prefix("WORD ")?;
    let word = u16::from_str_radix(digits, 16).ok()?;
    let text = String::from_utf8(text_of(&[word])).ok()?;
    let name = text.trim_end();
    (digits.len() == 4 && name != line).then(|| name.to_string())
}

/// What the line of a word of this kind has.
fn form(line: &str) -> String {
    let kind = line.split([' ', '+']).next().unwrap_or("");
    match kind {
        "" => "it is empty",
        "LOAD" => "LOAD has a register from 0 to 15 and two hexadecimal digits",
        "PAUSE" | "REPEAT" => return format!("{kind} has a number from 0 to 4095"),
        "WORD" => "WORD has four hexadecimal digits",
        "LOOP" | "INT" | "STOP" | "NOP" => {
            "LOOP, INT and STOP are joined by + in this order, and NOP stands alone"
        }
        _ => "it begins with none of LOAD, PAUSE, REPEAT, LOOP, INT, STOP, NOP and WORD",
    }
    .to_string()
}
