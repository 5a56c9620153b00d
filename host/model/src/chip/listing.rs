//! A list of words as text, and such a text read back.

use super::sound::{kind_of, INT, LOOP, NOP, STOP};
use super::{answer, Kind};

/// The answer, and how many bytes of the text were written.
pub fn print(words: &[u16], text: &mut [u8]) -> (u8, usize) {
    let mut printed = Vec::with_capacity(text.len());
    for &word in words {
        put_line(&mut printed, word);
        if printed.len() > text.len() {
            return (answer::TOO_SMALL, 0);
        }
    }
    text[..printed.len()].copy_from_slice(&printed);
    (answer::DONE, printed.len())
}

/// The answer, how many words were written, and the first bad line's number.
pub fn read(text: &[u8], words: &mut [u16]) -> (u8, usize, usize) {
    let mut listed = Vec::with_capacity(words.len());
    for line in text.split_inclusive(|&byte| byte == b'\n') {
        match line.strip_suffix(b"\n").and_then(word_of) {
            Some(word) => listed.push(word),
            None => return (answer::NOT_LISTING, 0, listed.len() + 1),
        }
    }
    if listed.len() > words.len() {
        return (answer::TOO_SMALL, 0, 0);
    }
    words[..listed.len()].copy_from_slice(&listed);
    (answer::DONE, listed.len(), 0)
}

/// Whether a word has no name: other codes, and stray bits beside the three.
fn is_nameless(word: u16) -> bool {
    match kind_of(word) {
        Kind::Control => word & !(NOP | LOOP | INT | STOP) != 0,
        Kind::Nothing => true,
        _ => false,
    }
}

fn put_line(text: &mut Vec<u8>, word: u16) {
    if is_nameless(word) {
        text.extend(b"WORD ");
        put_hexadecimal(text, 4, word);
    } else {
        put_named(text, word);
    }
    text.push(b'\n');
}

/// A word that has a name, by its kind.
fn put_named(text: &mut Vec<u8>, word: u16) {
    let low = word & 0x0FFF;
    match kind_of(word) {
        Kind::Load => {
            text.extend(b"LOAD ");
            put_decimal(text, low >> 8);
            text.push(b' ');
            put_hexadecimal(text, 2, low);
        }
        Kind::Pause => {
            text.extend(b"PAUSE ");
            put_decimal(text, low);
        }
        Kind::Repeat => {
            text.extend(b"REPEAT ");
            put_decimal(text, low);
        }
        _ if low == 0 => text.extend(b"NOP"),
        _ => put_bits(text, low),
    }
}

/// The names of a control word's bits, with a plus sign between.
fn put_bits(text: &mut Vec<u8>, bits: u16) {
    let start = text.len();
    for (bit, name) in [(LOOP, "LOOP"), (INT, "INT"), (STOP, "STOP")] {
        if bits & bit == 0 {
            continue;
        }
        if text.len() > start {
            text.push(b'+');
        }
        text.extend(name.as_bytes());
    }
}

fn put_decimal(text: &mut Vec<u8>, number: u16) {
    if number >= 10 {
        put_decimal(text, number / 10);
    }
    text.push(b'0' + (number % 10) as u8);
}

/// The lowest digits of a number, so many.
fn put_hexadecimal(text: &mut Vec<u8>, digits: u16, number: u16) {
    for place in (0..digits).rev() {
        let digit = number >> (4 * place) & 15;
        text.push(b"0123456789ABCDEF"[digit as usize]);
    }
}

/// The word that has this line, LF left out.
fn word_of(line: &[u8]) -> Option<u16> {
    let mut parts = line.splitn(2, |&byte| byte == b' ');
    match (parts.next()?, parts.next()) {
        (b"LOAD", Some(rest)) => load_of(rest),
        (b"PAUSE", Some(rest)) => Some(0x1000 | decimal_of(rest, 0x0FFF)?),
        (b"REPEAT", Some(rest)) => Some(0x2000 | decimal_of(rest, 0x0FFF)?),
        (b"WORD", Some(rest)) => hexadecimal_of(rest, 4).filter(|&word| is_nameless(word)),
        (b"NOP", None) => Some(NOP),
        (b"LOOP", None) => Some(NOP | LOOP),
        (b"INT", None) => Some(NOP | INT),
        (b"STOP", None) => Some(NOP | STOP),
        (b"LOOP+INT", None) => Some(NOP | LOOP | INT),
        (b"LOOP+STOP", None) => Some(NOP | LOOP | STOP),
        (b"INT+STOP", None) => Some(NOP | INT | STOP),
        (b"LOOP+INT+STOP", None) => Some(NOP | LOOP | INT | STOP),
        _ => None,
    }
}

/// A LOAD by its register and data, with a blank between.
fn load_of(text: &[u8]) -> Option<u16> {
    let blank = text.iter().position(|&byte| byte == b' ')?;
    let register = decimal_of(&text[..blank], 15)?;
    let data = hexadecimal_of(&text[blank + 1..], 2)?;
    Some(register << 8 | data)
}

/// A number up to `most`, with no zero before another digit.
fn decimal_of(text: &[u8], most: u16) -> Option<u16> {
    if text.is_empty() || text.len() > 4 || text.len() > 1 && text[0] == b'0' {
        return None;
    }
    let mut number = 0;
    for &digit in text {
        if !digit.is_ascii_digit() {
            return None;
        }
        number = 10 * number + u16::from(digit - b'0');
    }
    (number <= most).then_some(number)
}

/// A number of so many digits.
fn hexadecimal_of(text: &[u8], digits: usize) -> Option<u16> {
    if text.len() != digits {
        return None;
    }
    let mut number = 0;
    for &digit in text {
        let value = match digit {
            b'0'..=b'9' => digit - b'0',
            b'A'..=b'F' => digit - b'A' + 10,
            _ => return None,
        };
        number = 16 * number + u16::from(value);
    }
    Some(number)
}
