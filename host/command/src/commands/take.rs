//! `plus take RECORDS OUT [COMMENT]`.

use super::Command;
use crate::failure::Failure;
use crate::files::Files;
use crate::given::Given;
use crate::output::Output;
use crate::Done;
use plus::take::{file_of, Record};
use std::path::Path;
use std::str::{self, FromStr};

pub const COMMAND: Command = Command { name: "take", run };

fn run(given: &Given, _: &mut Output) -> Done {
    let (text, out) = (given.path(0), given.path(1));
    let mut files = Files::of(given);
    let records = files.contents(text)?;
    let comment = match given.argument(2) {
        Some(path) => files.contents(Path::new(path))?,
        None => vec![],
    };
    let place = files.place(out)?;
    let records = records_of(&records)
        .map_err(|line| given.wrong(format!("line {line} of '{}' is no record", text.display())))?;
    let file = file_of(&comment, &records).map_err(|refused| {
        let named = if refused.record == 0 { out } else { text };
        Failure::refused_take(refused, named)
    })?;
    place.write(file)
}

/// The records of a text, or the number of its first line that is none.
fn records_of(text: &[u8]) -> Result<Vec<Record>, usize> {
    let lines = text.split_inclusive(|&byte| byte == b'\n');
    (1..)
        .zip(lines)
        .map(|(number, line)| record_of(line).ok_or(number))
        .collect()
}

/// The record of a line, LF and all.
fn record_of(line: &[u8]) -> Option<Record> {
    let line = str::from_utf8(line).ok()?.strip_suffix('\n')?;
    let mut numbers = line.split(' ');
    let record = Record {
        line: number(numbers.next()?)?,
        kind: number(numbers.next()?)?,
        address: number(numbers.next()?)?,
        value: number(numbers.next()?)?,
    };
    numbers.next().is_none().then_some(record)
}

/// A number in decimal, as it is printed.
fn number<N: FromStr>(digits: &str) -> Option<N> {
    let plain = digits.bytes().all(|digit| digit.is_ascii_digit());
    if !plain || digits.len() > 1 && digits.starts_with('0') {
        return None;
    }
    digits.parse().ok()
}
