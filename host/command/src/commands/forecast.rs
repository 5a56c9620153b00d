//! `plus forecast FILE [START] [PRESCALE]`.

use super::Command;
use crate::failure::Failure;
use crate::files::Files;
use crate::given::Given;
use crate::numbers::{decimal, hexadecimal};
use crate::output::Output;
use crate::sound::{put, TOO_LONG};
use crate::Done;
use plus::listing::words_of;
use plus::{Answer, Length, RAM};
use std::path::Path;

/// Where a list begins, if nothing else is said.
pub const START: u16 = 0x8000;

/// Lines of a frame, and microseconds of a line.
const FRAME: u64 = 312;
const LINE: u64 = 64;

pub const COMMAND: Command = Command {
    name: "forecast",
    run,
};

fn run(given: &Given, output: &mut Output) -> Done {
    let path = given.path(0);
    let start = start(given)?.unwrap_or(START);
    let prescale = prescale(given)?;
    let file = Files::of(given).first(path, TOO_LONG)?;
    let told = told(&ram(given, file, start)?, start, prescale, path)?;
    output.line(format_args!("lines {} cycles {}", told.lines, told.cycles))?;
    output.line(format_args!("most {}", told.most))?;
    output.line(time(told.lines))
}

/// The image that a file is, or one with the file's list in it.
fn ram(given: &Given, file: Vec<u8>, start: u16) -> Result<Vec<u8>, Failure> {
    let name = given.path(0).display();
    let wrong = |why| given.wrong(format!("'{name}' {why}"));
    if file.len() == RAM && words_of(&file).is_err() {
        return Ok(file);
    }
    let mut ram = vec![0; RAM];
    if let Some(doubt) = put(&mut ram, start, &file).map_err(wrong)? {
        given.note(format!("'{name}' is taken as words: {doubt}"));
    }
    Ok(ram)
}

/// The address that START names, if it is given.
pub fn start(given: &Given) -> Result<Option<u16>, Failure> {
    let named = given.argument(1).map(|digits| {
        let address = digits.to_str().and_then(|digits| hexadecimal(digits, 4));
        let wrong = || {
            let digits = digits.display();
            given.wrong(format!("'{digits}' is not one to four hexadecimal digits"))
        };
        address.map(|address| address as u16).ok_or_else(wrong)
    });
    named.transpose()
}

/// The number that PRESCALE is, or 0.
fn prescale(given: &Given) -> Result<u8, Failure> {
    let Some(digits) = given.argument(2) else {
        return Ok(0);
    };
    let number = digits.to_str().and_then(|digits| decimal(digits, 255));
    number.map(|number| number as u8).ok_or_else(|| {
        let digits = digits.display();
        given.wrong(format!("'{digits}' is not a number from 0 to 255"))
    })
}

/// The forecast of a file's list.
pub fn told(image: &[u8], start: u16, prescale: u8, path: &Path) -> Result<Length, Failure> {
    let told = plus::forecast(image, start, prescale);
    let name = path.display();
    let meaning = match told.answer {
        Answer::Done => return Ok(told),
        Answer::NoStop => format!("{name} has no STOP from {:04X}h on", start & 0xFFFE),
        _ => format!("{name} is not an image of {RAM} bytes"),
    };
    Err(Failure::refused(told.answer, meaning))
}

/// How long lines take: frames to the nearest hundredth, half of one up, and
/// milliseconds, which have no more than three places.
fn time(lines: u64) -> String {
    let hundredths = (100 * lines + FRAME / 2) / FRAME;
    let microseconds = LINE * lines;
    format!(
        "time {}.{:02} frames {}.{:03} ms",
        hundredths / 100,
        hundredths % 100,
        microseconds / 1000,
        microseconds % 1000
    )
}
