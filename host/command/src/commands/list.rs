//! `plus list FILE [START] [--asm]`.

use super::forecast::{start, told, START};
use super::Command;
use crate::asm;
use crate::failure::Failure;
use crate::files::Files;
use crate::given::Given;
use crate::output::Output;
use crate::sound::words;
use crate::Done;
use plus::{listing, RAM};

pub const COMMAND: Command = Command { name: "list", run };

fn run(given: &Given, output: &mut Output) -> Done {
    let start = start(given)?;
    let file = Files::of(given).contents(given.path(0))?;
    let words = words(listed(given, &file, start)?);
    match given.flag("--asm") {
        true => output.text(asm::words(&words).as_bytes()),
        false => output.text(&listing::text_of(&words)),
    }
}

/// The part of a file that is printed.
fn listed<'a>(given: &Given, file: &'a [u8], start: Option<u16>) -> Result<&'a [u8], Failure> {
    let path = given.path(0);
    let wrong = |why| given.wrong(format!("'{}' {why}", path.display()));
    if file.len() == RAM {
        let told = told(file, start.unwrap_or(START), 0, path)?;
        return Ok(told.list(file));
    }
    if file.len() % 2 == 1 {
        return Err(wrong("has an odd number of bytes"));
    }
    if start.is_some() {
        return Err(wrong("is not an image of RAM, and takes no START"));
    }
    Ok(file)
}
