//! `plus read TEXT OUT`.

use super::Command;
use crate::failure::Failure;
use crate::files::Files;
use crate::given::Given;
use crate::hint::hint;
use crate::output::Output;
use crate::sound::bytes;
use crate::Done;
use plus::listing::{words_of, BadLine};
use plus::Answer;
use std::path::Path;

pub const COMMAND: Command = Command { name: "read", run };

fn run(given: &Given, output: &mut Output) -> Done {
    let mut files = Files::of(given);
    let text = files.contents(given.path(0))?;
    let out = files.place(given.path(1))?;
    let words = words_of(&text).map_err(|bad| refused(bad, &text, given.path(0)))?;
    out.write(bytes(&words))?;
    output.line(format_args!("words {}", words.len()))
}

fn refused(BadLine(line): BadLine, text: &[u8], path: &Path) -> Failure {
    let (path, hint) = (path.display(), hint(text, line));
    Failure::Refused {
        answer: Answer::NotListing,
        place: Some(("line", line)),
        meaning: format!("that line of {path} is no word's: {hint}"),
    }
}
