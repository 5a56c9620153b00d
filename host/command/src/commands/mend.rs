//! `plus mend WORDS OUT`.

use super::Command;
use crate::files::Files;
use crate::given::Given;
use crate::output::Output;
use crate::sound::{bytes, words};
use crate::Done;
use plus::mend::{mend_list, Change};

pub const COMMAND: Command = Command { name: "mend", run };

fn run(given: &Given, output: &mut Output) -> Done {
    let path = given.path(0);
    let mut files = Files::of(given);
    let file = files.contents(path)?;
    let out = files.place(given.path(1))?;
    if file.len() % 2 == 1 {
        let what = format!("'{}' has an odd number of bytes", path.display());
        return Err(given.wrong(what));
    }
    let mut words = words(&file);
    let changes = mend_list(&mut words);
    out.write(bytes(&words))?;
    for Change { place, old, new } in changes {
        output.line(format_args!("{place} {old:04X} {new:04X}"))?;
    }
    output.line(format_args!("words {}", words.len()))
}
