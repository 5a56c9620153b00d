//! `plus scene TEXT OUT`.

use super::Command;
use crate::files::Files;
use crate::given::Given;
use crate::output::Output;
use crate::scene::text::{is_text, made};
use crate::scene::RECORD;
use crate::Done;
use plus::{RAM, STORE};

pub const COMMAND: Command = Command { name: "scene", run };

fn run(given: &Given, output: &mut Output) -> Done {
    let path = given.path(0);
    let mut files = Files::of(given);
    let text = files.contents(path)?;
    if !text.is_empty() && !is_text(&text) {
        return Err(given.wrong(format!("'{}' is no text", path.display())));
    }
    // The text is no output, nor is what it names.
    files.place(given.path(1))?;
    let scene = made(&mut files, path, &text)?;
    files.place(given.path(1))?.write(&scene)?;
    let records = (scene.len() - RAM - STORE) / RECORD;
    output.line(format_args!("records {records}"))
}
