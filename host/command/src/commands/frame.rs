//! `plus frame FILE OUT.png`.

use super::Command;
use crate::failure::Failure;
use crate::files::Files;
use crate::frame::next_frame;
use crate::given::Given;
use crate::output::Output;
use crate::png;
use crate::scene;
use crate::Done;
use plus::LINE;

pub const COMMAND: Command = Command { name: "frame", run };

fn run(given: &Given, output: &mut Output) -> Done {
    let mut files = Files::of(given);
    let scene = scene::read(&mut files, given.path(0))?;
    let picture = files.place(given.path(1))?;
    let rows = next_frame(&mut scene.played()?).map_err(|answer| {
        let meaning = format!("{} leads to screen mode 3", given.path(0).display());
        Failure::refused(answer, meaning)
    })?;
    picture.write(png::encode(LINE, &rows))?;
    output.line(format_args!("{LINE} x {}", rows.len()))
}
