//! `plus export FILE OUT [--asm]`.

use super::Command;
use crate::asm;
use crate::files::Files;
use crate::given::Given;
use crate::output::Output;
use crate::scene;
use crate::Done;
use plus::{Answer, EXPORT};

pub const COMMAND: Command = Command {
    name: "export",
    run,
};

fn run(given: &Given, output: &mut Output) -> Done {
    let mut files = Files::of(given);
    let scene = scene::read(&mut files, given.path(0))?;
    let out = files.place(given.path(1))?;
    let mut bytes = [0; EXPORT];
    let answer = scene.played()?.chip.export(&mut bytes);
    debug_assert_eq!(answer, Answer::Done);
    match given.flag("--asm") {
        true => out.write(asm::registers(&bytes))?,
        false => out.write(bytes)?,
    }
    output.line(format_args!("{} registers", EXPORT / 3))
}
