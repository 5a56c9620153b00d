//! `plus map FILE OUT.png`.

use super::Command;
use crate::files::Files;
use crate::given::Given;
use crate::map::drawn;
use crate::output::Output;
use crate::png;
use crate::scene;
use crate::Done;
use plus::List;

pub const COMMAND: Command = Command { name: "map", run };

fn run(given: &Given, output: &mut Output) -> Done {
    let mut files = Files::of(given);
    let scene = scene::read(&mut files, given.path(0))?;
    let picture = files.place(given.path(1))?;
    let chip = scene.played()?.chip;
    let Some((from, upto)) = chip.bounds() else {
        return output.line("no area");
    };
    let lists: Vec<List> = chip.lists().collect();
    let canvas = drawn((from, upto), &lists);
    picture.write(png::encode(canvas.width, &canvas.rows))?;
    output.line(format_args!("area {from:05X} {upto:05X}"))?;
    for List {
        handle,
        address,
        length,
    } in lists
    {
        output.line(format_args!("{handle} {address:04X} {length}"))?;
    }
    Ok(())
}
