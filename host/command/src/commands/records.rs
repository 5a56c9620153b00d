//! `plus records TAKE`.

use super::Command;
use crate::failure::Failure;
use crate::files::Files;
use crate::given::Given;
use crate::output::Output;
use crate::Done;
use plus::take::{Record, Take};

pub const COMMAND: Command = Command {
    name: "records",
    run,
};

fn run(given: &Given, output: &mut Output) -> Done {
    let path = given.path(0);
    let file = Files::of(given).contents(path)?;
    let take = Take::open(&file).map_err(|refused| Failure::refused_take(refused, path))?;
    output.line(format_args!("comment {}", take.comment().len()))?;
    for record in take.records() {
        let Record {
            line,
            kind,
            address,
            value,
        } = record;
        output.line(format_args!("{line} {kind} {address} {value}"))?;
    }
    Ok(())
}
