//! `plus run FILE [--take OUT] [--table FILE]`.

use super::Command;
use crate::failure::Failure;
use crate::files::{Files, Place};
use crate::given::Given;
use crate::lines;
use crate::output::Output;
use crate::player::{Outcome, Player};
use crate::scene::{self, Record, Scene, Short};
use crate::Done;
use plus::take::file_of;
use plus::Answer;
use std::path::Path;

pub const COMMAND: Command = Command { name: "run", run };

fn run(given: &Given, output: &mut Output) -> Done {
    let out = given.option("--take").map(Path::new);
    if out.is_none() && given.flag("--table") {
        return Err(given.wrong("--table goes with --take"));
    }
    let mut files = Files::of(given);
    let scene = scene::read(&mut files, given.path(0))?;
    if let Some(out) = out {
        let (take, table) = (files.place(out)?, table_place(given, &files)?);
        if table.as_ref().is_some_and(|table| table.is(&take)) {
            let what = format!("'{}' is given for take and table", out.display());
            return Err(given.wrong(what));
        }
        save(&scene, &take, table.as_ref(), out)?;
    }
    let faults = played(&scene, output)?;
    output.finish()?;
    match faults.is_empty() {
        true => Ok(()),
        false => Err(scene.faulty(faults)),
    }
}

/// Prints the line of each record. What is wrong with the scene: the first record
/// whose letter is unknown, and that it ends early.
fn played(scene: &Scene, output: &mut Output) -> Result<Vec<String>, Failure> {
    let mut faults = vec![];
    if let Some(short) = each(scene, &mut faults, output)? {
        output.line(lines::SHORT)?;
        faults.push(short.to_string());
    }
    Ok(faults)
}

/// Each record, up to where the scene ends early, if it does.
fn each(
    scene: &Scene,
    faults: &mut Vec<String>,
    output: &mut Output,
) -> Result<Option<Short>, Failure> {
    let (mut player, records) = match scene.open() {
        Ok(opened) => opened,
        Err(short) => return Ok(Some(short)),
    };
    for (number, record) in (1..).zip(records) {
        let record = match record {
            Ok(record) => record,
            Err(short) => return Ok(Some(short)),
        };
        let outcome = player.play(record);
        if matches!(outcome, Outcome::Bad) && faults.is_empty() {
            let letter = record.op.escape_ascii();
            faults.push(format!(
                "record number {number} has the unknown letter '{letter}'"
            ));
        }
        output.line(outcome)?;
    }
    Ok(None)
}

/// Where the table goes, if it is asked for.
fn table_place(given: &Given, files: &Files) -> Result<Option<Place>, Failure> {
    let path = given.option("--table").map(Path::new);
    path.map(|path| files.place(path)).transpose()
}

/// Saves the take of a scene, and before it the table that its starts give if there
/// is a place for that. A scene that ends early has none, which is said when it is
/// played.
fn save(scene: &Scene, place: &Place, table: Option<&Place>, out: &Path) -> Done {
    let no_take = |why| Failure::NoTake {
        path: scene.path.clone(),
        why,
    };
    let Some(player) = recorded(scene).map_err(no_take)? else {
        return Ok(());
    };
    let records = player
        .chip
        .records()
        .map_err(|why| no_take(why.to_string()))?;
    let take = file_of(&[], records).map_err(|refused| Failure::refused_take(refused, out))?;
    if let Some(table) = table {
        table.write(player.chip.given_table().bytes())?;
    }
    place.write(take)
}

/// A scene played for its take, if it does not end early. Or the record for which it
/// has none.
fn recorded(scene: &Scene) -> Result<Option<Player>, String> {
    let Ok((mut player, records)) = scene.open() else {
        return Ok(None);
    };
    for (number, record) in (1..).zip(records) {
        let Ok(record) = record else {
            return Ok(None);
        };
        let outcome = player.play(record);
        if let Some(why) = takeless(record, &outcome) {
            return Err(format!("record number {number} {why}"));
        }
    }
    Ok(Some(player))
}

/// Why no take can hold what a record has done, if it is so.
fn takeless(record: Record, outcome: &Outcome) -> Option<&'static str> {
    match (record.op, outcome) {
        (b'M', _) => Some("changes RAM"),
        (b'Z', _) => Some("resets"),
        (_, Outcome::Placed(Answer::Done, _)) => Some("places a list in RAM"),
        _ => None,
    }
}
