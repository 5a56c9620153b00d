//! `plus play RAM STORE TAKE [AFTER] [--table FILE]`.

use super::Command;
use crate::failure::Failure;
use crate::files::Files;
use crate::given::Given;
use crate::lines::digits;
use crate::output::Output;
use crate::Done;
use plus::take::{replay, Refused, Replayed};
use plus::{Answer, Channel, Chip, Counters, Editor, Registers, Table, EXPORT, RAM, STORE, TABLE};
use std::path::Path;

pub const COMMAND: Command = Command { name: "play", run };

fn run(given: &Given, output: &mut Output) -> Done {
    let paths = [given.path(0), given.path(1), given.path(2)];
    let mut files = Files::of(given);
    let (ram, mut store) = (files.contents(paths[0])?, files.contents(paths[1])?);
    let take = files.contents(paths[2])?;
    let table = table(given, &mut files)?;
    let after = given.argument(3).map(|path| files.place(Path::new(path)));
    let after = after.transpose()?;
    let played = replay(&ram, &mut store, table, &take)
        .served()
        .map_err(|refused| failure(refused, ram.len(), &paths))?;
    if let Some(after) = after {
        after.write(&store)?;
    }
    print(&played, output)
}

/// The table that the starts give: that of the option's file, or all 0.
fn table(given: &Given, files: &mut Files) -> Result<Table, Failure> {
    let Some(path) = given.option("--table").map(Path::new) else {
        return Ok(Table::default());
    };
    // A byte more than it has, to see whether there is one.
    let bytes = files.first(path, TABLE as u64 + 1)?;
    let bytes: [u8; TABLE] = bytes.try_into().map_err(|_| {
        let path = path.display();
        given.wrong(format!("'{path}' is not a table of {TABLE} bytes"))
    })?;
    Ok(Table::from(bytes))
}

/// A refusal, with the file that it is about.
fn failure(refused: Refused, ram: usize, inputs: &[&Path]) -> Failure {
    if refused.answer != Answer::WrongLength {
        return Failure::refused_take(refused, inputs[2]);
    }
    let meaning = match ram {
        RAM => format!("{} is not a store of {STORE} bytes", inputs[1].display()),
        _ => format!("{} is not an image of {RAM} bytes", inputs[0].display()),
    };
    Failure::refused(refused.answer, meaning)
}

/// What the replay gave, a part a line.
fn print(played: &Replayed, output: &mut Output) -> Done {
    let chip = &played.chip;
    output.line(format_args!("lines {}", played.lines))?;
    for (number, count) in played.counts.iter().enumerate() {
        if *count > 0 {
            output.line(format_args!("counted {number} {count}"))?;
        }
    }
    let psg = chip.sound.psg.map(|byte| format!(" {byte:02X}")).concat();
    output.line(format_args!("psg{psg}"))?;
    for (n, channel) in chip.sound.channels.iter().enumerate() {
        output.line(format_args!("channel {n} {}", of_channel(channel)))?;
    }
    let (selected, registers) = (chip.crtc.selected, of_registers(&chip.crtc.registers));
    output.line(format_args!("crtc selected={selected} {registers}"))?;
    output.line(format_args!("line {}", of_counters(&chip.crtc.counters)))?;
    print_rest(chip, output)
}

/// The lines after that of the picture.
fn print_rest(chip: &Chip, output: &mut Output) -> Done {
    let (raster, last) = (chip.interrupts.raster, chip.interrupts.last_raster);
    output.line(format_args!(
        "interrupts raster={} last_raster={}",
        u8::from(raster),
        u8::from(last)
    ))?;
    output.line(format_args!(
        "gate mode={} mapped={} unlocked={}",
        chip.gate.mode,
        u8::from(chip.gate.mapped),
        u8::from(chip.lock.unlocked)
    ))?;
    let [song, picture] = Editor::BOTH.map(|editor| chip.record(editor).count());
    output.line(format_args!("undo {song} {picture}"))?;
    let mut out = [0; EXPORT];
    let answer = chip.export(&mut out);
    debug_assert_eq!(answer, Answer::Done);
    output.line(format_args!("export {}", digits(&out)))
}

fn of_channel(channel: &Channel) -> String {
    let Channel {
        enabled,
        interrupt,
        address,
        prescale,
        pause,
        count,
        counter,
        mark,
        muted,
    } = *channel;
    let [enabled, interrupt, muted] = [enabled, interrupt, muted].map(u8::from);
    format!(
        "enabled={enabled} interrupt={interrupt} address={address:04X} prescale={prescale} \
         pause={pause} count={count} counter={counter} mark={mark:04X} muted={muted}"
    )
}

fn of_registers(registers: &Registers) -> String {
    let Registers {
        r1,
        r4,
        r5,
        r6,
        r9,
        r12,
        r13,
    } = registers;
    format!("r1={r1} r4={r4} r5={r5} r6={r6} r9={r9} r12={r12} r13={r13}")
}

fn of_counters(counters: &Counters) -> String {
    let Counters {
        vc,
        rc,
        adjust,
        address,
        held,
        split,
    } = *counters;
    let (adjust, held) = (u8::from(adjust), u8::from(held));
    format!("vc={vc} rc={rc} adjust={adjust} address={address:04X} held={held} split={split:04X}")
}
