//! Compares the core with the model: `compare [CALLS [SEED]]`, by default one
//! million calls from seed 1. The line's call is made with buffers of every other
//! length too, and those on lists for every set of reasons to refuse them and in every
//! run of a few in a small area; every word is printed, read and mended, a text for every five calls, a
//! take for every ten and a list mended for every fifty; for every hundred a session
//! is recorded and its takes played, and a list played on both beside what it is
//! mended to.

use std::env;
use std::process::ExitCode;
use std::time::Instant;

use model::compare::{compare, line, listing, lists, mend, replay, take};
use model::Model;
use plus::Chip;

fn main() -> ExitCode {
    let mut numbers = env::args().skip(1).map(|word| word.parse());
    let (count, seed) = match (
        numbers.next().unwrap_or(Ok(1_000_000)),
        numbers.next().unwrap_or(Ok(1)),
    ) {
        (Ok(count), Ok(seed)) => (count, seed),
        _ => {
            eprintln!("compare [CALLS [SEED]]");
            return ExitCode::from(2);
        }
    };
    let begun = Instant::now();
    match compared(count, seed) {
        Ok(()) => {
            println!("no difference, {:.1} s", begun.elapsed().as_secs_f64());
            ExitCode::SUCCESS
        }
        Err(difference) => {
            println!("{difference}");
            ExitCode::FAILURE
        }
    }
}

/// Prints what was compared, or gives the first difference.
fn compared(count: u64, seed: u64) -> Result<(), String> {
    let tally = compare::<Model>(count, seed).map_err(|difference| difference.to_string())?;
    print!("{tally}");
    let [_, lengths, _, _, mode, ..] = line::refusals::<Model>()?.answers;
    println!("lines refused with 1 by {lengths} sets of lengths and modes, with 4 by {mode}");
    lists::refusals::<Model>()?;
    let small = lists::small::<Model>((0x8000, 0x800C), 6)?;
    let (served, no_gap) = (small.place[0], small.place[20]);
    println!("{served} lists placed in a small area, and {no_gap} that had no gap");
    listing::each_word::<Model>()?;
    let answers = listing::changed_texts::<Model>(count / 5, seed)?;
    println!("{} texts, {} of them refused 7", count / 5, answers[7]);
    mended(count, seed)?;
    take::refusals::<Model>()?;
    let short = take::short_files::<Model>(count / 200, seed)?;
    let takes = take::changed_takes::<Model>(count / 10, seed)?;
    println!("{} takes, and each with a byte changed", count / 10);
    for (number, name) in [(11, "no trailer"), (12, "not met"), (13, "bad record")] {
        let times = short.opened[number] + takes.opened[number];
        println!("{name}: {times} of their files and of short ones");
    }
    let played = replay::sessions::<Model>(count / 100, seed)?;
    let (takes, lines) = (played.takes, played.lines);
    println!(
        "{takes} takes of {} sessions played, {lines} lines",
        count / 100
    );
    Ok(())
}

/// The same of lists that are mended.
fn mended(count: u64, seed: u64) -> Result<(), String> {
    mend::refusals::<Model>()?;
    mend::each_word::<Model>()?;
    let lists = mend::old_lists::<Model>(count / 50, seed)?;
    let (changes, added) = (lists.changes, lists.added);
    println!(
        "{} lists mended, {changes} changes, {added} of them a STOP",
        count / 50
    );
    for (number, name) in [
        (1, "too many in use"),
        (16, "no room for a STOP"),
        (17, "report too small"),
    ] {
        println!("{name}: {} times", lists.answers[number]);
    }
    for played in [
        mend::played::lists::<Chip>(count / 100, seed)?,
        mend::played::lists::<Model>(count / 100, seed)?,
    ] {
        let (stopped, ended, lines) = (played.stopped, played.ended, played.lines);
        println!("{stopped} lists played to a STOP and {ended} to their end, {lines} lines");
    }
    Ok(())
}
