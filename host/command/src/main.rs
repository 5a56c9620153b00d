//! The command `plus`: what a person asks of the proved core.

mod asm;
mod canvas;
mod commands;
mod failure;
mod files;
mod frame;
mod given;
mod help;
mod hint;
mod lines;
mod man;
mod map;
mod numbers;
mod output;
mod player;
mod png;
mod replace;
mod scene;
mod sound;

use failure::Failure;
use output::Output;
use std::env;
use std::ffi::OsString;
use std::process::ExitCode;

fn main() -> ExitCode {
    ignore_file_size_signal();
    let arguments: Vec<OsString> = env::args_os().skip(1).collect();
    let mut output = Output::default();
    let done = commands::run(&arguments, &mut output).and_then(|()| output.finish());
    match done {
        Ok(()) => ExitCode::SUCCESS,
        Err(failure) => failure.tell(),
    }
}

/// What a command gives: nothing but its output, or why there is none.
type Done = Result<(), Failure>;

/// A file that would become longer than it may is told as a failed write, as a
/// full disc is, and does not end the program.
fn ignore_file_size_signal() {
    const SIGXFSZ: i32 = 25;
    const SIG_IGN: usize = 1;
    extern "C" {
        fn signal(number: i32, handler: usize) -> usize;
    }
    // SAFETY: nothing of the program runs on that signal.
    unsafe { signal(SIGXFSZ, SIG_IGN) };
}
