//! The commands, and how one is chosen.

mod export;
mod forecast;
mod frame;
mod install;
mod list;
mod map;
mod mend;
mod play;
mod read;
mod records;
mod run;
mod scene;
mod take;

use crate::failure::Failure;
use crate::given::Given;
use crate::help;
use crate::output::Output;
use crate::Done;
use std::ffi::OsString;

/// A command: its name, and the function that does it. What it is given stands in
/// the help.
pub struct Command {
    pub name: &'static str,
    pub run: fn(&Given, &mut Output) -> Done,
}

const COMMANDS: &[Command] = &[
    forecast::COMMAND,
    list::COMMAND,
    read::COMMAND,
    mend::COMMAND,
    scene::COMMAND,
    run::COMMAND,
    take::COMMAND,
    records::COMMAND,
    play::COMMAND,
    frame::COMMAND,
    map::COMMAND,
    export::COMMAND,
    install::COMMAND,
];

/// The words after `plus` carried out.
pub fn run(words: &[OsString], output: &mut Output) -> Done {
    let Some((name, words)) = words.split_first() else {
        return Err(help::wrong("a command is missing"));
    };
    match name.to_str() {
        Some("help" | "--help" | "-h") => help::show(words, output),
        Some("--version" | "-V" | "version") => help::version(words, output),
        _ => Command::named(name)?.run(words, output),
    }
}

impl Command {
    /// The command of a name.
    pub fn named(name: &OsString) -> Result<&'static Command, Failure> {
        let unknown = || help::wrong(&format!("there is no command '{}'", name.display()));
        COMMANDS
            .iter()
            .find(|command| name == command.name)
            .ok_or_else(unknown)
    }

    /// The words after its name carried out.
    fn run(&'static self, words: &[OsString], output: &mut Output) -> Done {
        if words.iter().any(|word| word == "--help" || word == "-h") {
            return help::of(self, output);
        }
        (self.run)(&Given::of(self, words)?, output)
    }
}
