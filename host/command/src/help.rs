//! What `plus help` shows, and what wrong use is told.

use crate::commands::Command;
use crate::failure::Failure;
use crate::output::Output;
use crate::Done;
use std::ffi::OsString;
use std::iter;

/// What all commands have in common, and then of each command, in the order of
/// the overview: `# ` with its name and what it is given, what it does in a line,
/// and all that there is to know of it; last `help` and `--version`, of which no
/// more is to be known. The script `plus` shows the same text before anything is
/// built.
const TEXT: &str = include_str!("../help.txt");

/// What the text says of a command.
#[derive(Clone, Copy)]
pub struct Entry {
    /// Its name, and what it is given: in brackets what may be left out, there
    /// with two dashes an option, and the word after it if it takes one.
    pub call: &'static str,
    /// What it does, in a line.
    pub about: &'static str,
    /// All that there is to know of it.
    pub details: &'static str,
}

/// What all commands have in common.
pub fn common() -> &'static str {
    TEXT.split("\n# ").next().unwrap_or("").trim_end()
}

/// The commands, in the order of the overview.
pub fn entries() -> impl Iterator<Item = Entry> {
    TEXT.split("\n# ").skip(1).map(|text| {
        let (call, rest) = text.split_once('\n').unwrap_or((text, ""));
        let (about, details) = rest.split_once("\n\n").unwrap_or((rest.trim_end(), ""));
        Entry {
            call,
            about,
            details: details.trim_end(),
        }
    })
}

impl Entry {
    /// That of a command.
    pub fn of(command: &Command) -> Entry {
        let named = |entry: &Entry| entry.name() == command.name;
        let found = entries().find(named);
        found.expect("the text has every command")
    }

    pub fn name(&self) -> &'static str {
        self.call.split(' ').next().unwrap_or("")
    }

    /// What the command is given, each with its brackets.
    pub fn parts(&self) -> impl Iterator<Item = &'static str> {
        let mut rest = self.call[self.name().len()..].trim_start();
        iter::from_fn(move || {
            let end = match rest.find(if rest.starts_with('[') { ']' } else { ' ' }) {
                Some(at) if rest.starts_with('[') => at + 1,
                Some(at) => at,
                None => rest.len(),
            };
            let (part, after) = rest.split_at(end);
            rest = after.trim_start();
            (!part.is_empty()).then_some(part)
        })
    }

    fn usage(&self) -> String {
        format!("usage: plus {}", self.call)
    }
}

/// `plus help [COMMAND]`.
pub fn show(words: &[OsString], output: &mut Output) -> Done {
    match words {
        [] => all(output),
        [name] if name == "help" => all(output),
        [name] => of(Command::named(name)?, output),
        [_, extra, ..] => Err(too_many(extra, "help [COMMAND]")),
    }
}

/// `plus --version`.
pub fn version(words: &[OsString], output: &mut Output) -> Done {
    match words {
        [] => output.line(format_args!("plus {}", env!("CARGO_PKG_VERSION"))),
        [extra, ..] => Err(too_many(extra, "--version")),
    }
}

fn too_many(extra: &OsString, call: &str) -> Failure {
    let wrong = format!("'{}' is one argument too many", extra.display());
    wrong_use(&wrong, format!("usage: plus {call}"))
}

/// The help on all commands.
fn all(output: &mut Output) -> Done {
    output.line(overview())?;
    output.line(format_args!("\n{}", common()))
}

/// The help on one command.
pub fn of(command: &Command, output: &mut Output) -> Done {
    let entry = Entry::of(command);
    output.line(entry.usage())?;
    output.line(format_args!("\n{}", entry.details))
}

/// Wrong use that no command is known for.
pub fn wrong(what: &str) -> Failure {
    wrong_use(what, overview())
}

/// Wrong use of a command.
pub fn wrong_for(command: &Command, what: &str) -> Failure {
    let name = command.name;
    let more = format!("`plus help {name}` says more");
    let expected = format!("{}\n{more}", Entry::of(command).usage());
    wrong_use(&format!("{name}: {what}"), expected)
}

fn wrong_use(what: &str, expected: String) -> Failure {
    Failure::Usage {
        wrong: format!("plus: {what}"),
        expected,
    }
}

/// The longest call that has its line of help beside it, and not below.
const WIDE: usize = 36;

fn overview() -> String {
    let widths = entries().map(|entry| entry.call.len());
    let width = widths.filter(|&width| width <= WIDE).max().unwrap_or(0);
    let row = |Entry { call, about, .. }: Entry| match call.len() <= width {
        true => format!("\n  {call:<width$}   {about}"),
        false => format!("\n  {call}\n  {:<width$}   {about}", ""),
    };
    let rows: String = entries().map(row).collect();
    format!("usage: plus COMMAND ...\n{rows}")
}
