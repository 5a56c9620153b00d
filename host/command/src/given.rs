//! The words after a command's name, taken apart.

use crate::commands::Command;
use crate::failure::Failure;
use crate::help::{self, Entry};
use std::ffi::{OsStr, OsString};
use std::io::{self, Write};
use std::path::Path;

/// What a command was given: as many arguments as it takes, and options.
pub struct Given {
    command: &'static Command,
    arguments: Vec<OsString>,
    options: Vec<(&'static str, OsString)>,
}

impl Given {
    /// The words taken as what the help says that the command is given.
    pub fn of(command: &'static Command, words: &[OsString]) -> Result<Given, Failure> {
        let mut given = Given {
            command,
            arguments: vec![],
            options: vec![],
        };
        let parts: Vec<&str> = Entry::of(command).parts().collect();
        let is_option = |part: &&str| part.starts_with("[--");
        let (options, arguments): (Vec<&str>, Vec<&str>) = parts.into_iter().partition(is_option);
        let mut words = words.iter();
        while let Some(word) = words.next() {
            if has_dash(word) {
                given.add_option(&options, word, || words.next())?;
            } else {
                given.arguments.push(word.clone());
            }
        }
        given.check(&arguments)?;
        Ok(given)
    }

    /// An option among those that there are, with the word after it if it takes
    /// one.
    fn add_option<'a>(
        &mut self,
        options: &[&'static str],
        word: &OsStr,
        next: impl FnOnce() -> Option<&'a OsString>,
    ) -> Result<(), Failure> {
        let none = |word: &OsStr| format!("there is no option '{}'", word.display());
        let names = options.iter().map(|part| part.trim_matches(['[', ']']));
        let mut taken = names.map(|name| name.split_once(' ').unwrap_or((name, "")));
        let (name, value) = taken
            .find(|(name, _)| word == *name)
            .ok_or_else(|| self.wrong(none(word)))?;
        if self.flag(name) {
            return Err(self.wrong(format!("{name} is given twice")));
        }
        let mut found = OsString::new();
        if !value.is_empty() {
            let missing = || self.wrong(format!("{value} is missing"));
            found = next().ok_or_else(missing)?.clone();
            if has_dash(&found) {
                return Err(self.wrong(none(&found)));
            }
        }
        self.options.push((name, found));
        Ok(())
    }

    /// That there are as many arguments as it takes.
    fn check(&self, arguments: &[&str]) -> Result<(), Failure> {
        let missing = arguments.get(self.arguments.len());
        if let Some(argument) = missing.filter(|argument| !argument.starts_with('[')) {
            return Err(self.wrong(format!("{argument} is missing")));
        }
        match self.arguments.get(arguments.len()) {
            None => Ok(()),
            Some(extra) => {
                Err(self.wrong(format!("'{}' is one argument too many", extra.display())))
            }
        }
    }

    /// An argument, from 0, if it was given.
    pub fn argument(&self, number: usize) -> Option<&OsStr> {
        self.arguments.get(number).map(|word| word.as_ref())
    }

    /// An argument that is never left out, as a file's name.
    pub fn path(&self, number: usize) -> &Path {
        Path::new(&self.arguments[number])
    }

    /// The word after an option, if that was given.
    pub fn option(&self, name: &str) -> Option<&OsStr> {
        let mut options = self.options.iter();
        let (_, word) = options.find(|(option, _)| *option == name)?;
        Some(word)
    }

    /// Whether an option was given.
    pub fn flag(&self, name: &str) -> bool {
        self.option(name).is_some()
    }

    /// Says something on standard error that stops nothing.
    pub fn note(&self, what: impl AsRef<str>) {
        // With standard error gone there is nobody to tell.
        let _ = writeln!(
            io::stderr(),
            "plus: {}: {}",
            self.command.name,
            what.as_ref()
        );
    }

    /// Wrong use of this command.
    pub fn wrong(&self, what: impl AsRef<str>) -> Failure {
        help::wrong_for(self.command, what.as_ref())
    }
}

/// A word with a dash before it names no file: `./-x` does.
fn has_dash(word: &OsStr) -> bool {
    let bytes = word.as_encoded_bytes();
    bytes.len() > 1 && bytes[0] == b'-'
}
