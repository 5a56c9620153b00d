//! A scene made from text, a word a line.

use super::words::{Line, Word, WORDS};
use super::{Record, RECORD};
use crate::failure::Failure;
use crate::files::Files;
use crate::player::{BOUNDS, LENGTH};
use crate::sound;
use plus::{Table, RAM, STORE};
use std::fs;
use std::path::{Path, PathBuf};

/// Whether a file is such a text and no scene of bytes: it has a byte, and none
/// below 20h but TAB, LF and CR; and if it is as long as a scene of bytes its first
/// word is one of the language.
pub fn is_text(file: &[u8]) -> bool {
    let plain = |&byte: &u8| matches!(byte, b'\t' | b'\n' | b'\r' | 0x20..);
    let begins = || {
        let first = lines(file).next().unwrap_or_default();
        WORDS.iter().any(|word| word.behind(first).is_some())
    };
    !file.is_empty() && file.iter().all(plain) && (file.len() < RAM + STORE || begins())
}

/// The scene that a text makes, as bytes. FILEs are named from the folder that the
/// text stands in.
pub fn made(files: &mut Files, path: &Path, text: &[u8]) -> Result<Vec<u8>, Failure> {
    let folder = &folder_of(path);
    let mut making = Making {
        ram: vec![0; RAM],
        store: vec![0; STORE],
        records: vec![],
        files,
        path,
        folder,
        line: 0,
    };
    for (number, line) in numbered(text) {
        making.line = number;
        if !line.is_empty() {
            making.add(line)?;
        }
    }
    Ok([making.ram, making.store, making.records].concat())
}

/// The folder that a text stands in. A pipe stands in none, and is taken to be where
/// one stands; a file that came as `/dev/stdin` is where it is.
fn folder_of(path: &Path) -> PathBuf {
    let whole = match path.starts_with("/dev") || path.starts_with("/proc") {
        true => fs::canonicalize(path).unwrap_or_default(),
        false => path.to_owned(),
    };
    match whole.is_file() {
        true => whole.parent().unwrap_or(Path::new("")).to_owned(),
        false => PathBuf::new(),
    }
}

/// The lines of a text with their numbers from 1, each without its comment and the
/// blanks around it. A byte order mark and CRs are no part of them.
fn numbered(text: &[u8]) -> impl Iterator<Item = (usize, &[u8])> {
    let text = text.strip_prefix(b"\xEF\xBB\xBF").unwrap_or(text);
    let bare = |line| trimmed(before(line, b'#'));
    (1..).zip(text.split(|&byte| byte == b'\n').map(bare))
}

/// Those that are not empty.
fn lines(text: &[u8]) -> impl Iterator<Item = &[u8]> {
    let lines = numbered(text).map(|(_, line)| line);
    lines.filter(|line| !line.is_empty())
}

/// The part before a byte, or all.
fn before(line: &[u8], byte: u8) -> &[u8] {
    let end = line.iter().position(|&found| found == byte);
    &line[..end.unwrap_or(line.len())]
}

fn is_blank(byte: &u8) -> bool {
    matches!(byte, b' ' | b'\t' | b'\r')
}

fn trimmed(line: &[u8]) -> &[u8] {
    let kept = |byte: &u8| !is_blank(byte);
    let Some(first) = line.iter().position(kept) else {
        return &[];
    };
    let last = line.iter().rposition(kept).unwrap_or(first);
    &line[first..=last]
}

/// The first word of a line, and the rest.
pub fn split(line: &[u8]) -> (&[u8], &[u8]) {
    let end = line.iter().position(is_blank).unwrap_or(line.len());
    (&line[..end], trimmed(&line[end..]))
}

/// The word that a line begins with, or two where some word has two and begins so.
fn name_of(line: &[u8]) -> &[u8] {
    let (first, rest) = split(line);
    let begun = |word: &Word| word.name.split_once(' ').map(|(begun, _)| begun.as_bytes());
    if rest.is_empty() || WORDS.iter().all(|word| begun(word) != Some(first)) {
        return first;
    }
    let (second, _) = split(rest);
    &line[..line.len() - rest.len() + second.len()]
}

pub fn shown(bytes: &[u8]) -> String {
    String::from_utf8_lossy(bytes).into_owned()
}

/// A scene being made, and the line of its text that is at work.
pub struct Making<'a, 'b> {
    ram: Vec<u8>,
    store: Vec<u8>,
    records: Vec<u8>,
    files: &'a mut Files<'b>,
    path: &'a Path,
    folder: &'a Path,
    line: usize,
}

impl Making<'_, '_> {
    /// What a line adds.
    fn add(&mut self, line: &[u8]) -> Result<(), Failure> {
        let found = |word: &'static Word| word.behind(line).map(|rest| (word, rest));
        let Some((word, rest)) = WORDS.iter().find_map(found) else {
            let names: Vec<&str> = WORDS.iter().map(|word| word.name).collect();
            let (name, names) = (shown(name_of(line)), names.join(", "));
            return Err(self.bad(format!("'{name}' is none of the words {names}")));
        };
        let line = word
            .parsed(self.folder, rest)
            .map_err(|why| self.bad(why))?;
        (word.make)(self, &line)
    }

    /// A line that can't be used, and why.
    fn bad(&self, why: String) -> Failure {
        let (path, line) = (self.path.display(), self.line);
        self.files.wrong(format!("line {line} of '{path}': {why}"))
    }

    /// The file that a line names. RAM and pixels are what the chip starts with, so
    /// they stand before the first call.
    fn contents(&mut self, line: &Line, most: u64) -> Result<Vec<u8>, Failure> {
        if !self.records.is_empty() {
            let why = "RAM and pixels are set before the first call";
            return Err(self.bad(why.to_string()));
        }
        self.files.first(&line.file, most).map_err(|failure| {
            let (path, line) = (self.path.to_owned(), self.line);
            failure.named_in(path, line)
        })
    }

    /// Bytes of a file, which have to fit.
    fn bytes(&mut self, line: &Line, room: usize) -> Result<Vec<u8>, Failure> {
        let bytes = self.contents(line, room as u64 + 1)?;
        if bytes.len() > room {
            let file = line.file.display();
            return Err(self.bad(format!("'{file}' has more bytes than the {room} that fit")));
        }
        Ok(bytes)
    }

    pub fn ram(&mut self, line: &Line) -> Result<(), Failure> {
        let start = line.number(0) as usize;
        let bytes = self.bytes(line, RAM - start)?;
        self.ram[start..][..bytes.len()].copy_from_slice(&bytes);
        Ok(())
    }

    pub fn list(&mut self, line: &Line) -> Result<(), Failure> {
        let (start, file) = (line.number(0) as u16, line.file.display());
        let bytes = self.contents(line, sound::TOO_LONG)?;
        let put = sound::put(&mut self.ram, start, &bytes);
        let doubt = put.map_err(|why| self.bad(format!("'{file}' {why}")))?;
        if let Some(doubt) = doubt {
            self.files
                .note(format!("'{file}' is taken as words: {doubt}"));
        }
        Ok(())
    }

    pub fn pixels(&mut self, line: &Line) -> Result<(), Failure> {
        let bytes = self.bytes(line, STORE)?;
        self.store[..bytes.len()].copy_from_slice(&bytes);
        Ok(())
    }

    /// A record.
    pub fn call(&mut self, op: u8, address: u32, value: u32) -> Result<(), Failure> {
        let (address, value) = (address as u16, value as u8);
        let record: [u8; RECORD] = Record { op, address, value }.into();
        self.records.extend(record);
        Ok(())
    }

    /// A record for each value.
    pub fn each(&mut self, op: u8, values: &[u8]) -> Result<(), Failure> {
        let mut values = values.iter();
        values.try_for_each(|&value| self.call(op, 0, value.into()))
    }

    /// Bytes put where they wait, from a place on.
    fn wait(&mut self, place: usize, bytes: &[u8]) -> Result<(), Failure> {
        let mut bytes = (place as u32..).zip(bytes);
        bytes.try_for_each(|(place, &byte)| self.call(b'T', place, byte.into()))
    }

    /// A start, with the bytes of its table put where they wait for it.
    pub fn table(&mut self, table: Table) -> Result<(), Failure> {
        self.wait(0, &table.bytes())?;
        self.call(b'S', 0, 0)
    }

    /// The area for lists, with its bounds put where they wait for it.
    pub fn area(&mut self, from: u32, upto: u32) -> Result<(), Failure> {
        self.wait(BOUNDS, &from.to_le_bytes())?;
        self.wait(BOUNDS + 4, &upto.to_le_bytes())?;
        self.call(b'N', 0, 0)
    }

    /// A list placed, with the high byte of its length put where it waits.
    pub fn place(&mut self, address: u32, length: u32) -> Result<(), Failure> {
        let [low, high, ..] = length.to_le_bytes();
        self.wait(LENGTH, &[high])?;
        self.call(b'K', address, low.into())
    }

    pub fn lines(&mut self, line: &Line) -> Result<(), Failure> {
        (0..line.number(0)).try_for_each(|_| self.call(b'L', 0, line.number(1)))
    }
}
