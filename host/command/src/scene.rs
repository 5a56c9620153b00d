//! A scene file: RAM, the pixel store, then records of 4 bytes to the end; or a
//! text that makes one.

pub mod text;
mod words;

use crate::failure::Failure;
use crate::files::Files;
use crate::player::Player;
use plus::{RAM, STORE};
use std::fmt;
use std::path::{Path, PathBuf};

/// How many bytes a record has.
pub const RECORD: usize = 4;

/// A record: a letter for the call, an address and a byte.
#[derive(Clone, Copy, Debug, PartialEq, Eq)]
pub struct Record {
    pub op: u8,
    pub address: u16,
    pub value: u8,
}

impl From<Record> for [u8; RECORD] {
    fn from(record: Record) -> [u8; RECORD] {
        let [low, high] = record.address.to_le_bytes();
        [record.op, low, high, record.value]
    }
}

/// The part of a scene in which a byte is missing. Records count from 1.
#[derive(Clone, Copy, Debug, PartialEq, Eq)]
pub enum Part {
    Ram,
    Store,
    Record(usize),
}

/// Where a scene ends early: the first byte that isn't there, from 0.
#[derive(Clone, Copy, Debug, PartialEq, Eq)]
pub struct Short {
    pub byte: usize,
    pub part: Part,
}

/// The records of a scene, the last of which may be cut off.
pub struct Records<'a> {
    bytes: &'a [u8],
    taken: usize,
}

/// A scene as it was read.
pub struct Scene {
    pub path: PathBuf,
    bytes: Vec<u8>,
}

/// The scene of a file, or the one that its text makes.
pub fn read(files: &mut Files, path: &Path) -> Result<Scene, Failure> {
    let file = files.contents(path)?;
    let bytes = match text::is_text(&file) {
        true => text::made(files, path, &file)?,
        false => file,
    };
    let path = path.to_owned();
    Ok(Scene { path, bytes })
}

impl Scene {
    /// A chip after reset with the scene's RAM and store, and the scene's records.
    pub fn open(&self) -> Result<(Player, Records<'_>), Short> {
        let ends_in = |part| Short {
            byte: self.bytes.len(),
            part,
        };
        let ram = self.bytes.split_at_checked(RAM);
        let (ram, rest) = ram.ok_or(ends_in(Part::Ram))?;
        let store = rest.split_at_checked(STORE);
        let (store, bytes) = store.ok_or(ends_in(Part::Store))?;
        Ok((Player::new(ram, store), Records { bytes, taken: 0 }))
    }

    /// After its last record.
    pub fn played(&self) -> Result<Player, Failure> {
        let early = |short: Short| self.faulty(vec![short.to_string()]);
        let (mut player, records) = self.open().map_err(early)?;
        for record in records {
            player.play(record.map_err(early)?);
        }
        Ok(player)
    }

    /// That it has faults.
    pub fn faulty(&self, faults: Vec<String>) -> Failure {
        let path = self.path.clone();
        Failure::Scene { path, faults }
    }
}

impl Iterator for Records<'_> {
    type Item = Result<Record, Short>;

    fn next(&mut self) -> Option<Self::Item> {
        let from = self.taken * RECORD;
        self.taken += 1;
        match self.bytes.get(from..)? {
            [] => None,
            &[op, low, high, value, ..] => Some(Ok(Record {
                op,
                address: u16::from_le_bytes([low, high]),
                value,
            })),
            _ => Some(Err(Short {
                byte: RAM + STORE + self.bytes.len(),
                part: Part::Record(self.taken),
            })),
        }
    }
}

impl fmt::Display for Short {
    fn fmt(&self, f: &mut fmt::Formatter) -> fmt::Result {
        write!(f, "the scene ends early, at byte {}, in ", self.byte)?;
        match self.part {
            Part::Ram => write!(f, "RAM (bytes 0 to {})", RAM - 1),
            Part::Store => write!(f, "the pixel store (bytes {RAM} to {})", RAM + STORE - 1),
            Part::Record(number) => write!(f, "record number {number}"),
        }
    }
}
