//! Takes on disc: the calls that changed a chip, in their order, as a file.
//!
//! A file is a comment of any bytes, the records, and a trailer. A [`Record`] is
//! one call with its line number, that is how many lines have passed from the
//! reset up to it. A [`Recorder`] makes the records; [`file_of`] writes them,
//! [`Take::open`] opens such a file, and [`replay()`] plays it. A start is noted
//! without its [`Table`](crate::Table): all starts of a take give one, which a host
//! keeps beside the file.
//!
//! ```
//! use plus::take::{file_of, kind, Record, Refused, Take};
//! use plus::Answer;
//!
//! let record = |line, kind, address, value| Record { line, kind, address, value };
//! let records = [
//!     record(0, kind::WRITE_7F, 0, 0xB8),
//!     record(0, kind::PAGE_WRITE, 0x6C0F, 1),
//!     record(181, kind::ACKNOWLEDGE, 0, 0),
//! ];
//! let file = file_of(b"the arpeggio", &records)?;
//! assert_eq!(file.len(), 12 + 3 * 8 + 12);
//!
//! let take = Take::open(&file)?;
//! assert_eq!(take.comment(), b"the arpeggio");
//! assert!(take.records().eq(records));
//!
//! // A line number that falls.
//! let bad = [records[2], records[0]];
//! assert_eq!(file_of(b"", &bad), Err(Refused { answer: Answer::BadRecord, record: 2 }));
//! # Ok::<(), Refused>(())
//! ```

pub mod kind;
mod recorder;
mod replay;

pub use recorder::{NoRecords, Noted, Recorder};
pub use replay::{replay, Replayed, COUNTS};

use crate::{ffi, version, Answer};
use std::error::Error;
use std::fmt;

/// How many bytes a record has in a file.
pub const RECORD: usize = 8;

/// How many bytes the trailer has: the record count, the offset of the first
/// record, and the letters PLTK.
pub const TRAILER: usize = 12;

/// One call of a take. It is bad if its kind is none of those in [`kind`], if its
/// kind has no address or no value and that is not 0, if it is a mute with another
/// value than 0 and 1, or if its line number is below that of the record before it.
/// A mute of a channel above 2 is not bad: playing it counts it at 3.
#[repr(C)]
#[derive(Clone, Copy, Debug, Default, PartialEq, Eq)]
pub struct Record {
    /// Lines that have passed from the reset up to the call.
    pub line: u32,
    /// Which call it is.
    pub kind: u8,
    /// Where a page write goes, or the channel of a mute.
    pub address: u16,
    /// The byte that is written; of a mute 1 for on and 0 for off.
    pub value: u8,
}

/// What writing gives.
#[repr(C)]
#[derive(Clone, Copy, Debug, PartialEq, Eq)]
pub struct Written {
    /// What was answered: number 0, 13 or 14.
    pub answer: Answer,
    /// How many bytes the file has.
    pub size: usize,
    /// With 13 the number of the first bad record, from 1.
    pub bad: usize,
}

/// What opening gives.
#[repr(C)]
#[derive(Clone, Copy, Debug, PartialEq, Eq)]
pub struct Opened {
    /// What was answered: number 0, 11, 12 or 13.
    pub answer: Answer,
    /// With 13 the number of the first bad record, from 1.
    pub bad: usize,
    /// How many records there are.
    pub count: usize,
    /// Where the first of them stands. The comment is all of the file before it.
    pub offset: usize,
}

/// What asking for a record gives.
#[repr(C)]
#[derive(Clone, Copy, Debug, PartialEq, Eq)]
pub struct RecordRead {
    /// Served, or why not: 3, 11 or 12.
    pub answer: Answer,
    /// The record; where it is refused, the one that is all 0.
    pub record: Record,
}

/// A record as one number, in which it is lent to [`write()`]: the number that its
/// [`RECORD`] bytes say, low byte first.
pub fn pack(record: Record) -> u64 {
    version::check();
    // SAFETY: it takes and gives numbers.
    unsafe { ffi::plus_take_pack(record) }
}

/// The record in such a number. Every number has one.
pub fn unpack(number: u64) -> Record {
    version::check();
    // SAFETY: it takes and gives numbers.
    unsafe { ffi::plus_take_unpack(number) }
}

/// Writes a take into a buffer, its records lent as numbers. What lies beyond the
/// file stays.
#[must_use]
pub fn write(comment: &[u8], records: &[u64], output: &mut [u8]) -> Written {
    version::check();
    // SAFETY: the library reads and writes only within the slices it is lent.
    unsafe {
        ffi::plus_take_write(
            comment.as_ptr(),
            comment.len(),
            records.as_ptr(),
            records.len(),
            output.as_mut_ptr(),
            output.len(),
        )
    }
}

/// Tests a whole take, and says where its parts are.
#[must_use]
pub fn open(file: &[u8]) -> Opened {
    version::check();
    // SAFETY: the library reads only within the slice it is lent.
    unsafe { ffi::plus_take_open(file.as_ptr(), file.len()) }
}

/// The record of a take with a number, from 1. Refused with 11 or 12 where [`open`]
/// answers that, and then with 3 for any other number than 1 to the count. Whether
/// a record of the take is bad is not asked.
pub fn record_at(file: &[u8], number: usize) -> RecordRead {
    version::check();
    // SAFETY: the library reads only within the slice it is lent.
    unsafe { ffi::plus_take_record(file.as_ptr(), file.len(), number) }
}

/// The file of a comment and records. Refused with 13 where a record is bad, and
/// with 14 where the count or the offset has no room in 4 bytes.
pub fn file_of(comment: &[u8], records: &[Record]) -> Result<Vec<u8>, Refused> {
    let numbers: Vec<u64> = records.iter().map(|&record| pack(record)).collect();
    let mut file = vec![0; comment.len() + RECORD * records.len() + TRAILER];
    let written = write(comment, &numbers, &mut file);
    if written.answer != Answer::Done {
        return Err(Refused {
            answer: written.answer,
            record: written.bad,
        });
    }
    debug_assert_eq!(written.size, file.len());
    Ok(file)
}

/// A take that was opened. What it gives is lent from its file.
#[derive(Clone, Copy, Debug)]
pub struct Take<'a> {
    file: &'a [u8],
    comment: &'a [u8],
    count: usize,
}

impl<'a> Take<'a> {
    /// Opens a file. Refused with 11, 12 or 13.
    pub fn open(file: &'a [u8]) -> Result<Take<'a>, Refused> {
        let opened = open(file);
        if opened.answer != Answer::Done {
            return Err(Refused {
                answer: opened.answer,
                record: opened.bad,
            });
        }
        Ok(Take {
            file,
            comment: &file[..opened.offset],
            count: opened.count,
        })
    }

    /// Its comment.
    pub fn comment(&self) -> &'a [u8] {
        self.comment
    }

    /// Its records, in their order.
    pub fn records(&self) -> impl ExactSizeIterator<Item = Record> + 'a {
        let file = self.file;
        (0..self.count).map(move |before| record_at(file, before + 1).record)
    }
}

/// A take that is not written, not opened or not played.
#[derive(Clone, Copy, Debug, PartialEq, Eq)]
pub struct Refused {
    /// What was answered: number 11 to 14, or 1.
    pub answer: Answer,
    /// With 13 the number of the first bad record, from 1, else 0.
    pub record: usize,
}

impl fmt::Display for Refused {
    fn fmt(&self, f: &mut fmt::Formatter) -> fmt::Result {
        write!(f, "refused {}", self.answer.number())?;
        if self.record != 0 {
            write!(f, " record {}", self.record)?;
        }
        write!(f, ": {}", self.answer)
    }
}

impl Error for Refused {}
