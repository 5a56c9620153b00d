//! Faults of the writer and of the reader of takes.

use crate::machine::Fault;
use plus::take::{open, pack, record_at, unpack, write};
use plus::take::{Opened, Record, RecordRead, Written, RECORD, TRAILER};
use plus::Answer;

/// The count and the offset that the trailer says.
fn trailer(file: &[u8]) -> (usize, usize) {
    let number = |from: usize| {
        let bytes = &file[file.len() - TRAILER + from..][..4];
        u32::from_le_bytes(bytes.try_into().unwrap()) as usize
    };
    (number(0), number(4))
}

/// Records made anew, each with the one before it, as numbers.
fn anew(records: impl Iterator<Item = Record>, mend: fn(Record, Record) -> Record) -> Vec<u64> {
    let mut before = Record::default();
    records
        .map(|record| {
            before = mend(before, record);
            pack(before)
        })
        .collect()
}

/// Writes a take by the test of mended records.
fn write_by(
    comment: &[u8],
    records: &[u64],
    output: &mut [u8],
    mend: fn(Record, Record) -> Record,
) -> Written {
    let mended = anew(records.iter().map(|&number| unpack(number)), mend);
    let written = write(comment, &mended, output);
    if written.answer == Answer::Done {
        let places = output[comment.len()..].chunks_mut(RECORD);
        for (place, number) in places.zip(records) {
            place.copy_from_slice(&number.to_le_bytes());
        }
    }
    written
}

/// Opens a take by the test of mended records.
fn open_by(file: &[u8], mend: fn(Record, Record) -> Record) -> Opened {
    let opened = open(file);
    if opened.answer != Answer::BadRecord {
        return opened;
    }
    let (count, offset) = trailer(file);
    let records = (1..=count).map(|number| record_at(file, number).record);
    let mended = anew(records, mend);
    let mut file = file.to_vec();
    for (place, number) in file[offset..].chunks_mut(RECORD).zip(mended) {
        place.copy_from_slice(&number.to_le_bytes());
    }
    open(&file)
}

/// A fault that accepts what its function mends, in the writer and in the reader.
macro_rules! accepts {
    ($($(#[$about:meta])* $fault:ident: $mend:expr;)+) => {$(
        $(#[$about])*
        pub struct $fault;

        impl Fault for $fault {
            fn take_write(comment: &[u8], records: &[u64], output: &mut [u8]) -> Written {
                write_by(comment, records, output, $mend)
            }

            fn take_open(file: &[u8]) -> Opened {
                open_by(file, $mend)
            }
        }
    )+};
}

accepts! {
    /// A record of kind 0 is good.
    Kind0Accepted: |_, record| match record.kind {
        0 => Record { kind: 4, ..record },
        _ => record,
    };

    /// A record of kind 11 is good.
    Kind11Accepted: |_, record| match record.kind {
        11 => Record { kind: 4, ..record },
        _ => record,
    };

    /// A port write may have an address.
    PortWithAddress: |_, record| match record.kind {
        1..=3 => Record { address: 0, ..record },
        _ => record,
    };

    /// An undo may have a value.
    UndoWithValue: |_, record| match record.kind {
        6 | 8 => Record { value: 0, ..record },
        _ => record,
    };

    /// A start may have a value.
    StartWithValue: |_, record| match record.kind {
        9 => Record { value: 0, ..record },
        _ => record,
    };

    /// A start may have an address.
    StartWithAddress: |_, record| match record.kind {
        9 => Record { address: 0, ..record },
        _ => record,
    };

    /// A mute may have the value 2.
    MuteWithValue2: |_, record| match (record.kind, record.value) {
        (10, 2) => Record { value: 1, ..record },
        _ => record,
    };

    /// A line number may fall.
    FallingLineAccepted: |before, record| Record {
        line: record.line.max(before.line),
        ..record
    };

    /// A line number may fall within its low 16 bits.
    LineBy16Bits: |before, record| match record.line >> 16 == before.line >> 16 {
        true => Record { line: record.line.max(before.line), ..record },
        false => record,
    };
}

/// A line number that stays is bad.
pub struct SameLineBad;

impl Fault for SameLineBad {
    fn take_write(comment: &[u8], records: &[u64], output: &mut [u8]) -> Written {
        let line = |number: u64| unpack(number).line;
        let stays = records
            .windows(2)
            .position(|two| line(two[0]) == line(two[1]));
        match stays {
            Some(before) => Written {
                answer: Answer::BadRecord,
                size: 0,
                bad: before + 2,
            },
            None => write(comment, records, output),
        }
    }
}

/// The trailer has the offset before the count.
pub struct CountAndOffsetSwapped;

impl Fault for CountAndOffsetSwapped {
    fn take_write(comment: &[u8], records: &[u64], output: &mut [u8]) -> Written {
        let written = write(comment, records, output);
        if written.answer == Answer::Done {
            output[written.size - TRAILER..][..8].rotate_left(4);
        }
        written
    }

    fn take_open(file: &[u8]) -> Opened {
        let mut file = file.to_vec();
        if let Some(at) = file.len().checked_sub(TRAILER) {
            file[at..][..8].rotate_left(4);
        }
        open(&file)
    }
}

/// The address of a record in a number stands high byte first.
pub struct AddressHighFirst;

impl Fault for AddressHighFirst {
    fn take_pack(record: Record) -> u64 {
        let address = record.address.swap_bytes();
        pack(Record { address, ..record })
    }
}

/// The kind of a record in a number is its value, and the other way round.
pub struct KindByValue;

impl Fault for KindByValue {
    fn take_unpack(number: u64) -> Record {
        let record = unpack(number);
        Record {
            kind: record.value,
            value: record.kind,
            ..record
        }
    }
}

/// Bytes may stand between the records and the trailer.
pub struct GapAllowed;

impl Fault for GapAllowed {
    fn take_open(file: &[u8]) -> Opened {
        let opened = open(file);
        if opened.answer != Answer::NotMet {
            return opened;
        }
        let (count, offset) = trailer(file);
        let (records, end) = (offset + RECORD * count, file.len() - TRAILER);
        if records > end {
            return opened;
        }
        open(&[&file[..records], &file[end..]].concat())
    }
}

/// The records' end is reckoned by 32 bits.
pub struct EndBy32Bits;

impl Fault for EndBy32Bits {
    fn take_open(file: &[u8]) -> Opened {
        let opened = open(file);
        if opened.answer != Answer::NotMet {
            return opened;
        }
        let (count, offset) = trailer(file);
        let wrapped = (count as u32).wrapping_mul(8).wrapping_add(offset as u32);
        if wrapped as usize != file.len() - TRAILER {
            return opened;
        }
        Opened {
            answer: Answer::Done,
            bad: 0,
            count,
            offset,
        }
    }
}

/// The last letter is not looked at.
pub struct ThreeLetters;

impl Fault for ThreeLetters {
    fn take_open(file: &[u8]) -> Opened {
        match file {
            [before @ .., _] => open(&[before, b"K"].concat()),
            [] => open(file),
        }
    }
}

/// Eleven bytes with the letters are a trailer.
pub struct TrailerOf11;

impl Fault for TrailerOf11 {
    fn take_open(file: &[u8]) -> Opened {
        match file.len() {
            11 => open(&[&[0], file].concat()),
            _ => open(file),
        }
    }
}

/// The end of the records is tested before the letters.
pub struct MetBeforeLetters;

impl Fault for MetBeforeLetters {
    fn take_open(file: &[u8]) -> Opened {
        let Some(letters) = file.len().checked_sub(4) else {
            return open(file);
        };
        let lettered = open(&[&file[..letters], b"PLTK"].concat());
        match lettered.answer {
            Answer::NotMet => lettered,
            _ => open(file),
        }
    }
}

/// Records are tested before their end is.
pub struct RecordsBeforeMet;

impl Fault for RecordsBeforeMet {
    fn take_open(file: &[u8]) -> Opened {
        let opened = open(file);
        if opened.answer != Answer::NotMet {
            return opened;
        }
        let (count, offset) = trailer(file);
        let records = file.get(offset..file.len() - TRAILER).unwrap_or_default();
        let number = |bytes: &[u8]| u64::from_le_bytes(bytes.try_into().unwrap());
        let numbers: Vec<u64> = records.chunks_exact(RECORD).map(number).collect();
        let tested = write(&[], &numbers[..count.min(numbers.len())], &mut []);
        match tested.answer {
            Answer::BadRecord => Opened {
                answer: tested.answer,
                bad: tested.bad,
                ..opened
            },
            _ => opened,
        }
    }
}

/// Bad records are numbered from 0.
pub struct BadRecordFrom0;

impl Fault for BadRecordFrom0 {
    fn take_write(comment: &[u8], records: &[u64], output: &mut [u8]) -> Written {
        let mut written = write(comment, records, output);
        written.bad = written.bad.saturating_sub(1);
        written
    }

    fn take_open(file: &[u8]) -> Opened {
        let mut opened = open(file);
        opened.bad = opened.bad.saturating_sub(1);
        opened
    }
}

/// The count is told although a record is bad.
pub struct CountThoughBad;

impl Fault for CountThoughBad {
    fn take_open(file: &[u8]) -> Opened {
        let mut opened = open(file);
        if opened.answer == Answer::BadRecord {
            opened.count = trailer(file).0;
        }
        opened
    }
}

/// The room is tested before the records.
pub struct RoomBeforeRecords;

impl Fault for RoomBeforeRecords {
    fn take_write(comment: &[u8], records: &[u64], output: &mut [u8]) -> Written {
        if output.len() < comment.len() + RECORD * records.len() + TRAILER {
            return Written {
                answer: Answer::NoRoom,
                size: 0,
                bad: 0,
            };
        }
        write(comment, records, output)
    }
}

/// A buffer that the file fills is too small.
pub struct FullRoomRefused;

impl Fault for FullRoomRefused {
    fn take_write(comment: &[u8], records: &[u64], output: &mut [u8]) -> Written {
        match output {
            [] => write(comment, records, output),
            [room @ .., _] => write(comment, records, room),
        }
    }
}

/// A refused write leaves the comment.
pub struct CommentThoughRefused;

impl Fault for CommentThoughRefused {
    fn take_write(comment: &[u8], records: &[u64], output: &mut [u8]) -> Written {
        let written = write(comment, records, output);
        if written.answer != Answer::Done {
            for (place, &byte) in output.iter_mut().zip(comment) {
                *place = byte;
            }
        }
        written
    }
}

/// A served write clears what lies beyond the file.
pub struct BeyondTakeCleared;

impl Fault for BeyondTakeCleared {
    fn take_write(comment: &[u8], records: &[u64], output: &mut [u8]) -> Written {
        let written = write(comment, records, output);
        if written.answer == Answer::Done {
            output[written.size..].fill(0);
        }
        written
    }
}

/// An offset of more than 4 bytes is cut off.
pub struct OffsetCut;

impl Fault for OffsetCut {
    fn take_write(comment: &[u8], records: &[u64], output: &mut [u8]) -> Written {
        let cut = &comment[..comment.len() & 0xFFFF_FFFF];
        write(cut, records, output)
    }
}

/// Records are numbered from 0.
pub struct RecordFrom0;

impl Fault for RecordFrom0 {
    fn take_record(file: &[u8], number: usize) -> RecordRead {
        record_at(file, number.wrapping_add(1))
    }
}

/// Where no record has the number, the one that is all 0 is served.
pub struct NoSuchRecordServed;

impl Fault for NoSuchRecordServed {
    fn take_record(file: &[u8], number: usize) -> RecordRead {
        let read = record_at(file, number);
        RecordRead {
            answer: match read.answer {
                Answer::NothingThere => Answer::Done,
                other => other,
            },
            ..read
        }
    }
}

/// A record of number 0 is refused before the trailer is looked at.
pub struct NumberBeforeTrailer;

impl Fault for NumberBeforeTrailer {
    fn take_record(file: &[u8], number: usize) -> RecordRead {
        match number {
            0 => RecordRead {
                answer: Answer::NothingThere,
                record: Record::default(),
            },
            _ => record_at(file, number),
        }
    }
}

/// No record is given of a file with a bad one.
pub struct NoRecordsThoughMet;

impl Fault for NoRecordsThoughMet {
    fn take_record(file: &[u8], number: usize) -> RecordRead {
        match open(file).answer {
            Answer::BadRecord => RecordRead {
                answer: Answer::BadRecord,
                record: Record::default(),
            },
            _ => record_at(file, number),
        }
    }
}

/// Only the song editor's page write has an address.
pub struct PictureWriteWithoutAddress;

impl Fault for PictureWriteWithoutAddress {
    fn take_write(comment: &[u8], records: &[u64], output: &mut [u8]) -> Written {
        let bad = |&number: &u64| {
            let record = unpack(number);
            record.kind == 7 && record.address != 0
        };
        match records.iter().position(bad) {
            Some(before) => Written {
                answer: Answer::BadRecord,
                size: 0,
                bad: before + 1,
            },
            None => write(comment, records, output),
        }
    }
}

/// A mute of a channel that there is not is bad.
pub struct MuteOfChannel3Bad;

impl MuteOfChannel3Bad {
    fn is_bad(record: Record) -> bool {
        record.kind == 10 && record.address > 2
    }
}

impl Fault for MuteOfChannel3Bad {
    fn take_write(comment: &[u8], records: &[u64], output: &mut [u8]) -> Written {
        let bad = |&number: &u64| MuteOfChannel3Bad::is_bad(unpack(number));
        match records.iter().position(bad) {
            Some(before) => Written {
                answer: Answer::BadRecord,
                size: 0,
                bad: before + 1,
            },
            None => write(comment, records, output),
        }
    }

    fn take_open(file: &[u8]) -> Opened {
        let opened = open(file);
        let bad = |&number: &usize| MuteOfChannel3Bad::is_bad(record_at(file, number).record);
        match (1..=opened.count).find(bad) {
            Some(bad) => Opened {
                answer: Answer::BadRecord,
                bad,
                count: 0,
                offset: 0,
            },
            None => opened,
        }
    }
}
