//! Takes on disc: calls with their lines as a file, and such a file opened.

use super::answer;

/// The last four bytes of a take.
const LETTERS: &[u8; 4] = b"PLTK";

/// One call of a take.
#[derive(Clone, Copy, Debug, Default, PartialEq, Eq)]
pub struct Record {
    pub line: u32,
    pub kind: u8,
    pub address: u16,
    pub value: u8,
}

impl Record {
    /// Its eight bytes in a file.
    pub fn bytes(&self) -> [u8; 8] {
        let [l0, l1, l2, l3] = self.line.to_le_bytes();
        let [a0, a1] = self.address.to_le_bytes();
        [l0, l1, l2, l3, self.kind, a0, a1, self.value]
    }

    fn from_bytes(bytes: &[u8]) -> Record {
        let part = |from: usize, to: usize| {
            let high_first = bytes[from..to].iter().rev();
            high_first.fold(0, |number, &byte| number << 8 | u32::from(byte))
        };
        Record {
            line: part(0, 4),
            kind: part(4, 5) as u8,
            address: part(5, 7) as u16,
            value: part(7, 8) as u8,
        }
    }

    /// The record as a number of 64 bits, and the record in one.
    pub fn number(&self) -> u64 {
        u64::from_le_bytes(self.bytes())
    }

    pub fn from_number(number: u64) -> Record {
        Record::from_bytes(&number.to_le_bytes())
    }

    /// Whether its kind is one, and has what the record says.
    fn has_its_parts(&self) -> bool {
        match self.kind {
            1..=3 => self.address == 0,
            4 | 7 => true,
            5 | 6 | 8 | 9 => self.address == 0 && self.value == 0,
            10 => self.value <= 1,
            _ => false,
        }
    }
}

/// The number of the first bad record, from 1.
fn first_bad(records: &[Record]) -> Option<usize> {
    let bad = |n: usize| {
        let falls = n > 0 && records[n].line < records[n - 1].line;
        falls || !records[n].has_its_parts()
    };
    (0..records.len()).find(|&n| bad(n)).map(|n| n + 1)
}

/// Writes a take, its records given as numbers: the answer, the length of the file
/// and the number of the first bad record.
pub fn take_write(comment: &[u8], numbers: &[u64], output: &mut [u8]) -> (u8, usize, usize) {
    let records: Vec<Record> = numbers.iter().map(|&n| Record::from_number(n)).collect();
    if let Some(bad) = first_bad(&records) {
        return (answer::BAD_RECORD, 0, bad);
    }
    let (Ok(count), Ok(offset)) = (u32::try_from(records.len()), u32::try_from(comment.len()))
    else {
        return (answer::NO_ROOM, 0, 0);
    };
    let mut file = comment.to_vec();
    for record in &records {
        file.extend(record.bytes());
    }
    file.extend(count.to_le_bytes());
    file.extend(offset.to_le_bytes());
    file.extend(LETTERS);
    match output.get_mut(..file.len()) {
        Some(place) => place.copy_from_slice(&file),
        None => return (answer::NO_ROOM, 0, 0),
    }
    (answer::DONE, file.len(), 0)
}

/// The comment and the records of a file, bad ones too, or the number that its
/// trailer is refused with.
fn parts(file: &[u8]) -> Result<(&[u8], Vec<Record>), u8> {
    let before = file.strip_suffix(LETTERS).ok_or(answer::NO_TRAILER)?;
    let (before, offset) = before.split_last_chunk().ok_or(answer::NO_TRAILER)?;
    let (before, count) = before.split_last_chunk().ok_or(answer::NO_TRAILER)?;
    let count = u64::from(u32::from_le_bytes(*count));
    let offset = u64::from(u32::from_le_bytes(*offset));
    if offset + 8 * count != before.len() as u64 {
        return Err(answer::NOT_MET);
    }
    let (comment, records) = before.split_at(offset as usize);
    Ok((comment, records.chunks(8).map(Record::from_bytes).collect()))
}

/// The comment and the records of a file, or the number that it is refused with and
/// the number of the first bad record.
pub(super) fn opened(file: &[u8]) -> Result<(&[u8], Vec<Record>), (u8, usize)> {
    let (comment, records) = parts(file).map_err(|refusal| (refusal, 0))?;
    match first_bad(&records) {
        Some(bad) => Err((answer::BAD_RECORD, bad)),
        None => Ok((comment, records)),
    }
}

/// Opens a take: the answer, the number of the first bad record, the record count
/// and the offset of the first record.
pub fn take_open(file: &[u8]) -> (u8, usize, usize, usize) {
    match opened(file) {
        Err((refusal, bad)) => (refusal, bad, 0, 0),
        Ok((comment, records)) => (answer::DONE, 0, records.len(), comment.len()),
    }
}

/// The record of a number from 1: the answer, and the record or one of no kind.
pub fn take_record(file: &[u8], number: usize) -> (u8, Record) {
    let found = parts(file).and_then(|(_, records)| {
        let record = number.checked_sub(1).and_then(|n| records.get(n).copied());
        record.ok_or(answer::NOTHING_THERE)
    });
    match found {
        Ok(record) => (answer::DONE, record),
        Err(refusal) => (refusal, Record::default()),
    }
}
