//! The writer and the reader of takes compared: the same records and the same
//! files given to the core and to another machine, with what they answer and leave
//! in the whole buffer compared.

use crate::machine::Machine;
use crate::random::{any_comment, any_records, changed_take, spoilt, take_byte, Random};
use plus::take::{self, Record, RECORD, TRAILER};
use std::fmt::Debug;

/// How often a call gave each answer number.
pub type Answers = [u64; 16];

/// What was answered to the writer, to opening, and where a record was asked for.
#[derive(Clone, Copy, Debug, Default)]
pub struct Tally {
    pub written: Answers,
    pub opened: Answers,
    pub read: Answers,
}

/// Random takes written and opened, and then the file of each with one byte
/// changed, put in or taken out. One in four has a record that may be bad.
pub fn changed_takes<M: Machine>(count: u64, seed: u64) -> Result<Tally, String> {
    let mut random = Random::new(seed);
    let mut tally = Tally::default();
    for _ in 0..count {
        let comment = any_comment(&mut random);
        let number = 1 + random.either(50, 100, 5);
        let mut records = any_records(&mut random, number);
        if random.chance(4) {
            records = spoilt(&mut random, records);
        }
        tally.write::<M>(&comment, &records)?;
        let file = file_of(&comment, &records);
        tally.open::<M>(&file)?;
        tally.open::<M>(&changed_take(&mut random, &file))?;
    }
    Ok(tally)
}

/// Files of 0 to 40 bytes, each length so often. Most end with a trailer, whose
/// numbers are nearly or just right.
pub fn short_files<M: Machine>(each: u64, seed: u64) -> Result<Tally, String> {
    let mut random = Random::new(seed);
    let mut tally = Tally::default();
    for length in 0..=40 {
        for _ in 0..each {
            let mut file: Vec<u8> = (0..length).map(|_| take_byte(&mut random)).collect();
            end(&mut random, &mut file);
            tally.open::<M>(&file)?;
        }
    }
    Ok(tally)
}

/// Puts as much of a trailer at a file's end as there is room for.
fn end(random: &mut Random, file: &mut [u8]) {
    let room = file.len().saturating_sub(TRAILER) as u64;
    let count = random.below(room / RECORD as u64 + 1);
    let nearly = random.pick(&[0, 0, 0, 0, 1, 8, 1 << 24, u32::MAX]);
    let offset = (room - RECORD as u64 * count) as u32;
    let (count, offset) = match random.chance(2) {
        true => (count as u32 ^ nearly, offset),
        false => (count as u32, offset.wrapping_add(nearly)),
    };
    let trailer = [count.to_le_bytes(), offset.to_le_bytes(), *b"PLTK"].concat();
    if random.chance(10) {
        return;
    }
    for (place, byte) in file.iter_mut().rev().zip(trailer.into_iter().rev()) {
        *place = byte;
    }
}

/// Every set of faults that a take can have: other letters, an end that is not
/// met, a bad record; and to the writer a bad record, no room.
pub fn refusals<M: Machine>() -> Result<Tally, String> {
    let mut tally = Tally::default();
    for faults in 0..8 {
        let has = |fault: u8| faults & fault != 0;
        let mut records = any_records(&mut Random(59), 3);
        if has(4) {
            records[1].kind = 0;
        }
        let mut file = file_of(b"comment", &records);
        if has(2) {
            file.insert(0, b' ');
        }
        if has(1) {
            *file.last_mut().expect("a trailer") = b'k';
        }
        tally.open::<M>(&file)?;
        tally.write::<M>(b"comment", &records)?;
    }
    Ok(tally)
}

/// The file of a comment and records, whatever these are.
fn file_of(comment: &[u8], records: &[Record]) -> Vec<u8> {
    let mut file = comment.to_vec();
    for &record in records {
        file.extend(take::pack(record).to_le_bytes());
    }
    file.extend((records.len() as u32).to_le_bytes());
    file.extend((comment.len() as u32).to_le_bytes());
    file.extend(b"PLTK");
    file
}

impl Tally {
    /// Writes on both, with no room, with just the room, one byte less and one more.
    fn write<M: Machine>(&mut self, comment: &[u8], records: &[Record]) -> Result<(), String> {
        for &record in records {
            let number = take::pack(record);
            same(record, number, M::take_pack(record))?;
            same(number, take::unpack(number), M::take_unpack(number))?;
        }
        let numbers: Vec<u64> = records.iter().map(|&record| take::pack(record)).collect();
        let size = comment.len() + RECORD * records.len() + TRAILER;
        for room in [0, size - 1, size, size + 1] {
            let (mut core, mut other) = (vec![0xEE; room], vec![0xEE; room]);
            let written = take::write(comment, &numbers, &mut core);
            let expected = M::take_write(comment, &numbers, &mut other);
            same((comment, records), (written, core), (expected, other))?;
            self.written[written.answer as usize] += 1;
        }
        Ok(())
    }

    /// Opens on both, and asks for each record and for those beside them, also of a
    /// file that is refused.
    fn open<M: Machine>(&mut self, file: &[u8]) -> Result<(), String> {
        let opened = take::open(file);
        same(file, opened, M::take_open(file))?;
        self.opened[opened.answer as usize] += 1;
        let far = [1 << 32, 1 << 61, usize::MAX];
        for number in (0..=file.len() / RECORD).chain(far) {
            let read = take::record_at(file, number);
            same((file, number), read, M::take_record(file, number))?;
            self.read[read.answer as usize] += 1;
        }
        Ok(())
    }
}

/// What the core gives is what the other gives.
fn same<G: Debug, A: Debug + PartialEq>(given: G, core: A, other: A) -> Result<(), String> {
    if core == other {
        return Ok(());
    }
    Err(format!(
        "{given:02X?}: core gives {core:02X?}\nand not {other:02X?}"
    ))
}
