//! An old list made a good one, where its words stand.

use super::sound::{control, kind_of, INT, LOOP, NOP, STOP};
use super::{answer, Kind};

/// What a word becomes.
fn mended(word: u16) -> u16 {
    match kind_of(word) {
        Kind::Load | Kind::Repeat => word,
        Kind::Pause if word != 0x1000 => word,
        Kind::Pause | Kind::Nothing => NOP,
        Kind::Control => word & (NOP | LOOP | INT | STOP),
    }
}

/// Mends so many words of a buffer: the answer, how many are in use afterwards, and
/// how many changes were put into the report.
pub fn mend(words: &mut [u16], used: usize, report: &mut [u64]) -> (u8, usize, usize) {
    let Some(list) = words.get(..used) else {
        return (answer::WRONG_LENGTH, 0, 0);
    };
    let lacks_stop = !list.iter().any(|&word| control(word) & STOP != 0);
    if lacks_stop && used == words.len() {
        return (answer::NO_ROOM_FOR_STOP, 0, 0);
    }
    let changed = list.iter().filter(|&&word| mended(word) != word).count();
    let added = usize::from(lacks_stop);
    if changed + added > report.len() / 2 {
        return (answer::REPORT_TOO_SMALL, 0, 0);
    }
    let (of_words, of_stop) = report.split_at_mut(2 * changed);
    mend_words(&mut words[..used], of_words);
    if lacks_stop {
        let new = NOP | STOP;
        of_stop[..2].copy_from_slice(&numbers(used, words[used], new));
        words[used] = new;
    }
    (answer::DONE, used + added, changed + added)
}

/// Mends words, with a report that has room for just the changes.
fn mend_words(words: &mut [u16], report: &mut [u64]) {
    let mut room = report.chunks_exact_mut(2);
    for (place, word) in words.iter_mut().enumerate() {
        let new = mended(*word);
        if new != *word {
            let change = room.next().expect("the changes were counted");
            change.copy_from_slice(&numbers(place, *word, new));
            *word = new;
        }
    }
}

/// The two numbers of a change.
fn numbers(place: usize, old: u16, new: u16) -> [u64; 2] {
    [place as u64, u64::from(old) << 16 | u64::from(new)]
}

/// A report's change of a number from 0: its place, its old word and its new one;
/// zeros where there is no room for it.
pub fn change(report: &[u64], number: usize) -> (u64, u16, u16) {
    match report.chunks_exact(2).nth(number) {
        Some(numbers) => (numbers[0], (numbers[1] >> 16) as u16, numbers[1] as u16),
        None => (0, 0, 0),
    }
}
