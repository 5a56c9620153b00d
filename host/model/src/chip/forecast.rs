//! The length of a sound list, by the rule and without playing it.

use super::sound::{control, kind_of, word_at, LOOP, STOP};
use super::{answer, Kind, RAM};

/// The address of the first STOP from `start` on, or why there is none.
fn find_stop(ram: &[u8], start: u16) -> Result<u16, u8> {
    if ram.len() != RAM {
        return Err(answer::WRONG_LENGTH);
    }
    (start & 0xFFFE..=0xFFFE)
        .step_by(2)
        .find(|&address| control(word_at(ram, address)) & STOP != 0)
        .ok_or(answer::NO_STOP)
}

/// The list's bytes, its STOP included; nothing if the forecast is refused.
pub fn list(ram: &[u8], start: u16) -> &[u8] {
    match find_stop(ram, start) {
        Ok(stop) => &ram[(start & 0xFFFE) as usize..stop as usize + 2],
        Err(_) => &[],
    }
}

/// The answer, the lines, and the least and the most of the channel's own cycles.
#[derive(Clone, Copy, Debug, Default, PartialEq, Eq)]
pub struct Length {
    pub answer: u8,
    pub lines: u64,
    pub cycles: u64,
    pub most: u64,
}

pub fn forecast(ram: &[u8], start: u16, prescale: u8) -> Length {
    if let Err(answer) = find_stop(ram, start) {
        return Length {
            answer,
            ..Length::default()
        };
    }
    let words: Vec<u16> = list(ram, start)
        .chunks_exact(2)
        .map(|bytes| u16::from_le_bytes([bytes[0], bytes[1]]))
        .collect();

    let mut told = Length {
        answer: answer::DONE,
        ..Length::default()
    };
    let mut loads = 0;
    for (&word, passes) in words.iter().zip(passes(&words)) {
        let (lines, cycles) = one_pass(word, prescale);
        told.lines += passes * lines;
        told.cycles += passes * cycles;
        if kind_of(word) == Kind::Load {
            loads += passes;
        }
    }
    // At worst the processor takes two cycles each time that a LOAD is executed.
    told.most = told.cycles + 2 * loads;
    told
}

/// Lines and cycles of one word, one time through.
fn one_pass(word: u16, prescale: u8) -> (u64, u64) {
    let low = word as u64 & 0x0FFF;
    match kind_of(word) {
        Kind::Load => (1, 9),
        Kind::Pause if low != 0 => (low * (prescale as u64 + 1), 2),
        _ => (1, 2),
    }
}

/// How often each word of a list is passed. The last word is the STOP.
fn passes(words: &[u16]) -> Vec<u64> {
    let mut passes = vec![1; words.len()];
    // The latest REPEAT with no LOOP since: the first word after it, and K.
    let mut open: Option<(usize, u64)> = None;
    for (n, &word) in words[..words.len() - 1].iter().enumerate() {
        if kind_of(word) == Kind::Repeat {
            open = Some((n + 1, word as u64 & 0x0FFF));
        } else if control(word) & LOOP != 0 {
            if let Some((first, k)) = open.take() {
                passes[first..=n].fill(k + 1);
            }
        }
    }
    passes
}
