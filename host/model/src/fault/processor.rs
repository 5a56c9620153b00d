//! Faults of what the processor takes from a line, and of the forecast's two
//! numbers of cycles.

use super::lent::Lent;
use crate::machine::Fault;
use plus::{kind, Access, Answer, Chip, Length, Report};

/// A line in which a channel that is reported to have done one of these things
/// costs more by what the processor does.
fn disturbed(chip: &mut Chip, lent: &mut Lent, kinds: &[u8]) -> (Answer, Report) {
    let (answer, mut report) = lent.call(chip);
    for (reported, access) in report.kinds.into_iter().zip(lent.accesses) {
        if kinds.contains(&reported) {
            report.cycles += access as u8;
        }
    }
    (answer, report)
}

lines! {
    /// A PAUSE is disturbed like a LOAD.
    PauseDisturbed: |chip, lent| disturbed(chip, lent, &[kind::PAUSE]);

    /// So are the words that are neither.
    OthersDisturbed: |chip, lent| {
        disturbed(chip, lent, &[kind::REPEAT, kind::CONTROL, kind::NOTHING])
    };

    /// A channel that sits out pays for the processor.
    SatOutDisturbed: |chip, lent| disturbed(chip, lent, &[kind::SAT_OUT]);

    /// Any access takes two cycles.
    OnTakesTwo: |chip, lent| {
        lent.accesses = lent.accesses.map(|access| match access {
            Access::On => Access::PsgWrite,
            access => access,
        });
        lent.call(chip)
    };

    /// Channel 0's LOAD meets what the processor does for channel 1.
    AccessOfChannel1: |chip, lent| {
        lent.accesses[0] = lent.accesses[1];
        lent.call(chip)
    };

    /// Every line is as if the processor were off the 8255.
    AccessesIgnored: |chip, lent| {
        lent.accesses = [Access::Off; 3];
        lent.call(chip)
    };

    /// What the processor writes to the PSG takes the place of what is loaded.
    LoadLost: |chip, lent| {
        let psg = chip.sound.psg;
        let called = lent.call(chip);
        if lent.accesses.contains(&Access::PsgWrite) {
            chip.sound.psg = psg;
        }
        called
    };
}

/// Of the most cycles a LOAD in a loop counts once.
pub struct MostOnce;

impl Fault for MostOnce {
    fn forecast(ram: &[u8], start: u16, prescale: u8) -> Length {
        let mut told = plus::forecast(ram, start, prescale);
        let words = told.list(ram).chunks_exact(2);
        let loads = words.filter(|word| word[1] < 0x10).count();
        told.most = told.cycles + 2 * loads as u64;
        told
    }
}

/// The least cycles are told as the most.
pub struct MostIsLeast;

impl Fault for MostIsLeast {
    fn forecast(ram: &[u8], start: u16, prescale: u8) -> Length {
        let mut told = plus::forecast(ram, start, prescale);
        told.most = told.cycles;
        told
    }
}

/// The most cycles are told as the least.
pub struct LeastIsMost;

impl Fault for LeastIsMost {
    fn forecast(ram: &[u8], start: u16, prescale: u8) -> Length {
        let mut told = plus::forecast(ram, start, prescale);
        told.cycles = told.most;
        told
    }
}

/// A forecast that is refused tells cycles.
pub struct MostThoughRefused;

impl Fault for MostThoughRefused {
    fn forecast(ram: &[u8], start: u16, prescale: u8) -> Length {
        let mut told = plus::forecast(ram, start, prescale);
        if told.answer != Answer::Done {
            told.most = 2;
        }
        told
    }
}
