//! Mending compared: the same words, with so many of them in use, and the same
//! report lent to the core and to another machine, with what they answer and leave
//! in both buffers compared.

pub mod played;

use crate::machine::Machine;
use crate::random::{old_list, Random};
use plus::mend::{self, Mended, CHANGE};
use plus::Answer;

/// Words of a buffer beyond those in use, and what a report holds before the call.
const SPARE: usize = 3;
const HELD: u64 = 0xEEEE_EEEE_EEEE_EEEE;

/// The word that is added.
const STOP: u16 = 0x4020;

/// How often mending gave each answer number, how often it added a STOP, and how
/// often over a word that was the same.
#[derive(Clone, Copy, Debug, Default)]
pub struct Tally {
    pub answers: [u64; 18],
    pub added: u64,
    pub over_the_same: u64,
    pub changes: u64,
}

/// Every word mended by itself, with and without room for a STOP.
pub fn each_word<M: Machine>() -> Result<Tally, String> {
    let mut tally = Tally::default();
    for word in 0..=0xFFFF {
        tally.near_edges::<M>(&[word, 0x1234, 0x4020, 0x5678], 1)?;
    }
    Ok(tally)
}

/// Random lists, each in buffers and with reports of every length near those that
/// are just enough. A word after the last is often 4020h.
pub fn old_lists<M: Machine>(count: u64, seed: u64) -> Result<Tally, String> {
    let mut random = Random::new(seed);
    let mut tally = Tally::default();
    for _ in 0..count {
        let mut words = old_list(&mut random);
        let used = words.len();
        words.push(random.pick(&[STOP, 0, 0x1000, 0x4FFF]));
        words.resize_with(used + SPARE, || random.word());
        tally.near_edges::<M>(&words, used)?;
    }
    Ok(tally)
}

/// Every set of reasons to refuse a call: more words in use than there are, no STOP
/// and no room for one, a report that is too small.
pub fn refusals<M: Machine>() -> Result<Tally, String> {
    let mut tally = Tally::default();
    for reasons in 0..8 {
        let has = |reason: u8| reasons & reason != 0;
        let last = if has(2) { 0x5020 } else { 0x4F20 };
        let words = [0x3ABC, 0x0738, last];
        let used = words.len() + usize::from(has(1));
        let report = if has(4) { 2 * CHANGE - 1 } else { 4 * CHANGE };
        tally.mend::<M>(&words, used, report)?;
    }
    Ok(tally)
}

impl Tally {
    /// Words in buffers and with reports of all lengths that are just enough, a few
    /// less and a few more. The buffer has more than are in use.
    fn near_edges<M: Machine>(&mut self, words: &[u16], used: usize) -> Result<(), String> {
        let room = CHANGE * (used + 1);
        let changes = self.mend::<M>(words, used, room)?.changes;
        let enough = CHANGE * changes;
        for length in used.saturating_sub(1)..=used + 2 {
            for report in (0..2).chain(enough.saturating_sub(3)..=enough + 3) {
                self.mend::<M>(&words[..length], used, report)?;
            }
        }
        for used in [words.len() + 1, 1 << 32, 1 << 63, usize::MAX] {
            self.mend::<M>(words, used, room)?;
        }
        Ok(())
    }

    /// Mends on both, and what is mended once more.
    fn mend<M: Machine>(
        &mut self,
        words: &[u16],
        used: usize,
        report: usize,
    ) -> Result<Mended, String> {
        let mut lent = Lent {
            words: words.to_vec(),
            report: vec![HELD; report],
        };
        let mended = lent.mend::<M>(used)?;
        self.answers[mended.answer as usize] += 1;
        self.changes += mended.changes as u64;
        if mended.answer != Answer::Done {
            return Ok(mended);
        }
        lent.changes::<M>()?;
        if mended.used > used {
            self.added += 1;
            self.over_the_same += u64::from(words[used] == STOP);
        }
        let (after, nothing) = (
            lent.clone(),
            Mended {
                changes: 0,
                ..mended
            },
        );
        let again = lent.mend::<M>(mended.used)?;
        match (again, lent) == (nothing, after) {
            true => Ok(mended),
            false => Err(format!("{words:04X?}, {used} in use: mended twice")),
        }
    }
}

/// What is lent to a call.
#[derive(Clone, Debug, PartialEq, Eq)]
struct Lent {
    words: Vec<u16>,
    report: Vec<u64>,
}

impl Lent {
    /// Mends on both, in these buffers and in others like them.
    fn mend<M: Machine>(&mut self, used: usize) -> Result<Mended, String> {
        let (before, mut other) = (self.clone(), self.clone());
        let mended = mend::mend(&mut self.words, used, &mut self.report);
        let expected = M::mend(&mut other.words, used, &mut other.report);
        if (mended, &*self) != (expected, &other) {
            return Err(format!(
                "{used} in use of {before:04X?}:\ncore gives {mended:?} {self:04X?}\n\
                 and not {expected:?} {other:04X?}"
            ));
        }
        if mended.answer != Answer::Done && *self != before {
            return Err(format!(
                "{used} in use of {before:04X?}: refused, and changed"
            ));
        }
        Ok(mended)
    }

    /// Reads every change that the report has room for on both, and some beyond.
    fn changes<M: Machine>(&self) -> Result<(), String> {
        let far = [1 << 32, 1 << 63, usize::MAX];
        for number in (0..self.report.len() / CHANGE + 2).chain(far) {
            let change = mend::change(&self.report, number);
            let expected = M::mend_change(&self.report, number);
            if change != expected {
                let report = &self.report;
                return Err(format!(
                    "change {number} of {report:04X?}: core gives {change:04X?}\n\
                     and not {expected:04X?}"
                ));
            }
        }
        Ok(())
    }
}
