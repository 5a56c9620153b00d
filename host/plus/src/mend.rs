//! An old sound list mended: words with reserved codes or stray bits are replaced,
//! and a STOP is added where there is none.
//!
//! ```
//! use plus::mend::{mend_list, Change};
//!
//! // A reserved code, LOAD 7 38h, a pause of 0, LOOP and INT with stray bits.
//! let mut words = vec![0x3ABC, 0x0738, 0x1000, 0x4FDF];
//! let changes = mend_list(&mut words);
//! assert_eq!(words, [0x4000, 0x0738, 0x4000, 0x4011, 0x4020]);
//!
//! let change = |place, old, new| Change { place, old, new };
//! let expected = [
//!     change(0, 0x3ABC, 0x4000),
//!     change(2, 0x1000, 0x4000),
//!     change(3, 0x4FDF, 0x4011),
//!     change(4, 0x0000, 0x4020), // a STOP more
//! ];
//! assert_eq!(changes, expected);
//! assert_eq!(mend_list(&mut words), []); // nothing is left to mend
//! ```
//!
//! With buffers of one's own a call can be refused, and then changes nothing:
//!
//! ```
//! use plus::mend::{change, mend};
//! use plus::Answer;
//!
//! let (mut words, mut report) = ([0x5020, 0x1002, 0xEEEE], [0; 4]);
//! // Two of the three words are in use; 5020h is no STOP, so there are two changes.
//! assert_eq!(mend(&mut words, 2, &mut report[..3]).answer, Answer::ReportTooSmall);
//! assert_eq!(mend(&mut words[..2], 2, &mut report).answer, Answer::NoRoomForStop);
//! assert_eq!((words, report), ([0x5020, 0x1002, 0xEEEE], [0; 4]));
//!
//! let mended = mend(&mut words, 2, &mut report);
//! mended.answer.served()?;
//! assert_eq!((mended.used, mended.changes), (3, 2));
//! assert_eq!(words, [0x4000, 0x1002, 0x4020]);
//! let stop = change(&report, 1);
//! assert_eq!((stop.place, stop.old, stop.new), (2, 0xEEEE, 0x4020));
//! # Ok::<(), Answer>(())
//! ```

use crate::{ffi, version, Answer};

/// How many numbers of a report a change takes.
pub const CHANGE: usize = 2;

/// What mending gives.
#[repr(C)]
#[derive(Clone, Copy, Debug, PartialEq, Eq)]
pub struct Mended {
    /// What was answered: number 0, 1, 16 or 17.
    pub answer: Answer,
    /// How many words are in use afterwards: one more than before where a STOP was
    /// added.
    pub used: usize,
    /// How many changes the report has.
    pub changes: usize,
}

/// A word that mending has changed, or the STOP that it has added.
#[repr(C)]
#[derive(Clone, Copy, Debug, Default, PartialEq, Eq)]
pub struct Change {
    /// Where in the buffer, from 0.
    pub place: u64,
    /// What stood there before.
    pub old: u16,
    /// What stands there now.
    pub new: u16,
}

/// Mends the first words of a buffer where they stand, as many as are in use, and
/// reports every change, by rising places. 1000h and words that do nothing become
/// 4000h, and a control word keeps LOOP, INT and STOP and no other bit. If none of
/// them has STOP, 4020h goes after the last, and is reported last.
///
/// From a channel with no pause and no loop that is not muted the list plays as it
/// did, up to its first STOP or its end. The report has room for a change in every
/// [`CHANGE`] numbers, which [`change`] takes apart; room for one more than there are
/// words is always enough. Words and numbers beyond stay.
#[must_use]
pub fn mend(words: &mut [u16], used: usize, report: &mut [u64]) -> Mended {
    version::check();
    // SAFETY: the library reads and writes only within the slices it is lent.
    unsafe {
        ffi::plus_mend(
            words.as_mut_ptr(),
            words.len(),
            used,
            report.as_mut_ptr(),
            report.len(),
        )
    }
}

/// The change of a report with a number, from 0; all 0 where a report of this length
/// has no room for so many.
pub fn change(report: &[u64], number: usize) -> Change {
    version::check();
    // SAFETY: the library reads only within the slice it is lent.
    unsafe { ffi::plus_change(report.as_ptr(), report.len(), number) }
}

/// Mends a whole list, and gives the changes, by rising places. Room is lent for a
/// STOP, which holds 0, and for every change, so that nothing is refused.
pub fn mend_list(words: &mut Vec<u16>) -> Vec<Change> {
    let used = words.len();
    words.push(0);
    let mut report = vec![0; CHANGE * words.len()];
    let mended = mend(words, used, &mut report);
    debug_assert_eq!(mended.answer, Answer::Done);
    words.truncate(mended.used);
    let numbers = 0..mended.changes;
    numbers.map(|number| change(&report, number)).collect()
}
