//! A take played from reset.

use super::Refused;
use crate::{ffi, version, Answer, Chip, Table, PLACES};

/// How many counts a replay keeps: one for each answer number up to 23.
pub const COUNTS: usize = 24;

/// What a replay gives.
#[derive(Clone, Debug)]
pub struct Replayed {
    /// What was answered: number 0, 1, 11, 12 or 13.
    pub answer: Answer,
    /// With 13 the number of the first bad record, from 1.
    pub bad: usize,
    /// The chip after the last record, with its records of page writes and with no area
    /// for lists; after a refusal the one after reset.
    pub chip: Chip,
    /// Lines stepped, that is the last record's line number.
    pub lines: u32,
    /// How often a record's call was refused, at the place of the number that it
    /// answered. At 0 nothing is counted.
    pub counts: [u32; COUNTS],
}

/// Plays a take from reset, record by record: lines are stepped until there are as
/// many as the record's line number says, and its call is made. Stepping has the
/// processor off the 8255 and draws nothing, so that screen mode 3 refuses no line.
/// A call that is refused is counted and passed over. The whole take is tested before anything is played; pixels go into
/// the store. Every start of the take gives `table`, which says nothing where the
/// take has none.
///
/// ```
/// use plus::take::{file_of, kind, replay, Record, Refused};
/// use plus::{Answer, Table, RAM, STORE};
///
/// let record = |line, kind, address, value| Record { line, kind, address, value };
/// let records = [
///     record(0, kind::WRITE_BC, 0, 9),
///     record(0, kind::WRITE_BD, 0, 7), // rows of 8 lines
///     record(3, kind::PAGE_WRITE, 0x6800, 100), // refused: no page is mapped
///     record(5, kind::WRITE_7F, 0, 0x82),
/// ];
/// let (ram, mut store) = (vec![0; RAM], vec![0; STORE]);
/// let file = file_of(b"", &records)?;
/// let played = replay(&ram, &mut store, Table::default(), &file).served()?;
/// assert_eq!(played.lines, 5);
/// assert_eq!((played.chip.crtc.counters.rc, played.chip.gate.mode), (5, 2));
/// assert_eq!(played.counts[Answer::NotMapped as usize], 1);
/// assert_eq!(played.counts.iter().sum::<u32>(), 1);
///
/// let refused = replay(&ram, &mut store, Table::default(), b"no take").served().unwrap_err();
/// assert_eq!(refused, Refused { answer: Answer::NoTrailer, record: 0 });
/// # Ok::<(), Refused>(())
/// ```
#[must_use]
pub fn replay(ram: &[u8], store: &mut [u8], table: Table, file: &[u8]) -> Replayed {
    version::check();
    let mut places = [[0; PLACES]; 2];
    let [song, picture] = &mut places;
    // SAFETY: the library reads and writes only within the slices it is lent.
    let ffi::Replayed {
        answer,
        bad,
        chip,
        lines,
        counts,
    } = unsafe {
        ffi::plus_replay(
            ram.as_ptr(),
            ram.len(),
            store.as_mut_ptr(),
            store.len(),
            song,
            picture,
            table,
            file.as_ptr(),
            file.len(),
        )
    };
    Replayed {
        answer,
        bad,
        chip: Chip::of(chip, places),
        lines,
        counts,
    }
}

impl Replayed {
    /// Itself where it was served, else the refusal.
    pub fn served(self) -> Result<Replayed, Refused> {
        if self.answer == Answer::Done {
            return Ok(self);
        }
        Err(Refused {
            answer: self.answer,
            record: self.bad,
        })
    }
}
