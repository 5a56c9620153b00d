//! Faults of playing a take.

use crate::by_hand::ByHand;
use crate::machine::Fault;
use crate::under_test::UnderTest;
use plus::take::{kind, open, record_at, replay, Record, Replayed, Take};
use plus::{Answer, Chip, Table};

/// Plays a take that is served by other rules, from a chip after reset.
fn played_by(
    ram: &[u8],
    store: &mut [u8],
    table: Table,
    file: &[u8],
    play: impl FnOnce(&mut ByHand<Chip>, &mut dyn Iterator<Item = Record>),
) -> Replayed {
    // Where it is refused nothing is played but this.
    let refused = replay(ram, &mut store.to_vec(), table, file);
    let Ok(served) = refused.clone().served() else {
        return refused;
    };
    let take = Take::open(file).expect("a take that is played");
    let mut by_hand = ByHand::new(ram, store, table);
    play(&mut by_hand, &mut take.records());
    let end = by_hand.end();
    Replayed {
        chip: end.chip,
        lines: end.lines,
        counts: end.counts,
        ..served
    }
}

/// A record's lines are stepped after its call.
pub struct LinesAfterTheCall;

impl Fault for LinesAfterTheCall {
    fn replay(ram: &[u8], store: &mut [u8], table: Table, file: &[u8]) -> Replayed {
        played_by(ram, store, table, file, |by_hand, records| {
            for record in records {
                let answer = by_hand.call(record);
                by_hand.count(answer);
                by_hand.step_to(record.line);
            }
        })
    }
}

/// A call that is refused is the last.
pub struct RefusedCallEnds;

impl Fault for RefusedCallEnds {
    fn replay(ram: &[u8], store: &mut [u8], table: Table, file: &[u8]) -> Replayed {
        played_by(ram, store, table, file, |by_hand, records| {
            for record in records {
                by_hand.play(record);
                if by_hand.counts.iter().any(|&count| count != 0) {
                    return;
                }
            }
        })
    }
}

/// A call that is refused is not counted.
pub struct RefusedNotCounted;

impl Fault for RefusedNotCounted {
    fn replay(ram: &[u8], store: &mut [u8], table: Table, file: &[u8]) -> Replayed {
        let mut replayed = replay(ram, store, table, file);
        replayed.counts.fill(0);
        replayed
    }
}

/// Calls that are refused are counted in one place.
pub struct CountedTogether;

impl Fault for CountedTogether {
    fn replay(ram: &[u8], store: &mut [u8], table: Table, file: &[u8]) -> Replayed {
        let mut replayed = replay(ram, store, table, file);
        let sum = replayed.counts.iter().sum();
        replayed.counts.fill(0);
        replayed.counts[Answer::NothingThere as usize] = sum;
        replayed
    }
}

/// The chip is unlocked before the first record.
pub struct NotFromReset;

impl Fault for NotFromReset {
    fn replay(ram: &[u8], store: &mut [u8], table: Table, file: &[u8]) -> Replayed {
        played_by(ram, store, table, file, |by_hand, records| {
            by_hand.chip.lock.unlocked = true;
            records.for_each(|record| by_hand.play(record));
        })
    }
}

/// The first record is left out.
pub struct FirstRecordSkipped;

impl Fault for FirstRecordSkipped {
    fn replay(ram: &[u8], store: &mut [u8], table: Table, file: &[u8]) -> Replayed {
        played_by(ram, store, table, file, |by_hand, records| {
            records.skip(1).for_each(|record| by_hand.play(record));
        })
    }
}

/// Where lines are stepped, they are one too many.
pub struct OneLineMore;

impl Fault for OneLineMore {
    fn replay(ram: &[u8], store: &mut [u8], table: Table, file: &[u8]) -> Replayed {
        played_by(ram, store, table, file, |by_hand, records| {
            for record in records {
                if by_hand.lines < record.line {
                    by_hand.chip.step_in_any_mode(ram);
                }
                by_hand.play(record);
            }
        })
    }
}

/// In mode 3 no line is stepped.
pub struct NoLinesInModeThree;

impl Fault for NoLinesInModeThree {
    fn replay(ram: &[u8], store: &mut [u8], table: Table, file: &[u8]) -> Replayed {
        played_by(ram, store, table, file, |by_hand, records| {
            for record in records {
                if by_hand.chip.gate.mode == 3 {
                    by_hand.lines = record.line;
                }
                by_hand.play(record);
            }
        })
    }
}

/// The take is tested before the lengths.
pub struct TakeBeforeLengths;

impl Fault for TakeBeforeLengths {
    fn replay(ram: &[u8], store: &mut [u8], table: Table, file: &[u8]) -> Replayed {
        let mut replayed = replay(ram, store, table, file);
        let opened = open(file);
        if opened.answer != Answer::Done {
            (replayed.answer, replayed.bad) = (opened.answer, opened.bad);
        }
        replayed
    }
}

/// What stands before a bad record is played.
pub struct PlayedUpToBad;

impl Fault for PlayedUpToBad {
    fn replay(ram: &[u8], store: &mut [u8], table: Table, file: &[u8]) -> Replayed {
        let refused = replay(ram, store, table, file);
        if refused.answer != Answer::BadRecord {
            return refused;
        }
        let mut by_hand = ByHand::<Chip>::new(ram, store, table);
        for number in 1..refused.bad {
            by_hand.play(record_at(file, number).record);
        }
        Replayed {
            chip: by_hand.end().chip,
            ..refused
        }
    }
}

/// A take played with each record made anew.
fn played_anew(
    ram: &[u8],
    store: &mut [u8],
    table: Table,
    file: &[u8],
    anew: impl Fn(Record) -> Record,
) -> Replayed {
    played_by(ram, store, table, file, |by_hand, records| {
        records.for_each(|record| by_hand.play(anew(record)));
    })
}

/// Kind 8 takes back the song editor's newest write.
pub struct PictureUndoOfSong;

impl Fault for PictureUndoOfSong {
    fn replay(ram: &[u8], store: &mut [u8], table: Table, file: &[u8]) -> Replayed {
        played_anew(ram, store, table, file, |record| match record.kind {
            kind::PICTURE_UNDO => Record {
                kind: kind::UNDO,
                ..record
            },
            _ => record,
        })
    }
}

/// Kind 7 is a write of the song editor.
pub struct PictureWriteOfSong;

impl Fault for PictureWriteOfSong {
    fn replay(ram: &[u8], store: &mut [u8], table: Table, file: &[u8]) -> Replayed {
        played_anew(ram, store, table, file, |record| match record.kind {
            kind::PICTURE_WRITE => Record {
                kind: kind::PAGE_WRITE,
                ..record
            },
            _ => record,
        })
    }
}

/// Every start of a take gives the song editor everything.
pub struct TableNotLent;

impl Fault for TableNotLent {
    fn replay(ram: &[u8], store: &mut [u8], _: Table, file: &[u8]) -> Replayed {
        replay(ram, store, Table::default(), file)
    }
}

/// Mutes are passed over.
pub struct MutesPassedOver;

impl Fault for MutesPassedOver {
    fn replay(ram: &[u8], store: &mut [u8], table: Table, file: &[u8]) -> Replayed {
        played_by(ram, store, table, file, |by_hand, records| {
            for record in records {
                by_hand.step_to(record.line);
                if record.kind != kind::MUTE {
                    by_hand.play(record);
                }
            }
        })
    }
}

/// Kind 10 mutes whatever its value is.
pub struct MutedByValue0;

impl Fault for MutedByValue0 {
    fn replay(ram: &[u8], store: &mut [u8], table: Table, file: &[u8]) -> Replayed {
        played_anew(ram, store, table, file, |record| match record.kind {
            kind::MUTE => Record { value: 1, ..record },
            _ => record,
        })
    }
}

/// Of the channel that kind 10 mutes 8 bits count.
pub struct MuteByLowBits;

impl Fault for MuteByLowBits {
    fn replay(ram: &[u8], store: &mut [u8], table: Table, file: &[u8]) -> Replayed {
        played_anew(ram, store, table, file, |record| match record.kind {
            kind::MUTE => Record {
                address: record.address & 0xFF,
                ..record
            },
            _ => record,
        })
    }
}
