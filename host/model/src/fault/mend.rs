//! Faults of mending.

use crate::machine::Fault;
use plus::mend::{change, mend, Change, Mended, CHANGE};
use plus::Answer;

/// The word that is added.
const STOP: u16 = 0x4020;

type Mend = fn(&mut [u16], usize, &mut [u64]) -> Mended;
type Read = fn(&[u64], usize) -> Change;

/// A fault of mending: the call in its place.
macro_rules! mends {
    ($($(#[$about:meta])* $fault:ident: $mend:expr;)+) => {$(
        $(#[$about])*
        pub struct $fault;

        impl Fault for $fault {
            fn mend(words: &mut [u16], used: usize, report: &mut [u64]) -> Mended {
                let mend: Mend = $mend;
                mend(words, used, report)
            }
        }
    )+};
}

/// A fault of the rule: what a word becomes, and which word is a STOP.
macro_rules! rules {
    ($($(#[$about:meta])* $fault:ident: $new_of:expr, $stops:expr;)+) => {
        mends! {$(
            $(#[$about])*
            $fault: |words, used, report| mend_by(words, used, report, $new_of, |list| {
                let stops: fn(u16) -> bool = $stops;
                list.iter().any(|&word| stops(word))
            });
        )+}
    };
}

/// A fault of the report: its changes made anew, by how many words are in use.
macro_rules! reports {
    ($($(#[$about:meta])* $fault:ident: $anew:expr;)+) => {
        mends! {$(
            $(#[$about])*
            $fault: |words, used, report| report_by(words, used, report, $anew);
        )+}
    };
}

/// A fault of a change's reading: the call in its place.
macro_rules! changes {
    ($($(#[$about:meta])* $fault:ident: $read:expr;)+) => {$(
        $(#[$about])*
        pub struct $fault;

        impl Fault for $fault {
            fn mend_change(report: &[u64], number: usize) -> Change {
                let read: Read = $read;
                read(report, number)
            }
        }
    )+};
}

/// An answer with nothing else told.
fn nothing(answer: Answer) -> Mended {
    Mended {
        answer,
        used: 0,
        changes: 0,
    }
}

/// What a word becomes.
fn new_of(word: u16) -> u16 {
    let mut words = [word, 0];
    let mended = mend(&mut words, 1, &mut [0; 4]);
    debug_assert_eq!(mended.answer, Answer::Done);
    words[0]
}

/// Whether a word is a STOP.
fn stops(word: u16) -> bool {
    mend(&mut [word, 0], 1, &mut [0; 4]).used == 1
}

/// What the core would answer in buffers like these.
fn answer(words: &[u16], used: usize, report: &[u64]) -> Answer {
    mend(&mut words.to_vec(), used, &mut report.to_vec()).answer
}

/// Puts changes where a report begins.
fn put(report: &mut [u64], changes: &[Change]) {
    for (numbers, change) in report.chunks_exact_mut(CHANGE).zip(changes) {
        let words = u64::from(change.old) << 16 | u64::from(change.new);
        numbers.copy_from_slice(&[change.place, words]);
    }
}

/// The changes by other rules, what a word becomes and whether a list has a STOP, or
/// why there are none.
fn changes_by(
    words: &[u16],
    used: usize,
    new_of: fn(u16) -> u16,
    has_stop: fn(&[u16]) -> bool,
) -> Result<Vec<Change>, Answer> {
    let list = words.get(..used).ok_or(Answer::WrongLength)?;
    let mended = (0..).zip(list).map(|(place, &old)| Change {
        place,
        old,
        new: new_of(old),
    });
    let mut changes: Vec<Change> = mended.filter(|change| change.old != change.new).collect();
    if !has_stop(list) {
        changes.push(Change {
            place: used as u64,
            old: *words.get(used).ok_or(Answer::NoRoomForStop)?,
            new: STOP,
        });
    }
    Ok(changes)
}

/// Mends by other rules.
fn mend_by(
    words: &mut [u16],
    used: usize,
    report: &mut [u64],
    new_of: fn(u16) -> u16,
    has_stop: fn(&[u16]) -> bool,
) -> Mended {
    let changes = match changes_by(words, used, new_of, has_stop) {
        Ok(changes) if changes.len() <= report.len() / CHANGE => changes,
        Ok(_) => return nothing(Answer::ReportTooSmall),
        Err(answer) => return nothing(answer),
    };
    put(report, &changes);
    for change in &changes {
        words[change.place as usize] = change.new;
    }
    let past_last = changes.last().map_or(0, |change| change.place as usize + 1);
    Mended {
        answer: Answer::Done,
        used: used.max(past_last),
        changes: changes.len(),
    }
}

/// Mends, and reports other changes in the place of those that there are. Numbers
/// beyond stay.
fn report_by(
    words: &mut [u16],
    used: usize,
    report: &mut [u64],
    anew: fn(&mut Vec<Change>, usize),
) -> Mended {
    let before = report.to_vec();
    let mended = mend(words, used, report);
    let numbers = 0..mended.changes;
    let mut changes = numbers.map(|number| change(report, number)).collect();
    anew(&mut changes, used);
    report.copy_from_slice(&before);
    put(report, &changes);
    Mended {
        changes: changes.len(),
        ..mended
    }
}

rules! {
    /// 1000h stays.
    Pause0Stays: |word| if word == 0x1000 { word } else { new_of(word) }, stops;

    /// Every pause becomes 4000h.
    PausesGone: |word| if word >> 12 == 1 { 0x4000 } else { new_of(word) }, stops;

    /// Code 3 stays.
    Code3Stays: |word| if word >> 12 == 3 { word } else { new_of(word) }, stops;

    /// Code F stays.
    CodeFStays: |word| if word >> 12 == 15 { word } else { new_of(word) }, stops;

    /// A reserved code keeps its low bits.
    LowBitsOfReserved: |word| match word >> 12 {
        3 | 5.. => 0x4000 | word & 0x0031,
        _ => new_of(word),
    }, stops;

    /// Bit 0 of a control word is cleared.
    LoopCleared: |word| new_of(word) & if word >> 12 == 4 { 0x4030 } else { 0xFFFF }, stops;

    /// Bit 4 of a control word is cleared.
    IntCleared: |word| new_of(word) & if word >> 12 == 4 { 0x4021 } else { 0xFFFF }, stops;

    /// Bit 5 of a control word is cleared with the stray bits.
    StopCleared: |word| new_of(word) & if word >> 12 == 4 { 0x4011 } else { 0xFFFF }, stops;

    /// Stray bits stay.
    StrayBitsStay: |word| if word >> 12 == 4 { word } else { new_of(word) }, stops;

    /// A STOP with stray bits is none.
    StrayStopUnseen: new_of, |word| matches!(word, 0x4020 | 0x4021 | 0x4030 | 0x4031);

    /// A STOP with LOOP or INT is none.
    JoinedStopUnseen: new_of, |word| stops(word) && word & 0x0011 == 0;

    /// 5020h is a STOP.
    StopOf5020: new_of, |word| word == 0x5020 || stops(word);

    /// Bit 5 is a STOP in any word.
    StopByBitAlone: new_of, |word| word & 0x0020 != 0;
}

reports! {
    /// The added STOP is not reported.
    AddedStopUnreported: |changes, used| changes.retain(|change| change.place != used as u64);

    /// The added STOP is reported only if another word was there.
    AddedStopReportedIfOther: |changes, used| {
        changes.retain(|change| change.place != used as u64 || change.old != STOP);
    };

    /// The old word of the added STOP is told as 0.
    AddedStopOver0: |changes, used| {
        for change in changes.iter_mut().filter(|change| change.place == used as u64) {
            change.old = 0;
        }
    };

    /// The added STOP is reported first.
    AddedStopFirst: |changes, used| {
        if changes.last().is_some_and(|change| change.place == used as u64) {
            changes.rotate_right(1);
        }
    };

    /// Places count from 1.
    PlacesFrom1: |changes, _| changes.iter_mut().for_each(|change| change.place += 1);

    /// The last place comes first.
    PlacesFall: |changes, _| changes.reverse();

    /// The old word is told as the new one, and the other way round.
    OldForNew: |changes, _| for change in changes {
        (change.old, change.new) = (change.new, change.old);
    };
}

mends! {
    /// The report's room is tested before that for a STOP.
    ReportBeforeStop: |words, used, report| {
        let mended = mend(words, used, report);
        let with_room = [&*words, &[0]].concat();
        match (mended.answer, answer(&with_room, used, report)) {
            (Answer::NoRoomForStop, Answer::ReportTooSmall) => nothing(Answer::ReportTooSmall),
            _ => mended,
        }
    };

    /// The room for a STOP and in the report are tested before the words in use are.
    LengthTestedLast: |words, used, report| {
        let mended = mend(words, used, report);
        match (mended.answer, answer(words, words.len(), report)) {
            (Answer::WrongLength, there @ (Answer::NoRoomForStop | Answer::ReportTooSmall)) => {
                nothing(there)
            }
            _ => mended,
        }
    };

    /// How many are in use is read by 32 bits.
    InUseBy32Bits: |words, used, report| mend(words, used & 0xFFFF_FFFF, report);

    /// A buffer whose words are all in use is refused.
    AllInUseRefused: |words, used, report| match used == words.len() {
        true => nothing(Answer::WrongLength),
        false => mend(words, used, report),
    };

    /// With no word in use nothing is done.
    NoneInUseLeft: |words, used, report| match used {
        0 => nothing(Answer::Done),
        _ => mend(words, used, report),
    };

    /// A STOP beyond the words in use is one of theirs.
    StopBeyondSeen: |words, used, report| {
        let beyond = words.get(used..).unwrap_or_default();
        match beyond.iter().any(|&word| stops(word)) {
            true => mend_by(words, used, report, new_of, |_| true),
            false => mend(words, used, report),
        }
    };

    /// A report that the changes fill is too small.
    FullReportRefused: |words, used, report| {
        let less = &report[..report.len().saturating_sub(CHANGE)];
        match answer(words, used, less) {
            Answer::Done => mend(words, used, report),
            refusal => nothing(refusal),
        }
    };

    /// A last number that is alone is room for a change.
    HalfAChange: |words, used, report| {
        let mut longer = [&*report, &[0]].concat();
        let mended = mend(words, used, &mut longer);
        report.copy_from_slice(&longer[..report.len()]);
        mended
    };

    /// A refused call has mended the words.
    MendedThoughRefused: |words, used, report| {
        let mended = mend(words, used, report);
        if mended.answer != Answer::Done {
            words.iter_mut().for_each(|word| *word = new_of(*word));
        }
        mended
    };

    /// A refused call has reported the changes that had room.
    ReportedThoughRefused: |words, used, report| {
        let mended = mend(words, used, report);
        if mended.answer == Answer::ReportTooSmall {
            let mut whole = vec![0; CHANGE * (used + 1)];
            let _ = mend(&mut words.to_vec(), used, &mut whole);
            report.copy_from_slice(&whole[..report.len()]);
        }
        mended
    };

    /// A refused call tells how many words are in use.
    InUseThoughRefused: |words, used, report| {
        let mended = mend(words, used, report);
        match mended.answer {
            Answer::Done => mended,
            _ => Mended { used, ..mended },
        }
    };

    /// The added STOP is not among the words in use afterwards.
    AddedStopNotInUse: |words, used, report| {
        let mended = mend(words, used, report);
        let used = mended.used.min(used);
        Mended { used, ..mended }
    };

    /// Words beyond those in use are mended too.
    BeyondMended: |words, used, report| {
        let mended = mend(words, used, report);
        if mended.answer == Answer::Done {
            let beyond = &mut words[mended.used..];
            beyond.iter_mut().for_each(|word| *word = new_of(*word));
        }
        mended
    };

    /// Numbers beyond the changes are cleared.
    BeyondReportCleared: |words, used, report| {
        let mended = mend(words, used, report);
        if mended.answer == Answer::Done {
            report[CHANGE * mended.changes..].fill(0);
        }
        mended
    };
}

changes! {
    /// Changes are numbered from 1.
    ChangesFrom1: |report, number| change(report, number.wrapping_sub(1));

    /// Beyond the report's room the last change is given.
    LastChangeBeyond: |report, number| {
        let room = report.len() / CHANGE;
        change(report, number.min(room.saturating_sub(1)))
    };

    /// A last number that is alone is a change's place.
    HalfAChangeRead: |report, number| change(&[report, &[0]].concat(), number);

    /// A place is read by 32 bits.
    PlaceBy32Bits: |report, number| {
        let change = change(report, number);
        let place = change.place & 0xFFFF_FFFF;
        Change { place, ..change }
    };
}
