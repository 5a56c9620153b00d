//! Request L10: an old list mended, every change reported, and the mended words
//! played beside the old ones.

use model::compare::mend::played;
use model::random::{old_list, Random};
use model::under_test::{put_words, UnderTest};
use model::{held, Machine};
use plus::mend::{Change, Mended, CHANGE};
use plus::{Access, Answer, Channel, RAM};

/// What a report holds before a call.
const HELD: u64 = 0xEEEE_EEEE_EEEE_EEEE;

/// What a word becomes, by the request's sentences.
fn new_of(word: u16) -> u16 {
    match word >> 12 {
        0 | 2 => word,
        1 if word == 0x1000 => 0x4000,
        1 => word,
        4 => word & 0b0100_0000_0011_0001,
        _ => 0x4000,
    }
}

/// Whether a word is a STOP: code 4 and bit 5.
fn stops(word: u16) -> bool {
    word >> 12 == 4 && word & 1 << 5 != 0
}

fn change(place: u64, old: u16, new: u16) -> Change {
    Change { place, old, new }
}

/// The changes of the words in use, and of the STOP where none of them has one.
fn changes_of(words: &[u16], used: usize) -> Vec<Change> {
    let list = &words[..used];
    let all = (0..).zip(list).map(|(n, &old)| change(n, old, new_of(old)));
    let mut changes: Vec<Change> = all.filter(|change| change.old != change.new).collect();
    if !list.iter().any(|&word| stops(word)) {
        changes.push(change(used as u64, words[used], 0x4020));
    }
    changes
}

fn told(answer: Answer, used: usize, changes: usize) -> Mended {
    Mended {
        answer,
        used,
        changes,
    }
}

/// What mending gives with more room in the report than it takes, which stays as it
/// was: the buffer and the changes.
fn mended<M: Machine>(words: &[u16], used: usize) -> (Vec<u16>, Vec<Change>) {
    let mut buffer = words.to_vec();
    let mut report = vec![HELD; CHANGE * (used + 1) + 3];
    let given = M::mend(&mut buffer, used, &mut report);
    assert_eq!(given.answer, Answer::Done, "{words:04X?}");
    let beyond = &report[CHANGE * given.changes..];
    assert!(beyond.iter().all(|&number| number == HELD));
    let changes: Vec<Change> = (0..given.changes)
        .map(|number| M::mend_change(&report, number))
        .collect();
    let added = changes.iter().filter(|change| change.place == used as u64);
    assert_eq!(given.used, used + added.count(), "{words:04X?}");
    (buffer, changes)
}

/// Words become these, with these changes. All but the last of a buffer are in use.
fn becomes<M: Machine>(words: &[u16], after: &[u16], changes: &[Change]) {
    let (buffer, reported) = mended::<M>(words, words.len() - 1);
    assert_eq!(buffer, after, "{words:04X?}");
    assert_eq!(reported, changes, "{words:04X?}");
}

/// A call is refused, and both buffers are as they were.
fn is_refused<M: Machine>(words: &[u16], used: usize, report: usize, answer: Answer) {
    let (mut buffer, mut numbers) = (words.to_vec(), vec![HELD; report]);
    let given = M::mend(&mut buffer, used, &mut numbers);
    let shown = format!("{words:04X?}, {used} in use, a report of {report}");
    assert_eq!(given, told(answer, 0, 0), "{shown}");
    assert_eq!(buffer, words, "{shown}");
    assert_eq!(numbers, vec![HELD; report], "{shown}");
}

/// A call is served, with as many words in use afterwards and as many changes.
fn is_served<M: Machine>(words: &[u16], used: usize, report: usize, after: (usize, usize)) {
    let (mut buffer, mut numbers) = (words.to_vec(), vec![HELD; report]);
    let given = M::mend(&mut buffer, used, &mut numbers);
    let shown = format!("{words:04X?}, {used} in use, a report of {report}");
    assert_eq!(given, told(Answer::Done, after.0, after.1), "{shown}");
}

held!(words_that_do_nothing_become_4000h,
    fails_with Pause0Stays, PausesGone, Code3Stays, CodeFStays, LowBitsOfReserved);
fn words_that_do_nothing_become_4000h<M: Machine>() {
    let stop = 0x4020;
    for old in [
        0x1000, 0x3000, 0x3ABC, 0x3FFF, 0x5000, 0x5020, 0x5ABC, 0x6001, 0x7010, 0x8031, 0x9000,
        0xA123, 0xB456, 0xC789, 0xDABC, 0xEDEF, 0xF000, 0xFFFF,
    ] {
        becomes::<M>(
            &[old, stop, 0],
            &[0x4000, stop, 0],
            &[change(0, old, 0x4000)],
        );
    }
    // LOADs, REPEATs and all other PAUSEs are left.
    for word in [
        0x0000, 0x0738, 0x0FFF, 0x1001, 0x1002, 0x1FFF, 0x2000, 0x2003, 0x2FFF,
    ] {
        becomes::<M>(&[word, stop, 0], &[word, stop, 0], &[]);
    }
}

held!(of_a_control_word_three_bits_stay,
    fails_with LoopCleared, IntCleared, StopCleared, StrayBitsStay);
fn of_a_control_word_three_bits_stay<M: Machine>() {
    for (old, new) in [
        (0x4002, 0x4000),
        (0x4FCE, 0x4000),
        (0x4003, 0x4001),
        (0x4FCF, 0x4001),
        (0x4012, 0x4010),
        (0x4FDE, 0x4010),
        (0x4FDF, 0x4011),
        (0x4120, 0x4020),
        (0x4FEE, 0x4020),
        (0x4FEF, 0x4021),
        (0x4FFE, 0x4030),
        (0x4FFF, 0x4031),
    ] {
        becomes::<M>(&[old, 0x4020, 0], &[new, 0x4020, 0], &[change(0, old, new)]);
    }
    for word in [
        0x4000, 0x4001, 0x4010, 0x4011, 0x4020, 0x4021, 0x4030, 0x4031,
    ] {
        becomes::<M>(&[word, 0x4020, 0], &[word, 0x4020, 0], &[]);
    }
}

held!(every_word_alone,
    fails_with Pause0Stays, PausesGone, Code3Stays, CodeFStays, LowBitsOfReserved, LoopCleared,
        IntCleared, StopCleared, StrayBitsStay, StrayStopUnseen, JoinedStopUnseen, StopOf5020,
        StopByBitAlone);
fn every_word_alone<M: Machine>() {
    for word in 0..=0xFFFF {
        let new = new_of(word);
        let mut changes = vec![change(0, word, new)];
        changes.retain(|change| change.old != change.new);
        match stops(word) {
            true => becomes::<M>(&[word, 0x1234], &[new, 0x1234], &changes),
            false => {
                changes.push(change(1, 0x1234, 0x4020));
                becomes::<M>(&[word, 0x1234], &[new, 0x4020], &changes);
            }
        }
    }
}

held!(every_word_in_one_list);
fn every_word_in_one_list<M: Machine>() {
    let words: Vec<u16> = (0..=0xFFFF).collect();
    let after: Vec<u16> = words.iter().copied().map(new_of).collect();
    let (buffer, changes) = mended::<M>(&words, words.len());
    assert!(buffer == after);
    assert!(changes == changes_of(&words, words.len()));
    // 1000h, the codes 3 and 5 to F, and of code 4 all but eight words.
    assert_eq!(changes.len(), 1 + 12 * 4_096 + 4_088);
}

held!(a_stop_is_added_after_the_last_word, fails_with AddedStopNotInUse, AddedStopUnreported);
fn a_stop_is_added_after_the_last_word<M: Machine>() {
    becomes::<M>(
        &[0x0738, 0x1002, 0xEEEE],
        &[0x0738, 0x1002, 0x4020],
        &[change(2, 0xEEEE, 0x4020)],
    );
    // After LOOP, INT, and what only looks like a STOP.
    for (old, new) in [
        (0x4001, 0x4001),
        (0x4011, 0x4011),
        (0x4FDF, 0x4011),
        (0x0020, 0x0020),
        (0x1020, 0x1020),
        (0x2020, 0x2020),
    ] {
        let (buffer, changes) = mended::<M>(&[old, 0xEEEE], 1);
        assert_eq!(buffer, [new, 0x4020], "{old:04X}");
        assert_eq!(changes.last(), Some(&change(1, 0xEEEE, 0x4020)));
    }
}

held!(a_reserved_code_is_no_stop, fails_with StopOf5020, StopByBitAlone);
fn a_reserved_code_is_no_stop<M: Machine>() {
    for old in [0x3020, 0x5020, 0x6020, 0xC020, 0xF020, 0xFFFF] {
        becomes::<M>(
            &[old, 0],
            &[0x4000, 0x4020],
            &[change(0, old, 0x4000), change(1, 0, 0x4020)],
        );
    }
}

held!(a_stop_with_other_bits_is_one, fails_with StrayStopUnseen, JoinedStopUnseen);
fn a_stop_with_other_bits_is_one<M: Machine>() {
    for (old, new) in [(0x4F20, 0x4020), (0x4022, 0x4020), (0x4FFF, 0x4031)] {
        becomes::<M>(
            &[old, 0x0738, 0x9999],
            &[new, 0x0738, 0x9999],
            &[change(0, old, new)],
        );
    }
    for stop in [0x4020, 0x4021, 0x4030, 0x4031] {
        becomes::<M>(&[stop, 0x0738, 0x9999], &[stop, 0x0738, 0x9999], &[]);
    }
}

held!(no_word_in_use_is_a_list_too, fails_with NoneInUseLeft, StopBeyondSeen);
fn no_word_in_use_is_a_list_too<M: Machine>() {
    for old in [0x0000, 0x1000, 0x4020, 0xFFFF] {
        becomes::<M>(&[old], &[0x4020], &[change(0, old, 0x4020)]);
    }
    is_refused::<M>(&[], 0, 9, Answer::NoRoomForStop);
}

held!(words_beyond_those_in_use_stay, fails_with BeyondMended, StopBeyondSeen);
fn words_beyond_those_in_use_stay<M: Machine>() {
    let words = [0x5000, 0x4020, 0x1000, 0x5020, 0x4FFF];
    let (buffer, changes) = mended::<M>(&words, 2);
    assert_eq!(buffer, [0x4000, 0x4020, 0x1000, 0x5020, 0x4FFF]);
    assert_eq!(changes, [change(0, 0x5000, 0x4000)]);
    // A STOP there is none of the list's.
    let words = [0x5000, 0x0738, 0x1000, 0x4020, 0x4FFF];
    let (buffer, changes) = mended::<M>(&words, 2);
    assert_eq!(buffer, [0x4000, 0x0738, 0x4020, 0x4020, 0x4FFF]);
    let expected = [change(0, 0x5000, 0x4000), change(2, 0x1000, 0x4020)];
    assert_eq!(changes, expected);
}

held!(changes_are_reported_in_rising_order,
    fails_with AddedStopFirst, PlacesFrom1, PlacesFall, OldForNew);
fn changes_are_reported_in_rising_order<M: Machine>() {
    becomes::<M>(
        &[0x0738, 0x1000, 0x3ABC, 0x1002, 0x4FDF, 0xF020, 0x1234],
        &[0x0738, 0x4000, 0x4000, 0x1002, 0x4011, 0x4000, 0x4020],
        &[
            change(1, 0x1000, 0x4000),
            change(2, 0x3ABC, 0x4000),
            change(4, 0x4FDF, 0x4011),
            change(5, 0xF020, 0x4000),
            change(6, 0x1234, 0x4020),
        ],
    );
}

held!(the_added_stop_is_a_change_over_anything,
    fails_with AddedStopUnreported, AddedStopReportedIfOther, AddedStopOver0);
fn the_added_stop_is_a_change_over_anything<M: Machine>() {
    for old in [0x0000, 0x4000, 0x4020, 0x4021, 0x5020, 0xFFFF] {
        becomes::<M>(&[0x0738, old], &[0x0738, 0x4020], &[change(1, old, 0x4020)]);
    }
}

held!(the_added_stop_needs_room_in_the_report,
    fails_with AddedStopReportedIfOther, FullReportRefused, HalfAChange);
fn the_added_stop_needs_room_in_the_report<M: Machine>() {
    // Over 4020h too.
    for after in [0x4020, 0x1234] {
        for report in [0, 1] {
            is_refused::<M>(&[0x0738, after], 1, report, Answer::ReportTooSmall);
        }
        for report in [2, 3] {
            is_served::<M>(&[0x0738, after], 1, report, (2, 1));
        }
    }
}

held!(a_change_is_two_numbers, fails_with PlacesFrom1, OldForNew, BeyondReportCleared);
fn a_change_is_two_numbers<M: Machine>() {
    let mut words = [0x0738, 0x3ABC, 0x4F30, 0xEEEE];
    let mut report = [HELD; 7];
    let given = M::mend(&mut words, 3, &mut report);
    assert_eq!(given, told(Answer::Done, 3, 2));
    assert_eq!(words, [0x0738, 0x4000, 0x4030, 0xEEEE]);
    let numbers = [1, 0x3ABC_4000, 2, 0x4F30_4030, HELD, HELD, HELD];
    assert_eq!(report, numbers);
}

held!(a_change_is_read_by_its_number,
    fails_with ChangesFrom1, LastChangeBeyond, HalfAChangeRead, PlaceBy32Bits);
fn a_change_is_read_by_its_number<M: Machine>() {
    let report = [5, 0x1000_4000, u64::MAX, 0xFFFF_0001_FFFF_4020, 7];
    assert_eq!(M::mend_change(&report, 0), change(5, 0x1000, 0x4000));
    // What stands above the two words means nothing.
    assert_eq!(M::mend_change(&report, 1), change(u64::MAX, 0xFFFF, 0x4020));
    // The last number is alone, and there is no room beyond it.
    for number in [2, 3, 1 << 32, 1 << 63, usize::MAX] {
        assert_eq!(M::mend_change(&report, number), change(0, 0, 0));
    }
    for short in [&report[..0], &report[..1]] {
        assert_eq!(M::mend_change(short, 0), change(0, 0, 0));
    }
}

held!(more_in_use_than_there_are_is_refused, fails_with AllInUseRefused, InUseBy32Bits);
fn more_in_use_than_there_are_is_refused<M: Machine>() {
    let words = [0x3ABC, 0x4020, 0x1000];
    for used in [4, 5, 1 << 31, 1 << 32, (1 << 32) + 2, 1 << 63] {
        is_refused::<M>(&words, used, 20, Answer::WrongLength);
    }
    for used in [usize::MAX / 2, usize::MAX - 1, usize::MAX] {
        is_refused::<M>(&words, used, 20, Answer::WrongLength);
        is_refused::<M>(&[], used, 0, Answer::WrongLength);
    }
    is_refused::<M>(&[], 1, 20, Answer::WrongLength);
    // As many as there are, one of them a STOP.
    is_served::<M>(&words, 3, 20, (3, 2));
}

held!(no_stop_and_no_room_for_one_is_refused, fails_with StopOf5020);
fn no_stop_and_no_room_for_one_is_refused<M: Machine>() {
    for words in [
        &[][..],
        &[0x0738],
        &[0x5020],
        &[0x0738, 0x1000, 0x4FDF],
        &[0x0020; 9],
    ] {
        is_refused::<M>(words, words.len(), 40, Answer::NoRoomForStop);
        let roomy = [words, &[0]].concat();
        let changes = changes_of(&roomy, words.len()).len();
        is_served::<M>(&roomy, words.len(), 40, (words.len() + 1, changes));
    }
    is_served::<M>(&[0x4020], 1, 0, (1, 0));
    is_served::<M>(&[0x0738, 0x4F20], 2, 2, (2, 1));
}

held!(a_report_without_room_for_all_changes_is_refused,
    fails_with FullReportRefused, HalfAChange, ReportedThoughRefused);
fn a_report_without_room_for_all_changes_is_refused<M: Machine>() {
    // Three changes, the last of them a STOP; and three with a STOP among the words.
    for words in [
        [0x3ABC, 0x0738, 0x1000, 0x1002, 0xEEEE],
        [0x3ABC, 0x4F20, 0x1000, 0x1002, 0xEEEE],
    ] {
        for report in 0..6 {
            is_refused::<M>(&words, 4, report, Answer::ReportTooSmall);
        }
        let used = if words[1] == 0x0738 { 5 } else { 4 };
        for report in 6..10 {
            is_served::<M>(&words, 4, report, (used, 3));
        }
    }
    // Nothing to change needs no room.
    is_served::<M>(&[0x0738, 0x4020], 2, 0, (2, 0));
}

held!(refusals_in_their_order, fails_with ReportBeforeStop, LengthTestedLast);
fn refusals_in_their_order<M: Machine>() {
    let (stop, none) = ([0x3ABC, 0x0738, 0x4F20], [0x3ABC, 0x0738, 0x5020]);
    for report in [0, 1, 2, 3, 8] {
        // 1 alone, with 17, with 16 and with both.
        is_refused::<M>(&stop, 4, report, Answer::WrongLength);
        is_refused::<M>(&none, 4, report, Answer::WrongLength);
        // 16 alone and with 17.
        is_refused::<M>(&none, 3, report, Answer::NoRoomForStop);
    }
    for report in [0, 1, 2, 3] {
        is_refused::<M>(&stop, 3, report, Answer::ReportTooSmall);
    }
    is_served::<M>(&stop, 3, 4, (3, 2));
}

held!(a_refusal_changes_nothing_and_tells_nothing,
    fails_with MendedThoughRefused, ReportedThoughRefused, InUseThoughRefused);
fn a_refusal_changes_nothing_and_tells_nothing<M: Machine>() {
    let words = [0x3ABC, 0x1000, 0x4FDF, 0x5020];
    is_refused::<M>(&words, 5, 20, Answer::WrongLength);
    is_refused::<M>(&words, 4, 20, Answer::NoRoomForStop);
    is_refused::<M>(&words, 3, 7, Answer::ReportTooSmall);
}

held!(mending_again_finds_nothing, fails_with AddedStopNotInUse, StopCleared);
fn mending_again_finds_nothing<M: Machine>() {
    let mut random = Random(71);
    for _ in 0..2_000 {
        let list = old_list(&mut random);
        let mut words = [&list[..], &[0x1234, 0x5678]].concat();
        let mut report = vec![0; CHANGE * words.len()];
        let given = M::mend(&mut words, list.len(), &mut report);
        let after = words.clone();
        // No room is needed then, neither for a STOP nor for a change.
        let used = given.used;
        let again = M::mend(&mut words[..used], used, &mut []);
        assert_eq!(again, told(Answer::Done, used, 0), "{list:04X?}");
        assert_eq!(words, after);
    }
}

held!(random_lists_by_the_rule,
    fails_with Code3Stays, LoopCleared, StopOf5020, PlacesFrom1, AddedStopOver0, BeyondMended);
fn random_lists_by_the_rule<M: Machine>() {
    let mut random = Random(73);
    for _ in 0..5_000 {
        let list = old_list(&mut random);
        let after = random.pick(&[0x4020, 0x0000, 0xFFFF]);
        let words = [&list[..], &[after, 0x9999]].concat();
        let changes = changes_of(&words, list.len());
        let mut expected = words.clone();
        for change in &changes {
            expected[change.place as usize] = change.new;
        }
        let (buffer, reported) = mended::<M>(&words, list.len());
        assert_eq!(buffer, expected, "{list:04X?}");
        assert_eq!(reported, changes, "{list:04X?}");
    }
}

/// What channel 1 and the PSG are after each line, and the line's cycles.
type Lines = Vec<(Channel, [u8; 16], u8)>;

/// So many lines of a list at an address, from a fresh channel 1 with an interrupt
/// that waits or not. What lies elsewhere in RAM is one byte.
fn lines_of<M: Machine>(
    words: &[u16],
    start: u16,
    waits: bool,
    elsewhere: u8,
    count: usize,
) -> Lines {
    let mut ram = vec![elsewhere; RAM];
    put_words(&mut ram, usize::from(start), words);
    let mut chip = M::new();
    chip.change(|state| {
        state.sound.channels[1] = Channel {
            enabled: true,
            interrupt: waits,
            address: start,
            prescale: 1,
            count: 9,
            mark: 0x1234,
            ..Channel::default()
        }
    });
    let line = |_| {
        let (answer, report) = chip.step(&ram, [Access::PsgWrite; 3]);
        assert_eq!(answer, Answer::Done);
        let sound = chip.state().sound;
        (sound.channels[1], sound.psg, report.cycles)
    };
    (0..count).map(line).collect()
}

/// A list plays as before it was mended, for so many lines: up to its first STOP or
/// its end.
fn plays_as_before<M: Machine>(words: &[u16], lines: usize) {
    let (mut mended, _) = mended::<M>(&[words, &[0]].concat(), words.len());
    if words.iter().any(|&word| stops(word)) {
        mended.pop();
    }
    let last = (RAM - 2 * mended.len()) as u16;
    for (start, waits) in [(0, false), (0x8000, true), (last, false)] {
        let old = lines_of::<M>(words, start, waits, 0x41, lines);
        let new = lines_of::<M>(&mended, start, waits, 0x26, lines + 1);
        assert_eq!(old, new[..lines], "{words:04X?}");
        // Then the mended list is at a STOP, if it was not at one before.
        assert!(!new[lines].0.enabled, "{words:04X?}");
    }
}

held!(mended_words_play_as_before,
    fails_with PausesGone, LoopCleared, IntCleared, StopCleared, StopOf5020, LowBitsOfReserved);
fn mended_words_play_as_before<M: Machine>() {
    // LOADs, each on a line of its own, with words between that do nothing.
    plays_as_before::<M>(&[0x0738, 0x5020, 0x080F, 0x1000, 0xFFFF], 5);
    // INT with stray bits, and a STOP with stray bits that is followed by more.
    plays_as_before::<M>(&[0x4FDE, 0x0738, 0x4FEE, 0x0812], 3);
    // A loop of four passes that is closed by a word with stray bits: a line for the
    // REPEAT, three for each pass.
    plays_as_before::<M>(&[0x2003, 0x0701, 0x3011, 0x4F81], 1 + 4 * 3);
    // A PAUSE of 3 at prescale 1 as the last word takes six lines.
    plays_as_before::<M>(&[0x7031, 0x1003], 1 + 6);
    plays_as_before::<M>(&[0x1003, 0x9021, 0x4F31], 6 + 1 + 1);
    // A LOOP without a count, and nothing at all.
    plays_as_before::<M>(&[0x4C41], 1);
    plays_as_before::<M>(&[], 0);
}

held!(random_lists_play_as_before,
    fails_with PausesGone, LoopCleared, IntCleared, StopCleared, StopOf5020, StopByBitAlone);
fn random_lists_play_as_before<M: Machine>() {
    let tally = played::lists::<M>(10_000, 1).unwrap_or_else(|differs| panic!("{differs}"));
    println!("{tally:?}");
    assert!(tally.stopped >= 3_000, "{tally:?}");
    assert!(tally.ended >= 3_000, "{tally:?}");
    assert!(tally.forecasts >= 4_000, "{tally:?}");
    assert!(tally.lines >= 100_000, "{tally:?}");
    assert!(tally.loads >= 5_000, "{tally:?}");
    assert!(tally.ints >= 5_000, "{tally:?}");
}
