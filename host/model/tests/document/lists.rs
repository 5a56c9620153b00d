//! Document 02, L12: room for lists in RAM.

use model::random::{any_word, Random};
use model::under_test::{put_words, ram_with, UnderTest};
use model::{held, Machine};
use plus::take::file_of;
use plus::{Answer, Channel, List, Placed, Table, LISTS, RAM, STORE};

/// What RAM holds before a list is put there.
const HELD: u8 = 0xEE;

/// A chip with an area, and RAM.
fn with_area<M: Machine>(from: u32, upto: u32) -> (M, Vec<u8>) {
    let mut chip = M::new();
    assert_eq!(chip.area(from, upto), 0);
    (chip, vec![HELD; RAM])
}

/// A list of so many bytes, which begins like none of another length near.
fn list_of(length: usize) -> Vec<u8> {
    (1..=length)
        .map(|n| ((n + length) * 7 % 227) as u8)
        .collect()
}

/// A list placed, which has to be served: its address and handle.
fn put<M: Machine>(chip: &mut M, ram: &mut [u8], length: usize) -> (u32, u32) {
    let (answer, Placed { address, handle }) = chip.place(ram, &list_of(length));
    assert_eq!(answer, 0, "{length} bytes");
    (address, handle)
}

/// Lists one behind the other from the area's start on, with handles from 0.
fn put_all<M: Machine>(chip: &mut M, ram: &mut [u8], lengths: &[usize]) {
    let (mut next, _) = chip.bounds().expect("an area");
    for (handle, &length) in (0..).zip(lengths) {
        assert_eq!(put(chip, ram, length), (next, handle));
        next += length as u32;
    }
}

fn remove_all<M: Machine>(chip: &mut M, handles: &[u32]) {
    for &handle in handles {
        assert_eq!(chip.remove(handle), 0, "handle {handle}");
    }
}

/// A list is refused, its address and handle are 0, and nothing changes.
fn is_refused<M: Machine>(chip: &mut M, ram: &mut [u8], length: usize, number: u8) {
    let before = (chip.state(), chip.bounds(), chip.lists(), ram.to_vec());
    let nowhere = Placed {
        address: 0,
        handle: 0,
    };
    let (answer, placed) = chip.place(ram, &list_of(length));
    assert_eq!(answer, number, "{length} bytes");
    assert_eq!(placed, nowhere, "{length} bytes");
    let after = (chip.state(), chip.bounds(), chip.lists(), ram.to_vec());
    assert!(before == after, "{length} bytes");
}

held!(bounds_that_an_area_can_have, fails_with EndOfRamRefused);
fn bounds_that_an_area_can_have<M: Machine>() {
    for (from, upto) in [
        (0, 2),
        (0, 0x1_0000),
        (0xFFFE, 0x1_0000),
        (0x8000, 0xC000),
        (0x7FFE, 0x8000),
    ] {
        let (chip, _) = with_area::<M>(from, upto);
        assert_eq!(chip.bounds(), Some((from, upto)));
        assert_eq!(chip.lists(), []);
    }
}

// Odd ones, no room between them, the higher one first, and above 65,536.
held!(bounds_that_none_can_have,
    fails_with OddBoundsTaken, EmptyAreaServed, ReversedTaken, HighBoundTaken, BoundsBy16Bits,
        RefusedAreaStands);
fn bounds_that_none_can_have<M: Machine>() {
    let mut chip = M::new();
    let before = chip.state();
    for (from, upto) in [
        (1, 4),
        (0x8001, 0x9000),
        (0, 3),
        (0x8000, 0x9001),
        (1, 3),
        (0xFFFE, 0xFFFF),
        (0, 0),
        (2, 2),
        (0x8000, 0x8000),
        (0x1_0000, 0x1_0000),
        (4, 2),
        (0x1_0000, 0),
        (0, 0x1_0001),
        (0, 0x1_0002),
        (0xFFFE, 0x1_0002),
        (0x1_0000, 0x1_0002),
        (0x1_8000, 0x1_C000),
        (0, 0x2_0000),
        (0, u32::MAX - 1),
        (u32::MAX - 3, u32::MAX - 1),
        (u32::MAX, 2),
    ] {
        assert_eq!(chip.area(from, upto), 18, "{from:X} {upto:X}");
        assert_eq!(chip.bounds(), None);
        assert_eq!(chip.state(), before);
    }
    // After all of these one can still be given.
    assert_eq!(chip.area(0x8000, 0x9000), 0);
}

held!(an_area_is_given_once, fails_with GivenTwice);
fn an_area_is_given_once<M: Machine>() {
    let (mut chip, mut ram) = with_area::<M>(0x8000, 0x9000);
    for lists in 0..2 {
        for (from, upto) in [
            (0x8000, 0x9000),
            (0, 0x1_0000),
            (0x9000, 0xA000),
            (0, 2),
            (1, 2),
            (0, 0),
        ] {
            assert_eq!(chip.area(from, upto), 18, "{from:X} {upto:X}");
            assert_eq!(chip.bounds(), Some((0x8000, 0x9000)));
            assert_eq!(chip.lists().len(), lists);
        }
        put(&mut chip, &mut ram, 10);
    }
}

held!(a_reset_forgets_area_and_lists, fails_with ListsThroughReset);
fn a_reset_forgets_area_and_lists<M: Machine>() {
    let (mut chip, mut ram) = with_area::<M>(0x8000, 0x9000);
    put_all(&mut chip, &mut ram, &[4, 6, 8]);
    let held = ram.clone();
    chip.reset();
    assert_eq!((chip.bounds(), chip.lists()), (None, vec![]));
    // RAM is the host's.
    assert!(ram == held);
    is_refused(&mut chip, &mut ram, 2, 18);
    assert_eq!(chip.remove(0), 18);
    assert_eq!(chip.area(0x8002, 0x8006), 0);
    put_all(&mut chip, &mut ram, &[4]);
    assert_eq!(chip.remove(1), 21);
}

held!(a_start_leaves_them, fails_with ListsLostByStart);
fn a_start_leaves_them<M: Machine>() {
    let (mut chip, mut ram) = with_area::<M>(0x8000, 0x9000);
    put_all(&mut chip, &mut ram, &[4, 6]);
    let before = chip.lists();
    chip.start(Table::default());
    assert_eq!(chip.bounds(), Some((0x8000, 0x9000)));
    assert_eq!(chip.lists(), before);
}

held!(before_an_area_is_given, fails_with NoAreaAsNoHandle);
fn before_an_area_is_given<M: Machine>() {
    let (mut chip, mut ram) = (M::new(), vec![HELD; RAM]);
    for length in [0, 1, 2, 256, RAM, RAM + 2] {
        is_refused(&mut chip, &mut ram, length, 18);
    }
    for handle in [0, 1, 63, 64, u32::MAX] {
        assert_eq!(chip.remove(handle), 18);
    }
}

// An area of 16 bytes.
held!(lengths_that_a_list_can_have,
    fails_with OddLengthPlaced, EmptyListServed, TooLongAsNoGap, LastWordUnused);
fn lengths_that_a_list_can_have<M: Machine>() {
    for length in (2..=16).step_by(2) {
        let (mut chip, mut ram) = with_area::<M>(0x8000, 0x8010);
        assert_eq!(put(&mut chip, &mut ram, length), (0x8000, 0));
    }
    let (mut chip, mut ram) = with_area::<M>(0x8000, 0x8010);
    for odd in (1..=21).step_by(2) {
        is_refused(&mut chip, &mut ram, odd, 18);
    }
    for length in [0, 18, 20, 0x8000, RAM - 1, RAM, RAM + 1, RAM + 2] {
        is_refused(&mut chip, &mut ram, length, 18);
    }
    // The same beside a list that leaves no gap at all.
    put(&mut chip, &mut ram, 16);
    for length in [0, 1, 15, 17, 18] {
        is_refused(&mut chip, &mut ram, length, 18);
    }
    is_refused(&mut chip, &mut ram, 2, 20);
}

held!(all_of_ram_is_an_area);
fn all_of_ram_is_an_area<M: Machine>() {
    let (mut chip, mut ram) = with_area::<M>(0, 0x1_0000);
    let whole = list_of(RAM);
    let (answer, placed) = chip.place(&mut ram, &whole);
    assert_eq!((answer.number(), placed.address, placed.handle), (0, 0, 0));
    assert!(ram == whole);
    is_refused(&mut chip, &mut ram, 2, 20);
    assert_eq!(chip.remove(0), 0);
    // The last word of RAM is one of it.
    put_all(&mut chip, &mut ram, &[RAM - 2, 2]);
    let list = |handle, address, length| List {
        handle,
        address,
        length,
    };
    assert_eq!(chip.lists(), [list(0, 0, 0xFFFE), list(1, 0xFFFE, 2)]);
    is_refused(&mut chip, &mut ram, 2, 20);
}

held!(ram_of_another_length, fails_with LengthBeforeRam, LongerRamTaken);
fn ram_of_another_length<M: Machine>() {
    let (mut chip, mut ram) = with_area::<M>(0x8000, 0x8004);
    put(&mut chip, &mut ram, 2);
    for (mut chip, areas) in [(M::new(), 0), (chip, 1)] {
        for length in [0, 1, RAM - 2, RAM - 1, RAM + 1, RAM + 2] {
            let mut ram = vec![HELD; length];
            // Served, no gap, and no length of a list.
            for list in [2, 4, 0, 3, 6] {
                is_refused(&mut chip, &mut ram, list, 1);
            }
        }
        assert_eq!(chip.lists().len(), areas);
    }
}

// Eight lists of 8 bytes fill an area of 64, and of these 1, 3, 4 and 6 go: gaps of 8
// bytes at 8008h and 8030h, and of 16 at 8018h.
held!(the_lowest_address_between_the_others,
    fails_with SecondGap, HighestAddress, TouchingIsOverlap, NextHandle, GapOneWordShort,
        LastWordUnused);
fn the_lowest_address_between_the_others<M: Machine>() {
    let (mut chip, mut ram) = with_area::<M>(0x8000, 0x8040);
    put_all(&mut chip, &mut ram, &[8; 8]);
    is_refused(&mut chip, &mut ram, 2, 20);
    remove_all(&mut chip, &[6, 1, 4, 3]);
    for length in [18, 20, 40, 64] {
        is_refused(&mut chip, &mut ram, length, 20);
    }
    for (length, address, handle) in [
        // The gaps of 8 are too short, and then only 6 bytes are left there.
        (10, 0x8018, 1),
        (8, 0x8008, 3),
        (6, 0x8022, 4),
        (8, 0x8030, 6),
    ] {
        assert_eq!(put(&mut chip, &mut ram, length), (address, handle));
    }
    is_refused(&mut chip, &mut ram, 2, 20);
}

// A gap of 12 bytes at 8004h, and one of 4 at 8014h.
held!(a_longer_gap_that_is_lower_is_taken, fails_with ShortestGap, SecondGap, HighestAddress);
fn a_longer_gap_that_is_lower_is_taken<M: Machine>() {
    let (mut chip, mut ram) = with_area::<M>(0x8000, 0x801A);
    put_all(&mut chip, &mut ram, &[4, 12, 4, 4, 2]);
    remove_all(&mut chip, &[1, 3]);
    assert_eq!(put(&mut chip, &mut ram, 4), (0x8004, 1));
    assert_eq!(put(&mut chip, &mut ram, 4), (0x8008, 3));
    assert_eq!(put(&mut chip, &mut ram, 4), (0x800C, 5));
    assert_eq!(put(&mut chip, &mut ram, 4), (0x8014, 6));
    is_refused(&mut chip, &mut ram, 4, 20);
}

// Room before the first list, and gaps that become one.
held!(gaps_that_meet_are_one);
fn gaps_that_meet_are_one<M: Machine>() {
    let (mut chip, mut ram) = with_area::<M>(0x8000, 0x8010);
    put_all(&mut chip, &mut ram, &[4, 2, 4, 6]);
    remove_all(&mut chip, &[0, 2]);
    is_refused(&mut chip, &mut ram, 6, 20);
    remove_all(&mut chip, &[1]);
    is_refused(&mut chip, &mut ram, 12, 20);
    assert_eq!(put(&mut chip, &mut ram, 10), (0x8000, 0));
    remove_all(&mut chip, &[3]);
    assert_eq!(put(&mut chip, &mut ram, 6), (0x800A, 1));
}

held!(lists_touch_each_other_and_both_bounds,
    fails_with TouchingIsOverlap, LastWordUnused, UpperBoundUsed);
fn lists_touch_each_other_and_both_bounds<M: Machine>() {
    for (from, upto) in [(0x8000, 0x8006), (0xFFFA, 0x1_0000), (0, 6)] {
        let (mut chip, mut ram) = with_area::<M>(from, upto);
        put_all(&mut chip, &mut ram, &[2, 2, 2]);
        is_refused(&mut chip, &mut ram, 2, 20);
        remove_all(&mut chip, &[1]);
        assert_eq!(put(&mut chip, &mut ram, 2), (from + 2, 1));
    }
}

held!(a_gap_that_is_a_word_short_is_none, fails_with GapOneWordShort, CopiedThoughRefused);
fn a_gap_that_is_a_word_short_is_none<M: Machine>() {
    let (mut chip, mut ram) = with_area::<M>(0x8000, 0x800C);
    put_all(&mut chip, &mut ram, &[4, 4, 4]);
    remove_all(&mut chip, &[1]);
    is_refused(&mut chip, &mut ram, 6, 20);
    // Nor is one at the end.
    remove_all(&mut chip, &[2]);
    is_refused(&mut chip, &mut ram, 10, 20);
    assert_eq!(put(&mut chip, &mut ram, 8), (0x8004, 1));
}

held!(the_bytes_are_copied_and_no_other_changes,
    fails_with WordBehindCleared, LastByteLost, WordsSwapped);
fn the_bytes_are_copied_and_no_other_changes<M: Machine>() {
    let (mut chip, mut ram) = with_area::<M>(0x8000, 0x9000);
    let mut expected = ram.clone();
    for length in [6, 2, 256, 10] {
        let (address, _) = put(&mut chip, &mut ram, length);
        expected[address as usize..][..length].copy_from_slice(&list_of(length));
        assert!(ram == expected, "{length}");
    }
    // What a list leaves stays there, and the next one is put over it.
    remove_all(&mut chip, &[2]);
    assert!(ram == expected);
    let (address, _) = put(&mut chip, &mut ram, 100);
    assert_eq!(address, 0x8008);
    expected[0x8008..0x8008 + 100].copy_from_slice(&list_of(100));
    assert!(ram == expected);
}

held!(the_lowest_free_handle, fails_with NextHandle, HandlesFrom1, HandlesTo62);
fn the_lowest_free_handle<M: Machine>() {
    let (mut chip, mut ram) = with_area::<M>(0x8000, 0x9000);
    put_all(&mut chip, &mut ram, &[2; LISTS]);
    remove_all(&mut chip, &[17, 5, 40]);
    // By the handle and not by the room, which is elsewhere.
    for (handle, address) in [(5, 0x8080), (17, 0x8084), (40, 0x8088)] {
        assert_eq!(put(&mut chip, &mut ram, 4), (address, handle));
    }
    is_refused(&mut chip, &mut ram, 2, 19);
    for handle in (0..64).rev() {
        assert_eq!(chip.remove(handle), 0);
    }
    assert_eq!(put(&mut chip, &mut ram, 2), (0x8000, 0));
}

// A list in an area of 130 bytes that has 64, of which none is left, or of 128, in which
// there is no gap either.
held!(all_in_use, fails_with GapBeforeHandles, AddressThoughRefused, HandlesTo62);
fn all_in_use<M: Machine>() {
    for upto in [0x8082, 0x8080] {
        let (mut chip, mut ram) = with_area::<M>(0x8000, upto);
        put_all(&mut chip, &mut ram, &[2; LISTS]);
        for length in [2, 4, 64, 128] {
            is_refused(&mut chip, &mut ram, length, 19);
        }
        // 18 comes first.
        for length in [0, 1, 3, 127, 129, 132] {
            is_refused(&mut chip, &mut ram, length, 18);
        }
        remove_all(&mut chip, &[30]);
        is_refused(&mut chip, &mut ram, 4, 20);
        assert_eq!(put(&mut chip, &mut ram, 2), (0x803C, 30));
    }
}

held!(refused_lists_are_told_nothing,
    fails_with HandleThoughRefused, AddressThoughRefused, CopiedThoughRefused);
fn refused_lists_are_told_nothing<M: Machine>() {
    let (mut chip, mut ram) = with_area::<M>(0x8000, 0x9000);
    put_all(&mut chip, &mut ram, &[0x800, 0x400]);
    is_refused(&mut chip, &mut ram, 0x402, 20);
    is_refused(&mut chip, &mut ram, 0x1002, 18);
    is_refused(&mut chip, &mut ram, 3, 18);
    put_all_more(&mut chip, &mut ram);
    is_refused(&mut chip, &mut ram, 2, 19);
    is_refused(&mut chip, &mut ram[1..], 2, 1);
}

/// Lists of a word until no handle is left.
fn put_all_more<M: Machine>(chip: &mut M, ram: &mut [u8]) {
    for _ in chip.lists().len()..LISTS {
        put(chip, ram, 2);
    }
}

held!(removing_frees_room_and_handle, fails_with RemovedHandleKept);
fn removing_frees_room_and_handle<M: Machine>() {
    let (mut chip, mut ram) = with_area::<M>(0x8000, 0x8008);
    put_all(&mut chip, &mut ram, &[4, 4]);
    let held = ram.clone();
    for handle in [0, 1] {
        assert_eq!(chip.remove(handle), 0);
        assert!(ram == held);
        assert_eq!(chip.lists().len(), 1);
        assert_eq!(put(&mut chip, &mut ram, 4), (0x8000 + 4 * handle, handle));
    }
}

held!(no_such_handle, fails_with HandleBy6Bits, RemovedHandleKept);
fn no_such_handle<M: Machine>() {
    let (mut chip, mut ram) = with_area::<M>(0x8000, 0x9000);
    assert_eq!(chip.remove(0), 21);
    put_all(&mut chip, &mut ram, &[4, 4, 4]);
    remove_all(&mut chip, &[1]);
    let before = (chip.state(), chip.lists());
    let others = [64, 65, 66, 127, 128, 256, 0x1_0000, 1 << 31, u32::MAX];
    for handle in (3..64).chain(others).chain([1]) {
        assert_eq!(chip.remove(handle), 21, "handle {handle}");
        assert_eq!((chip.state(), chip.lists()), before);
    }
}

/// A channel that plays.
fn playing(address: u16, mark: u16, counter: u16) -> Channel {
    Channel {
        enabled: true,
        address,
        mark,
        counter,
        ..Channel::default()
    }
}

/// Three lists of 8 bytes at 8000h, 8008h and 8010h.
fn three_lists<M: Machine>() -> (M, Vec<u8>) {
    let (mut chip, mut ram) = with_area::<M>(0x8000, 0x8018);
    put_all(&mut chip, &mut ram, &[8; 3]);
    (chip, ram)
}

/// What removing each of the three answers beside a channel: 22, with nothing changed,
/// or 0, and then the list is put back.
fn removals<M: Machine>(chip: &mut M, ram: &mut [u8], n: usize, channel: Channel) -> [u8; 3] {
    chip.change(|state| state.sound.channels[n] = channel);
    [0, 1, 2].map(|handle| {
        let before = (chip.state(), chip.lists());
        let answer = chip.remove(handle);
        if answer == Answer::Done {
            let address = 0x8000 + 8 * handle;
            assert_eq!(put(chip, ram, 8), (address, handle));
        }
        assert_eq!((chip.state(), chip.lists()), before);
        answer.number()
    })
}

/// 22 for the lists of so many, from one on.
fn in_use(from: usize, count: usize) -> [u8; 3] {
    let mut answers = [0; 3];
    answers[from..from + count].fill(22);
    answers
}

held!(a_channels_address_lies_in_it,
    fails_with AddressNotAsked, StartNotAsked, EndAsked, OneChannelAsked, RemovedThoughRefused);
fn a_channels_address_lies_in_it<M: Machine>() {
    let (mut chip, mut ram) = three_lists::<M>();
    for n in 0..3 {
        for address in (0x7FF0..0x8028).step_by(2) {
            let expected = match address {
                0x8000..0x8008 => in_use(0, 1),
                0x8008..0x8010 => in_use(1, 1),
                0x8010..0x8018 => in_use(2, 1),
                _ => [0; 3],
            };
            // No pass is left, so the mark says nothing, wherever it is.
            for mark in [0, 0x8000, 0x8008, 0x8016, 0xFFFE] {
                let channel = playing(address, mark, 0);
                let gave = removals(&mut chip, &mut ram, n, channel);
                assert_eq!(gave, expected, "{address:04X} {mark:04X}");
            }
        }
        chip.change(|state| state.sound.channels[n].enabled = false);
    }
}

// The mark is above the address here, so that no word between is asked.
held!(its_mark_does, fails_with MarkNotAsked, LoopNotAsked, MarkAboveAsked, OneChannelAsked);
fn its_mark_does<M: Machine>() {
    let (mut chip, mut ram) = three_lists::<M>();
    for n in 0..3 {
        for mark in (0x7FF0..0x8028).step_by(2) {
            let expected = match mark {
                0x8000..0x8008 => in_use(0, 1),
                0x8008..0x8010 => in_use(1, 1),
                0x8010..0x8018 => in_use(2, 1),
                _ => [0; 3],
            };
            for counter in [1, 2, 0x0FFF] {
                let channel = playing(0x7000, mark, counter);
                let gave = removals(&mut chip, &mut ram, n, channel);
                assert_eq!(gave, expected, "{mark:04X}");
            }
        }
        chip.change(|state| state.sound.channels[n].enabled = false);
    }
}

// From the mark up to the address, both with it.
held!(a_word_between_does, fails_with WordsNotAsked, LoopNotAsked, MarkNotAsked);
fn a_word_between_does<M: Machine>() {
    let (mut chip, mut ram) = three_lists::<M>();
    for (mark, address, expected) in [
        (0x7000, 0x9000, in_use(0, 3)),
        (0x0000, 0xFFFE, in_use(0, 3)),
        (0x7FFE, 0x8018, in_use(0, 3)),
        (0x8006, 0x8010, in_use(0, 3)),
        (0x8008, 0x8010, in_use(1, 2)),
        (0x8006, 0x800E, in_use(0, 2)),
        (0x8008, 0x9000, in_use(1, 2)),
        (0x800E, 0x9000, in_use(1, 2)),
        (0x8010, 0x8018, in_use(2, 1)),
        (0x7000, 0x8000, in_use(0, 1)),
        (0x7000, 0x7FFE, in_use(0, 0)),
        (0x8018, 0x9000, in_use(0, 0)),
    ] {
        for n in 0..3 {
            let gave = removals(&mut chip, &mut ram, n, playing(address, mark, 1));
            assert_eq!(gave, expected, "{mark:04X} {address:04X}");
            chip.change(|state| state.sound.channels[n].enabled = false);
        }
    }
}

held!(with_a_mark_above_no_word_between_does, fails_with MarkAboveAsked);
fn with_a_mark_above_no_word_between_does<M: Machine>() {
    let (mut chip, mut ram) = three_lists::<M>();
    for (address, mark, expected) in [
        (0x7FFE, 0x8018, [0; 3]),
        (0x0000, 0xFFFE, [0; 3]),
        (0x8006, 0x8010, [22, 0, 22]),
        (0x8000, 0x9000, [22, 0, 0]),
        (0x7000, 0x8016, [0, 0, 22]),
    ] {
        let gave = removals(&mut chip, &mut ram, 1, playing(address, mark, 7));
        assert_eq!(gave, expected, "{address:04X} {mark:04X}");
    }
}

held!(with_no_pass_left_a_mark_says_nothing, fails_with CounterNotAsked);
fn with_no_pass_left_a_mark_says_nothing<M: Machine>() {
    let (mut chip, mut ram) = three_lists::<M>();
    for (mark, address, expected) in [
        (0x8000, 0x9000, [0; 3]),
        (0x8008, 0x7000, [0; 3]),
        (0x8000, 0x8010, in_use(2, 1)),
    ] {
        let gave = removals(&mut chip, &mut ram, 2, playing(address, mark, 0));
        assert_eq!(gave, expected, "{mark:04X} {address:04X}");
    }
}

held!(a_channel_that_is_off_uses_nothing, fails_with UsedWhileOff);
fn a_channel_that_is_off_uses_nothing<M: Machine>() {
    let (mut chip, mut ram) = three_lists::<M>();
    for (mark, address) in [(0x8000, 0x8010), (0x8008, 0x7000), (0, 0x8008)] {
        for n in 0..3 {
            let channel = Channel {
                enabled: false,
                interrupt: true,
                pause: 5,
                ..playing(address, mark, 9)
            };
            assert_eq!(removals(&mut chip, &mut ram, n, channel), [0; 3]);
        }
    }
}

held!(a_handle_is_looked_for_before_a_use, fails_with UseBeforeHandle);
fn a_handle_is_looked_for_before_a_use<M: Machine>() {
    let (mut chip, _) = three_lists::<M>();
    remove_all(&mut chip, &[1]);
    chip.change(|state| state.sound.channels[0] = playing(0x8008, 0x8008, 3));
    assert_eq!(chip.remove(1), 21);
    assert_eq!(chip.remove(64 + 1), 21);
}

/// The lists of a loop over three of them: REPEAT 2 and a LOAD; a LOAD; a LOAD, LOOP and
/// STOP.
const LOOP: [&[u16]; 3] = [&[0x2002, 0x0701], &[0x0702], &[0x0703, 0x4001, 0x4020]];

// By hand. The lists stand at 8000h, 8004h and 8006h; line 1 is the REPEAT, which marks
// 8002h, and lines 5 and 9 are the LOOPs that go back there, the second with no pass left
// then. After the last LOOP, line 13, the channel goes on to its STOP.
held!(a_loop_over_several_lists,
    fails_with AddressNotAsked, MarkNotAsked, WordsNotAsked, LoopNotAsked, CounterNotAsked,
        RemovedThoughRefused, StartNotAsked);
fn a_loop_over_several_lists<M: Machine>() {
    let (mut chip, mut ram) = (M::open(), vec![HELD; RAM]);
    assert_eq!(chip.area(0x8000, 0x800C), 0);
    let bytes = LOOP.map(|words| words.iter().flat_map(|word| word.to_le_bytes()).collect());
    let at = [0x8000, 0x8004, 0x8006];
    let place = |chip: &mut M, ram: &mut [u8], n: usize| {
        let list: &Vec<u8> = &bytes[n];
        let (answer, placed) = chip.place(ram, list);
        assert_eq!((answer.number(), placed.address), (0, at[n]));
        assert_eq!(placed.handle, n as u32);
    };
    (0..3).for_each(|n| place(&mut chip, &mut ram, n));
    chip.play(0, 0x8000, 0);
    let (all, none) = ([22, 22, 22], [0, 0, 0]);
    let (first, two, second, third) = ([22, 0, 0], [22, 22, 0], [0, 22, 0], [0, 0, 22]);
    let lines = [
        first, first, two, all, all, // line 5 goes back
        first, two, all, all, // line 9 too
        first, second, third, third, third, none,
    ];
    for (line, expected) in lines.into_iter().enumerate() {
        let gave = [0, 1, 2].map(|n| {
            let answer = chip.remove(n as u32);
            if answer == Answer::Done {
                place(&mut chip, &mut ram, n);
            }
            answer.number()
        });
        assert_eq!(gave, expected, "after {line} lines");
        if line + 1 < lines.len() {
            chip.lines(1, &ram);
        }
    }
    assert!(!chip.state().sound.channels[0].enabled);
}

// A channel plays what is placed: PSG register 7 is the second list's, once the first
// one's room is taken by it.
held!(what_is_placed_is_played, fails_with WordsSwapped, LastByteLost);
fn what_is_placed_is_played<M: Machine>() {
    let (mut chip, mut ram) = (M::open(), ram_with(0, &[]));
    assert_eq!(chip.area(0x8000, 0x8004), 0);
    for data in [0x38, 0x2A] {
        let mut list = [0; 4];
        put_words(&mut list, 0, &[0x0700 | data, 0x4020]);
        let (answer, placed) = chip.place(&mut ram, &list);
        assert_eq!((answer.number(), placed.address), (0, 0x8000));
        chip.play(0, 0x8000, 0);
        for _ in 0..2 {
            assert_eq!(chip.remove(0), 22);
            chip.lines(1, &ram);
        }
        let sound = chip.state().sound;
        assert_eq!(
            (sound.psg[7], sound.channels[0].enabled),
            (data as u8, false)
        );
        assert_eq!(chip.remove(0), 0);
    }
}

/// Where a list has to go, by the document: every even address is tried, from the lower
/// bound on.
fn expected_address((from, upto): (u32, u32), lists: &[List], bytes: u32) -> Option<u32> {
    let apart =
        |at: u32, list: &List| at + bytes <= list.address || list.address + list.length <= at;
    (from..upto)
        .step_by(2)
        .filter(|at| at + bytes <= upto)
        .find(|&at| lists.iter().all(|list| apart(at, list)))
}

// Each list stays where it was put, with the bytes that it was put there with, apart from
// every other; what comes next goes where the rule says, or nowhere.
held!(over_a_session_lists_stay_apart,
    fails_with GapOneWordShort, UpperBoundUsed, TouchingIsOverlap, SecondGap, HighestAddress,
        ShortestGap, NextHandle, WordBehindCleared, RemovedHandleKept, CopiedThoughRefused);
fn over_a_session_lists_stay_apart<M: Machine>() {
    for seed in 1..=60 {
        let mut random = Random::new(seed);
        let from = 2 * random.below(1000) as u32;
        let bounds = (from, from + 2 * (10 + random.below(120)) as u32);
        let (mut chip, mut ram) = with_area::<M>(bounds.0, bounds.1);
        let most = random.pick(&[1, 3, 10]);
        let mut placed: Vec<(List, Vec<u8>)> = vec![];
        for _ in 0..300 {
            if random.chance(3) && !placed.is_empty() {
                let at = random.below(placed.len() as u64) as usize;
                assert_eq!(chip.remove(placed[at].0.handle), 0);
                placed.remove(at);
            } else {
                let words = (0..1 + random.below(most)).map(|_| any_word(&mut random));
                let bytes: Vec<u8> = words.flat_map(|word| word.to_le_bytes()).collect();
                add(&mut chip, &mut ram, bounds, &mut placed, bytes);
            }
            is_as_placed(&chip, &ram, &placed);
        }
    }
}

/// Places a list, which has to go where the rule says.
fn add<M: Machine>(
    chip: &mut M,
    ram: &mut [u8],
    bounds: (u32, u32),
    placed: &mut Vec<(List, Vec<u8>)>,
    bytes: Vec<u8>,
) {
    let lists: Vec<List> = placed.iter().map(|(list, _)| *list).collect();
    let length = bytes.len() as u32;
    let address = expected_address(bounds, &lists, length);
    let handle = (0..64).find(|handle| lists.iter().all(|list| list.handle != *handle));
    let (answer, given) = chip.place(ram, &bytes);
    match (address, handle) {
        (_, None) => assert_eq!(answer, 19),
        (None, _) => assert_eq!(answer, 20),
        (Some(address), Some(handle)) => {
            assert_eq!(answer, 0);
            assert_eq!((given.address, given.handle), (address, handle));
            let list = List {
                handle,
                address,
                length,
            };
            placed.push((list, bytes));
        }
    }
}

/// The lists are these, and RAM has their bytes and elsewhere what it had.
fn is_as_placed<M: Machine>(chip: &M, ram: &[u8], placed: &[(List, Vec<u8>)]) {
    let mut lists: Vec<List> = placed.iter().map(|(list, _)| *list).collect();
    lists.sort_by_key(|list| list.handle);
    assert_eq!(chip.lists(), lists);
    for (list, bytes) in placed {
        assert_eq!(ram[list.address as usize..][..bytes.len()], bytes[..]);
    }
    let (from, upto) = chip.bounds().expect("an area");
    let outside = |&(at, _): &(usize, &u8)| !(from..upto).contains(&(at as u32));
    let mut others = ram.iter().enumerate().filter(outside);
    assert!(others.all(|(_, &byte)| byte == HELD));
}

// A take has none of these calls, so a chip that one leads to has no area.
held!(a_take_leads_to_no_area);
fn a_take_leads_to_no_area<M: Machine>() {
    let file = file_of(b"", &[]).expect("no record is bad");
    let replay = M::replay(&[0; RAM], &mut [0; STORE], Table::default(), &file);
    assert_eq!(replay.answer, 0);
    assert_eq!((replay.chip.bounds(), replay.chip.lists()), (None, vec![]));
}
