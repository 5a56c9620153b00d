//! The core against the model over a million random calls, and that the
//! comparison can fail.

use model::compare::{compare, line, listing, lists, mend, replay, take, Call};
use model::machine::{Fault, Faulty};
use model::{fault, Model};
use plus::{LINE, RAM, STORE};

/// The binary `compare` makes as many calls as it is told.
#[test]
fn core_is_the_model() {
    let tally = match compare::<Model>(1_000_000, 1) {
        Ok(tally) => tally,
        Err(difference) => panic!("{difference}"),
    };
    println!("{tally}");
    // Each call gave each number that documents 01 and 02 let it give, and no other.
    let numbers: [&[usize]; Call::NAMES.len()] = [
        &[0],
        &[0],
        &[0, 3],
        &[0, 3],
        &[0],
        &[0, 1, 2],
        &[0, 1, 2, 3, 9, 15],
        &[0, 1, 10],
        &[0, 18],
        &[0, 1, 18, 19, 20],
        &[0, 18, 21, 22],
        &[0, 1],
        &[0, 5],
        &[0, 3],
        &[0, 1, 4],
        &[0, 1, 6],
    ];
    for ((name, answers), numbers) in Call::NAMES.iter().zip(tally.answers).zip(numbers) {
        for (number, times) in answers.into_iter().enumerate() {
            if numbers.contains(&number) {
                assert!(times >= 100, "{name} gave {number} only {times} times");
            } else {
                assert_eq!(times, 0, "{name} gave {number}");
            }
        }
    }
    // A table held for a good part of them, and for a good part none did.
    assert!(tally.held >= 200_000, "{}", tally.held);
    assert!(tally.held <= 800_000, "{}", tally.held);
    // A record was full many times, and went on.
    assert!(tally.filled >= 1_000, "{}", tally.filled);
    assert!(tally.dropped >= 20_000, "{}", tally.dropped);
    // LOADs met the processor in each of the three ways.
    for (met, times) in tally.loads.into_iter().enumerate() {
        assert!(times >= 1_000, "{met}: {times}");
    }
    // Many were a muted channel's, some of them beside one of the same register.
    let [muted, beside] = tally.muted;
    assert!(muted >= 1_000, "{muted}");
    assert!(beside >= 100, "{beside}");
    // Lists were in use for each of the three reasons, and many went between others.
    for (reason, times) in tally.in_use.into_iter().enumerate() {
        assert!(times >= 100, "{reason}: {times}");
    }
    assert!(tally.between >= 5_000, "{}", tally.between);
}

/// The fault is seen, and the calls that the report calls enough end in the one
/// that it spoils.
fn is_caught<F: Fault>(spoilt: &str) {
    let Err(difference) = compare::<Faulty<F>>(1_000_000, 1) else {
        panic!("no difference seen");
    };
    let report = difference.to_string();
    assert!(report.starts_with(&format!("seed {}: ", difference.seed)));
    for calls in [&difference.enough, &difference.prefix] {
        let row = calls.last().and_then(Call::row).unwrap();
        assert_eq!(Call::NAMES[row], spoilt, "{report}");
    }
    assert!(difference.enough.len() <= difference.prefix.len());

    // The same script shows it again, and nothing is wrong with the model there.
    let again = compare::<Faulty<F>>(1, difference.seed).unwrap_err();
    assert_eq!(again.prefix, difference.prefix);
    assert!(compare::<Model>(1, difference.seed).is_ok());
}

/// A test for each fault, with the call that it spoils.
macro_rules! caught {
    ($($call:ident: $($fault:ident),+;)+) => {$($(
        #[test]
        #[allow(non_snake_case)]
        fn $fault() {
            is_caught::<fault::$fault>(stringify!($call));
        }
    )+)+};
}

caught! {
    reset: RecordThroughReset, TableThroughReset, ListsThroughReset, MutedAtReset,
        MuteThroughReset;
    write_bc: LostZero, UnlockedAtCd, LockingUnmaps;
    write_bd: WholeR4;
    write_7f: MappedAt10;
    start: RecordsThroughStart, PictureRecordThroughStart, FirstTableStays, ChannelsBy8Bits,
        ListsLostByStart, HeardByStart;
    page_read: HighByteOfBits, LengthLast, OthersChannelsShown, Bit7Shown, OthersNotRead;
    page_write: WholePixel, NoMirrors, OneKindOfNothing, PauseEndedByStart,
        PauseRestartedByDisable, DcsrKept, RefusedKept, SameNotKept, RecordOf255,
        NotYoursServed, NotYoursAsNothing, NotYoursUnmapped, ConverterOfNobody,
        NothingOfNobody, IvrOfBoth, ScreenOfSong, PixelOfNextSprite, HighByteOfNextEntry,
        OthersInterruptCleared, OthersEnabled, DcsrOfOwners, OneRecord, HeardByDcsr;
    undo: UndoOfOther, WrittenByteBack, PixelBackBy4Bits, OtherByteToo, CapturedSplitBack, EmptyServed,
        EmptyFirst, UndoWhereMapped, UndoWhereUnlocked, HeardByUndo;
    area: OddBoundsTaken, EmptyAreaServed, ReversedTaken, HighBoundTaken, BoundsBy16Bits,
        EndOfRamRefused, GivenTwice, RefusedAreaStands;
    place: TouchingIsOverlap, SecondGap, HighestAddress, ShortestGap, OddLengthPlaced,
        EmptyListServed, TooLongAsNoGap, LengthBeforeRam, LongerRamTaken, GapBeforeHandles,
        HandlesTo62, GapOneWordShort, UpperBoundUsed, LastWordUnused, NextHandle, HandlesFrom1,
        HandleThoughRefused, AddressThoughRefused, CopiedThoughRefused, WordBehindCleared,
        LastByteLost, WordsSwapped;
    remove: AddressNotAsked, StartNotAsked, EndAsked, MarkNotAsked, LoopNotAsked,
        CounterNotAsked, MarkAboveAsked, UsedWhileOff, WordsNotAsked, OneChannelAsked,
        UseBeforeHandle, NoAreaAsNoHandle, HandleBy6Bits, RemovedHandleKept,
        RemovedThoughRefused;
    export: XHighAsRead, MagnificationAtMirror, HighAddressFirst, StartOneWordBack, NoPrescales,
        ExportedThoughRefused;
    acknowledge: LowestFirst, AlwaysCleared;
    mute: Channel3Served, ChannelBy8Bits, MutedThoughRefused, PauseEndedByMute, OffByMute,
        VolumeByMute, MuteTurns, NeverHeardAgain;
    line: HighestSpriteFirst, ScrollOf3Bits, SteppedBeforeDrawn, ModeThreeDrawn,
        DrawnThoughRefused, SteppedThoughRefused, SteppedWithOtherStore, SteppedWithOtherLine,
        SteppedInModeThree, ModeBeforeLengths, CyclesThoughRefused, ReportLost,
        RasterInAdjust, SplitLateInAdjust, SplitOnFirstLine, AdvanceByRcAlone, RepeatKTimes, OuterCountKept, EightRegisters, HighestChannelFirst,
        PauseOf0Counts, ControlAsNothing, PauseDisturbed, OthersDisturbed, SatOutDisturbed,
        OnTakesTwo, AccessOfChannel1, AccessesIgnored, LoadLost, MutedLoadHeard, MarkOfChannel0,
        AllMutedByOne, MutedLoadFree, MutedLoadSitsOut, MutedLoadWithoutBits, MutedNotMoved,
        MutedPauseStands;
    forecast: LoopInStopWord, ListWithoutStop, MostOnce, MostIsLeast, LeastIsMost,
        MostThoughRefused;
}

/// A difference in a buffer alone says where it is.
#[test]
fn a_byte_that_differs_is_named() {
    let difference = compare::<Faulty<fault::WholePixel>>(1_000_000, 1).unwrap_err();
    assert!(difference.how.contains("of the store"), "{difference}");
}

/// So does one in the record alone.
#[test]
fn an_entry_that_differs_is_named() {
    let difference = compare::<Faulty<fault::DcsrKept>>(1_000_000, 1).unwrap_err();
    assert!(difference.how.contains("of the record"), "{difference}");
}

/// So does one in the placed lists alone, and in the area.
#[test]
fn a_list_that_differs_is_named() {
    let difference = compare::<Faulty<fault::RemovedHandleKept>>(1_000_000, 1).unwrap_err();
    assert!(difference.how.contains("core has placed"), "{difference}");
    let difference = compare::<Faulty<fault::RefusedAreaStands>>(1_000_000, 1).unwrap_err();
    assert!(difference.how.contains("core has the area"), "{difference}");
}

/// All sets of reasons to refuse a call on lists.
#[test]
fn refused_lists_are_the_models() {
    let tally = lists::refusals::<Model>().unwrap_or_else(|difference| panic!("{difference}"));
    println!("{tally:?}");
    // Of the bounds six are even and at most 65,536, and of these 15 pairs rise; with an
    // area given before none is served.
    let area = [0, 18].map(|number| tally.area[number]);
    assert_eq!(area, [15, 2 * 15 * 15 - 15]);
    // RAM is right for a quarter of 5 x 13 x 4 calls. Then all lengths are refused without
    // an area; of 13, 8 are none of a list in 192 bytes, and 10 in 128; and beside 63
    // lists one word fits, and 4 and 128 bytes don't.
    let place = [0, 1, 18, 19, 20].map(|number| tally.place[number]);
    assert_eq!(place, [5 + 1, 3 * 5 * 13, 13 + 8 + 10 + 8 + 10, 5 + 3, 2]);
    // For each of three channels: 12 handles and 6 of what it does. With an area 8 handles
    // have no list, and five of the 24 lists are in use.
    let remove = [0, 18, 21, 22].map(|number| tally.remove[number]);
    assert_eq!(remove, [3 * (24 - 5), 3 * 12 * 6, 3 * 8 * 6, 3 * 5]);
}

/// Every run of six calls in an area of six words, and of four at either end of RAM.
#[test]
fn small_areas_are_the_models() {
    for (bounds, calls) in [
        ((0x8000, 0x800C), 6),
        ((0, 10), 4),
        ((0xFFF6, 0x1_0000), 4),
        ((0, 0x1_0000), 4),
    ] {
        let tally = lists::small::<Model>(bounds, calls);
        let tally = tally.unwrap_or_else(|difference| panic!("{difference}"));
        println!("{tally:?}");
        let made: u64 = tally.place.iter().chain(&tally.remove).sum();
        assert_eq!(made, u64::from(calls) * 8_u64.pow(calls));
    }
}

/// A test for each fault that is seen in a small area, in runs of few calls.
macro_rules! seen_small {
    ($($seen:ident: $fault:ident),+) => {$(
        #[test]
        fn $seen() {
            assert!(lists::small::<Faulty<fault::$fault>>((0x8000, 0x800C), 5).is_err());
        }
    )+};
}

seen_small! {
    a_gap_a_word_short: GapOneWordShort,
    the_higher_bound_used: UpperBoundUsed,
    the_last_word_unused: LastWordUnused,
    no_two_that_touch: TouchingIsOverlap,
    the_second_gap: SecondGap,
    the_shortest_gap: ShortestGap,
    the_highest_address: HighestAddress,
    the_next_handle: NextHandle,
    a_handle_that_is_kept: RemovedHandleKept
}

/// Each buffer of every length up to 16 above its own, in each of the four modes.
#[test]
fn refused_lines_are_the_models() {
    let tally = line::refusals::<Model>().unwrap_or_else(|difference| panic!("{difference}"));
    println!("{tally:?}");
    // Of each buffer so many lengths that are not its own, and one that is; and of 125
    // sets of three lengths one is right.
    let others = (RAM + STORE + LINE + 3 * 16) as u64;
    let alone = [3, others, 3];
    let together = [1, 124, 1];
    let expected = [0, 1, 2].map(|n| alone[n] + together[n]);
    let answers = [0, 1, 4].map(|number| tally.answers[number]);
    assert_eq!(answers, [3 * expected[0], 4 * expected[1], expected[2]]);
    assert_eq!(tally.both, expected[1]);
}

#[test]
fn printer_and_reader_are_the_models() {
    if let Err(difference) = listing::each_word::<Model>() {
        panic!("{difference}");
    }
    match listing::changed_texts::<Model>(200_000, 1) {
        Err(difference) => panic!("{difference}"),
        Ok(answers) => {
            println!("{answers:?}");
            assert_eq!(answers.iter().sum::<u64>(), 200_000);
            for number in [0, 7, 8] {
                assert!(answers[number] >= 2_000, "{answers:?}");
            }
        }
    }
}

/// A test for each fault that is seen in so many of what is compared.
macro_rules! seen {
    (in $module:ident::$compared:ident($count:literal): $($fault:ident),+) => {$(
        #[test]
        #[allow(non_snake_case)]
        fn $fault() {
            assert!($module::$compared::<Faulty<fault::$fault>>($count, 1).is_err());
        }
    )+};
}

seen! {
    in listing::changed_texts(200_000):
    LowerWritten, Pause0AsWord, StrayPassedOver, StopBeforeInt, RoomForLongest, PartPrinted,
    BeyondCleared, LeadingZero, NamedAsWord, LowerRead, CarriageReturns, BlankAfter, LfLeftOut,
    RoomBeforeForm, BadLineFrom0, PartRead
}

#[test]
fn mending_is_the_models() {
    let tallies = mend::each_word::<Model>().and_then(|each| {
        let lists = mend::old_lists::<Model>(20_000, 1)?;
        Ok([each, lists])
    });
    for tally in tallies.unwrap_or_else(|difference| panic!("{difference}")) {
        println!("{tally:?}");
        for number in [0, 1, 16, 17] {
            assert!(tally.answers[number] >= 20_000, "{tally:?}");
        }
        let others: u64 = tally.answers[2..16].iter().sum();
        assert_eq!(others, 0, "{tally:?}");
        assert!(tally.added >= 20_000, "{tally:?}");
        assert!(tally.changes >= 50_000, "{tally:?}");
    }
}

/// A STOP is added over one, and as often over other words.
#[test]
fn stops_are_added_over_stops() {
    let tally = mend::old_lists::<Model>(1_000, 2).unwrap();
    println!("{tally:?}");
    assert!(tally.over_the_same >= 1_000, "{tally:?}");
    assert!(tally.added >= 2 * tally.over_the_same, "{tally:?}");
}

/// All sets of reasons to refuse a call that mends.
#[test]
fn refused_mendings_are_the_models() {
    let tally = mend::refusals::<Model>().unwrap_or_else(|difference| panic!("{difference}"));
    let answers = [0, 1, 16, 17].map(|number| tally.answers[number]);
    assert_eq!(answers, [1, 4, 2, 1]);
}

seen! {
    in mend::old_lists(20_000):
    AddedStopFirst, AddedStopNotInUse, AddedStopOver0, AddedStopReportedIfOther,
    AddedStopUnreported, AllInUseRefused, BeyondMended, BeyondReportCleared, ChangesFrom1,
    Code3Stays, CodeFStays, FullReportRefused, HalfAChange, HalfAChangeRead, InUseBy32Bits,
    InUseThoughRefused, IntCleared, JoinedStopUnseen, LastChangeBeyond, LengthTestedLast,
    LoopCleared, LowBitsOfReserved, MendedThoughRefused, NoneInUseLeft, OldForNew, Pause0Stays,
    PausesGone, PlaceBy32Bits, PlacesFall, PlacesFrom1, ReportBeforeStop, ReportedThoughRefused,
    StopBeyondSeen, StopByBitAlone, StopCleared, StopOf5020, StrayBitsStay, StrayStopUnseen
}

#[test]
fn takes_are_the_models() {
    let tally = match take::changed_takes::<Model>(100_000, 1) {
        Ok(tally) => tally,
        Err(difference) => panic!("{difference}"),
    };
    println!("{tally:?}");
    for number in [0, 13, 14] {
        assert!(tally.written[number] >= 10_000, "{tally:?}");
    }
    for number in [0, 11, 12, 13] {
        assert!(tally.opened[number] >= 5_000, "{tally:?}");
    }
    for number in [0, 3, 11, 12] {
        assert!(tally.read[number] >= 10_000, "{tally:?}");
    }
}

#[test]
fn short_files_are_the_models() {
    let tally = match take::short_files::<Model>(5_000, 1) {
        Ok(tally) => tally,
        Err(difference) => panic!("{difference}"),
    };
    println!("{tally:?}");
    for number in [0, 11, 12, 13] {
        assert!(tally.opened[number] >= 5_000, "{tally:?}");
    }
    for number in [0, 3, 11, 12] {
        assert!(tally.read[number] >= 10_000, "{tally:?}");
    }
}

/// All sets of a file's faults, and of the writer's.
#[test]
fn refusals_are_the_models() {
    let tally = match take::refusals::<Model>() {
        Ok(tally) => tally,
        Err(difference) => panic!("{difference}"),
    };
    let opened = [0, 11, 12, 13].map(|number| tally.opened[number]);
    assert_eq!(opened, [1, 4, 2, 1]);
    // Four rooms each; half of the takes have a bad record.
    let written = [0, 13, 14].map(|number| tally.written[number]);
    assert_eq!(written, [8, 16, 8]);
}

/// A test for each fault of takes: it is seen in takes with one byte changed or in
/// files of few bytes.
macro_rules! take_caught {
    ($($fault:ident),+) => {$(
        #[test]
        #[allow(non_snake_case)]
        fn $fault() {
            let changed = take::changed_takes::<Faulty<fault::$fault>>(100_000, 1);
            let short = take::short_files::<Faulty<fault::$fault>>(5_000, 1);
            assert!(changed.is_err() || short.is_err());
        }
    )+};
}

take_caught! {
    AddressHighFirst, BadRecordFrom0, BeyondTakeCleared, CommentThoughRefused,
    CountAndOffsetSwapped, CountThoughBad, FallingLineAccepted, FullRoomRefused, GapAllowed,
    Kind0Accepted, Kind11Accepted, KindByValue, LineBy16Bits, MetBeforeLetters,
    NoRecordsThoughMet, NoSuchRecordServed, NumberBeforeTrailer, PortWithAddress, RecordFrom0,
    RecordsBeforeMet, RoomBeforeRecords, SameLineBad, ThreeLetters, TrailerOf11, UndoWithValue,
    StartWithValue, StartWithAddress, PictureWriteWithoutAddress, MuteWithValue2,
    MuteOfChannel3Bad
}

/// A test for each fault of refusals, their order above all: it is seen where all sets
/// of reasons are.
macro_rules! order_caught {
    ($($calls:ident { $($order:ident: $fault:ident),+ })+) => {$($(
        #[test]
        fn $order() {
            assert!($calls::refusals::<Faulty<fault::$fault>>().is_err());
        }
    )+)+};
}

order_caught! {
    lists {
        eighteen_before_one: LengthBeforeRam,
        twenty_before_nineteen: GapBeforeHandles,
        twenty_for_eighteen: TooLongAsNoGap,
        twenty_one_for_eighteen: NoAreaAsNoHandle,
        a_handle_told_though_refused: HandleThoughRefused,
        an_address_told_though_refused: AddressThoughRefused,
        copied_though_refused: CopiedThoughRefused,
        removed_though_refused: RemovedThoughRefused,
        given_though_refused: RefusedAreaStands
    }
    take {
        twelve_before_eleven: MetBeforeLetters,
        thirteen_before_twelve: RecordsBeforeMet,
        fourteen_before_thirteen: RoomBeforeRecords
    }
    mend {
        seventeen_before_sixteen: ReportBeforeStop,
        sixteen_and_seventeen_before_one: LengthTestedLast
    }
    line {
        four_before_one: ModeBeforeLengths,
        stepped_though_refused: SteppedThoughRefused,
        stepped_with_another_store: SteppedWithOtherStore,
        stepped_with_another_line: SteppedWithOtherLine,
        stepped_in_mode_3: SteppedInModeThree,
        drawn_though_refused: DrawnThoughRefused,
        served_in_mode_3: ModeThreeDrawn,
        cycles_though_refused: CyclesThoughRefused
    }
}

/// Sessions made by hand, and the takes of their calls.
#[test]
fn takes_play_as_by_hand() {
    let tally = match replay::sessions::<Model>(10_000, 1) {
        Ok(tally) => tally,
        Err(difference) => panic!("{difference}"),
    };
    println!("{tally:?}");
    assert!(tally.takes >= 20_000, "{tally:?}");
    for (number, least) in [(0, 20_000), (1, 1_000), (11, 10), (12, 1_000), (13, 1_000)] {
        assert!(tally.answers[number] >= least, "{tally:?}");
    }
    // A record's call can be refused with these, and with no other.
    for (number, times) in tally.counts.into_iter().enumerate() {
        match number {
            2 | 3 | 5 | 9 | 10 | 15 => assert!(times >= 1_000, "{tally:?}"),
            _ => assert_eq!(times, 0, "{tally:?}"),
        }
    }
}

seen! {
    in replay::sessions(10_000):
    CountedTogether, FirstRecordSkipped, LinesAfterTheCall, NoLinesInModeThree, NotFromReset,
    OneLineMore, PlayedUpToBad, RefusedCallEnds, RefusedNotCounted, TakeBeforeLengths,
    PictureUndoOfSong, PictureWriteOfSong, TableNotLent, MutesPassedOver, MutedByValue0,
    MuteByLowBits
}
