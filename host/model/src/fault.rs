//! Cores that go wrong in one rule each, to see that tests fail on them. The
//! readings that document 01 has seen go astray are among them.

use lent::Lent;
use plus::{Answer, Chip, Editor, Report};

type Read = fn(&mut Chip, Editor, &[u8], u16, u8) -> (Answer, u8);
type Write = fn(&mut Chip, Editor, &mut [u8], u16, u8) -> Answer;
type Line = fn(&mut Chip, &mut Lent) -> (Answer, Report);

/// A fault of the page read: the read in its place.
macro_rules! reads {
    ($($(#[$about:meta])* $fault:ident: $read:expr;)+) => {$(
        $(#[$about])*
        pub struct $fault;

        impl $crate::machine::Fault for $fault {
            fn page_read(
                chip: &mut plus::Chip,
                editor: plus::Editor,
                store: &[u8],
                address: u16,
                bus: u8,
            ) -> (plus::Answer, u8) {
                let read: $crate::fault::Read = $read;
                read(chip, editor, store, address, bus)
            }
        }
    )+};
}

/// A fault of the page write: the write in its place.
macro_rules! writes {
    ($($(#[$about:meta])* $fault:ident: $write:expr;)+) => {$(
        $(#[$about])*
        pub struct $fault;

        impl $crate::machine::Fault for $fault {
            fn page_write(
                chip: &mut plus::Chip,
                editor: plus::Editor,
                store: &mut [u8],
                address: u16,
                byte: u8,
            ) -> plus::Answer {
                let write: $crate::fault::Write = $write;
                write(chip, editor, store, address, byte)
            }
        }
    )+};
}

/// A fault of the line's call: the call in its place.
macro_rules! lines {
    ($($(#[$about:meta])* $fault:ident: $line:expr;)+) => {$(
        $(#[$about])*
        pub struct $fault;

        impl $crate::machine::Fault for $fault {
            fn line(
                chip: &mut plus::Chip,
                ram: &[u8],
                store: &[u8],
                line: &mut [u8],
                accesses: [plus::Access; 3],
            ) -> (plus::Answer, plus::Report) {
                let call: $crate::fault::Line = $line;
                call(chip, &mut $crate::fault::Lent { ram, store, line, accesses })
            }
        }
    )+};
}

mod drawing;
mod editors;
mod export;
mod interrupts;
mod lent;
mod line;
mod listing;
mod lists;
mod mend;
mod mute;
mod page;
mod ports;
mod processor;
mod replay;
mod sound;
mod take;
mod undo;

pub use drawing::{
    DrawnThoughRefused, HighestSpriteFirst, ModeThreeDrawn, ScrollOf3Bits, SteppedBeforeDrawn,
};
pub use editors::{
    Bit7Shown, ChannelsBy8Bits, ConverterOfNobody, DcsrOfOwners, FirstTableStays,
    HighByteOfNextEntry, IvrOfBoth, NotYoursAsNothing, NotYoursServed, NotYoursUnmapped,
    NothingOfNobody, OneRecord, OthersChannelsShown, OthersEnabled, OthersInterruptCleared,
    OthersNotRead, PictureRecordThroughStart, PixelOfNextSprite, RecordsThroughStart, ScreenOfSong,
    TableThroughReset, UndoOfOther,
};
pub use export::{
    ExportedThoughRefused, HighAddressFirst, MagnificationAtMirror, NoPrescales, StartOneWordBack,
    XHighAsRead,
};
pub use interrupts::{AlwaysCleared, LowestFirst};
pub use line::{
    AdvanceByRcAlone, CyclesThoughRefused, ModeBeforeLengths, RasterInAdjust, ReportLost,
    SplitLateInAdjust, SplitOnFirstLine, SteppedInModeThree, SteppedThoughRefused,
    SteppedWithOtherLine, SteppedWithOtherStore,
};
pub use listing::{
    BadLineFrom0, BeyondCleared, BlankAfter, CarriageReturns, LeadingZero, LfLeftOut, LowerRead,
    LowerWritten, NamedAsWord, PartPrinted, PartRead, Pause0AsWord, RoomBeforeForm, RoomForLongest,
    StopBeforeInt, StrayPassedOver,
};
pub use lists::{
    AddressNotAsked, AddressThoughRefused, BoundsBy16Bits, CopiedThoughRefused, CounterNotAsked,
    EmptyAreaServed, EmptyListServed, EndAsked, EndOfRamRefused, GapBeforeHandles, GapOneWordShort,
    GivenTwice, HandleBy6Bits, HandleThoughRefused, HandlesFrom1, HandlesTo62, HighBoundTaken,
    HighestAddress, LastByteLost, LastWordUnused, LengthBeforeRam, ListsLostByStart,
    ListsThroughReset, LongerRamTaken, LoopNotAsked, MarkAboveAsked, MarkNotAsked, NextHandle,
    NoAreaAsNoHandle, OddBoundsTaken, OddLengthPlaced, OneChannelAsked, RefusedAreaStands,
    RemovedHandleKept, RemovedThoughRefused, ReversedTaken, SecondGap, ShortestGap, StartNotAsked,
    TooLongAsNoGap, TouchingIsOverlap, UpperBoundUsed, UseBeforeHandle, UsedWhileOff,
    WordBehindCleared, WordsNotAsked, WordsSwapped,
};
pub use mend::{
    AddedStopFirst, AddedStopNotInUse, AddedStopOver0, AddedStopReportedIfOther,
    AddedStopUnreported, AllInUseRefused, BeyondMended, BeyondReportCleared, ChangesFrom1,
    Code3Stays, CodeFStays, FullReportRefused, HalfAChange, HalfAChangeRead, InUseBy32Bits,
    InUseThoughRefused, IntCleared, JoinedStopUnseen, LastChangeBeyond, LengthTestedLast,
    LoopCleared, LowBitsOfReserved, MendedThoughRefused, NoneInUseLeft, OldForNew, Pause0Stays,
    PausesGone, PlaceBy32Bits, PlacesFall, PlacesFrom1, ReportBeforeStop, ReportedThoughRefused,
    StopBeyondSeen, StopByBitAlone, StopCleared, StopOf5020, StrayBitsStay, StrayStopUnseen,
};
pub use mute::{
    AllMutedByOne, Channel3Served, ChannelBy8Bits, HeardByDcsr, HeardByStart, HeardByUndo,
    MarkOfChannel0, MuteThroughReset, MuteTurns, MutedAtReset, MutedLoadFree, MutedLoadHeard,
    MutedLoadSitsOut, MutedLoadWithoutBits, MutedNotMoved, MutedPauseStands, MutedThoughRefused,
    NeverHeardAgain, OffByMute, PauseEndedByMute, VolumeByMute,
};
pub use page::{
    HighByteOfBits, LengthLast, NoMirrors, OneKindOfNothing, PauseEndedByStart,
    PauseRestartedByDisable, WholePixel,
};
pub use ports::{LockingUnmaps, LostZero, MappedAt10, UnlockedAtCd, WholeR4};
pub use processor::{
    AccessOfChannel1, AccessesIgnored, LeastIsMost, LoadLost, MostIsLeast, MostOnce,
    MostThoughRefused, OnTakesTwo, OthersDisturbed, PauseDisturbed, SatOutDisturbed,
};
pub use replay::{
    CountedTogether, FirstRecordSkipped, LinesAfterTheCall, MuteByLowBits, MutedByValue0,
    MutesPassedOver, NoLinesInModeThree, NotFromReset, OneLineMore, PictureUndoOfSong,
    PictureWriteOfSong, PlayedUpToBad, RefusedCallEnds, RefusedNotCounted, TableNotLent,
    TakeBeforeLengths,
};
pub use sound::{
    ControlAsNothing, EightRegisters, HighestChannelFirst, ListWithoutStop, LoopInStopWord,
    OuterCountKept, PauseOf0Counts, RepeatKTimes,
};
pub use take::{
    AddressHighFirst, BadRecordFrom0, BeyondTakeCleared, CommentThoughRefused,
    CountAndOffsetSwapped, CountThoughBad, EndBy32Bits, FallingLineAccepted, FullRoomRefused,
    GapAllowed, Kind0Accepted, Kind11Accepted, KindByValue, LineBy16Bits, MetBeforeLetters,
    MuteOfChannel3Bad, MuteWithValue2, NoRecordsThoughMet, NoSuchRecordServed, NumberBeforeTrailer,
    OffsetCut, PictureWriteWithoutAddress, PortWithAddress, RecordFrom0, RecordsBeforeMet,
    RoomBeforeRecords, SameLineBad, StartWithAddress, StartWithValue, ThreeLetters, TrailerOf11,
    UndoWithValue,
};
pub use undo::{
    CapturedSplitBack, DcsrKept, EmptyFirst, EmptyServed, OtherByteToo, PixelBackBy4Bits,
    RecordOf255, RecordThroughReset, RefusedKept, SameNotKept, UndoWhereMapped, UndoWhereUnlocked,
    WrittenByteBack,
};
