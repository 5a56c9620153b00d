//! What a call can answer.

use std::error::Error;
use std::fmt;

/// What a call answers: that it was served, or why it was refused. Where several
/// reasons apply it is the one with the lowest number; no other applies where
/// [`NotYours`](Answer::NotYours) does.
///
/// ```
/// use plus::{Answer, Chip};
///
/// let mut chip = Chip::new();
/// let (answer, _) = chip.acknowledge();
/// assert_eq!(answer, Answer::NoInterrupt);
/// assert_eq!((answer.number(), answer.to_string()), (5, "no interrupt is waiting".to_string()));
/// assert_eq!(answer.served(), Err(Answer::NoInterrupt)); // for `?`
/// ```
#[repr(u8)]
#[non_exhaustive]
#[derive(Clone, Copy, Debug, PartialEq, Eq, PartialOrd, Ord, Hash)]
pub enum Answer {
    /// The call was served.
    Done = 0,
    /// A lent buffer has the wrong length: page read and write, undo, export, the
    /// line's call, forecast, playing a take, placing a list. Or it has fewer words
    /// than are in use: mending a list.
    WrongLength = 1,
    /// The address is not of the page, or the page is not mapped: page read and
    /// write.
    NotMapped = 2,
    /// Nothing takes the byte: writes to the page, the 6845's data port, 7Fxx. Or no
    /// record has the number: a take's record. Or no channel has it: mute.
    NothingThere = 3,
    /// The screen mode is 3: the line's call.
    ModeThree = 4,
    /// No interrupt waits: acknowledge.
    NoInterrupt = 5,
    /// The list has no STOP up to the end of RAM: forecast.
    NoStop = 6,
    /// A line of the text is no word's: reading a listing.
    NotListing = 7,
    /// The buffer has no room for all of the text or of the words: printing a
    /// listing, and reading one.
    TooSmall = 8,
    /// A converter is there, 6808h to 680Fh, which can only be read: page write.
    ConverterThere = 9,
    /// No page write is left to take back: undo.
    NothingToUndo = 10,
    /// The file is shorter than a trailer, or ends with other letters: opening and
    /// playing a take, and its records.
    NoTrailer = 11,
    /// The records don't end where the trailer begins, by its offset and count:
    /// opening and playing a take, and its records.
    NotMet = 12,
    /// A record is bad: writing, opening and playing a take.
    BadRecord = 13,
    /// The buffer has no room for the take, or its count or its offset has none in
    /// 4 bytes: writing a take.
    NoRoom = 14,
    /// The register is not this editor's, by the table that holds: page write.
    NotYours = 15,
    /// No word in use has STOP, and the buffer has no room for one after them:
    /// mending a list.
    NoRoomForStop = 16,
    /// The report has no room for all changes: mending a list.
    ReportTooSmall = 17,
    /// The bounds are none that an area has, or one was given before: giving the area.
    /// Or none was given yet: placing and removing a list. Or the length is 0, odd or
    /// above the area's: placing one.
    WrongArea = 18,
    /// Every handle has a list: placing one.
    AllPlaced = 19,
    /// No gap between the lists is long enough: placing one.
    NoGap = 20,
    /// No list has the handle: removing one.
    NoHandle = 21,
    /// A channel that is enabled has the list in use: removing it.
    ListInUse = 22,
}

impl Answer {
    /// All of them, each at its number's place.
    pub const ALL: [Answer; 23] = [
        Answer::Done,
        Answer::WrongLength,
        Answer::NotMapped,
        Answer::NothingThere,
        Answer::ModeThree,
        Answer::NoInterrupt,
        Answer::NoStop,
        Answer::NotListing,
        Answer::TooSmall,
        Answer::ConverterThere,
        Answer::NothingToUndo,
        Answer::NoTrailer,
        Answer::NotMet,
        Answer::BadRecord,
        Answer::NoRoom,
        Answer::NotYours,
        Answer::NoRoomForStop,
        Answer::ReportTooSmall,
        Answer::WrongArea,
        Answer::AllPlaced,
        Answer::NoGap,
        Answer::NoHandle,
        Answer::ListInUse,
    ];

    /// Its number, as the C interface has it.
    pub const fn number(self) -> u8 {
        self as u8
    }

    /// Nothing where the call was served, else itself as an error.
    pub fn served(self) -> Result<(), Answer> {
        match self {
            Answer::Done => Ok(()),
            refusal => Err(refusal),
        }
    }
}

impl From<Answer> for u8 {
    fn from(answer: Answer) -> u8 {
        answer.number()
    }
}

/// The answer of a number; the number itself where there is none.
impl TryFrom<u8> for Answer {
    type Error = u8;

    fn try_from(number: u8) -> Result<Answer, u8> {
        let found = Answer::ALL.get(usize::from(number));
        found.copied().ok_or(number)
    }
}

/// With its number.
impl PartialEq<u8> for Answer {
    fn eq(&self, number: &u8) -> bool {
        self.number() == *number
    }
}

/// In the words of `plus_answer_text` of `include/plus.h`.
impl fmt::Display for Answer {
    fn fmt(&self, f: &mut fmt::Formatter) -> fmt::Result {
        f.write_str(match self {
            Answer::Done => "done",
            Answer::WrongLength => "a buffer has another length than its call wants",
            Answer::NotMapped => "the page is not mapped, or the address is not in it",
            Answer::NothingThere => {
                "no register there that could be written, or no such record or channel"
            }
            Answer::ModeThree => "a line in screen mode 3 can't be drawn",
            Answer::NoInterrupt => "no interrupt is waiting",
            Answer::NoStop => "the list has no STOP up to the end of RAM",
            Answer::NotListing => "a line of the text is no word's",
            Answer::TooSmall => "the buffer has no room for all of it",
            Answer::ConverterThere => "a converter is there, which can only be read",
            Answer::NothingToUndo => "no page write is left that could be undone",
            Answer::NoTrailer => "the file has no trailer",
            Answer::NotMet => "the records don't end where the trailer begins",
            Answer::BadRecord => "a record is bad",
            Answer::NoRoom => "there is no room for the take",
            Answer::NotYours => "the register is not this editor's",
            Answer::NoRoomForStop => "the list has no STOP, and there is no room for one",
            Answer::ReportTooSmall => "the report has no room for all changes",
            Answer::WrongArea => {
                "bounds or length are wrong, or an area is there already or not yet"
            }
            Answer::AllPlaced => "every handle has a list",
            Answer::NoGap => "no gap in the area is long enough",
            Answer::NoHandle => "no list has that handle",
            Answer::ListInUse => "a channel has the list in use",
        })
    }
}

impl Error for Answer {}
