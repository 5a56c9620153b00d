//! The answers of the wrapper beside the numbers of documents 01 and 02, and of
//! the C interface.

use plus::Answer;
use std::fs;

/// The tables of the documents: the numbers, and what they are for.
const TABLE: [Answer; 23] = [
    Answer::Done,
    Answer::WrongLength,
    Answer::NotMapped,
    Answer::NothingThere,
    Answer::ModeThree,
    Answer::NoInterrupt,
    Answer::NoStop,
    Answer::NotListing,
    Answer::TooSmall,
    Answer::ConverterThere,
    Answer::NothingToUndo,
    Answer::NoTrailer,
    Answer::NotMet,
    Answer::BadRecord,
    Answer::NoRoom,
    Answer::NotYours,
    Answer::NoRoomForStop,
    Answer::ReportTooSmall,
    Answer::WrongArea,
    Answer::AllPlaced,
    Answer::NoGap,
    Answer::NoHandle,
    Answer::ListInUse,
];

/// The lines of the header from one that ends so, up to one that begins so.
fn header(from: &str, to: &str) -> Vec<String> {
    let path = concat!(env!("CARGO_MANIFEST_DIR"), "/../../include/plus.h");
    let text = fs::read_to_string(path).unwrap();
    let after = text.split(from).nth(1).expect("the header has it");
    let part = after.split(to).next().unwrap_or("");
    part.lines().map(|line| line.trim().to_string()).collect()
}

#[test]
fn numbers() {
    assert_eq!(Answer::ALL, TABLE);
    for (number, answer) in (0..).zip(TABLE) {
        assert_eq!((answer.number(), u8::from(answer)), (number, number));
        assert_eq!(Answer::try_from(number), Ok(answer));
        assert!(answer == number && answer != number + 1);
        assert_eq!(answer.served().is_ok(), number == 0);
    }
    assert_eq!(Answer::try_from(23), Err(23));
    assert_eq!(Answer::try_from(255), Err(255));
}

/// The names of the header's numbers are those of the enum, in other letters.
#[test]
fn the_headers_numbers() {
    let lines = header("The lowest that applies is given. */", "};");
    let found: Vec<String> = lines
        .iter()
        .filter_map(|line| line.strip_prefix("PLUS_")?.split("/*").next())
        .map(|line| {
            line.trim()
                .trim_end_matches(',')
                .to_lowercase()
                .replace('_', "")
        })
        .collect();
    let expected = TABLE.map(|answer| format!("{answer:?} = {}", answer.number()).to_lowercase());
    assert_eq!(found, expected);
}

/// And so are its texts.
#[test]
fn the_headers_texts() {
    let lines = header("static const char *const texts[] = {", "};");
    let found: Vec<&str> = lines
        .iter()
        .filter_map(|line| line.strip_prefix('"')?.strip_suffix("\","))
        .collect();
    assert_eq!(found, TABLE.map(|answer| answer.to_string()));
}
