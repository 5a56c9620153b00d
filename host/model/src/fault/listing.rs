//! Faults of the printer and of the reader.

use crate::machine::Fault;
use plus::listing::{print, read, text_of, words_of, Printed, ReadBack, LONGEST_LINE};
use plus::Answer;

/// Prints words by lines that are made anew.
fn printed_as(words: &[u16], text: &mut [u8], anew: impl Fn(Vec<u8>) -> Vec<u8>) -> Printed {
    let lines = words.iter().flat_map(|&word| anew(text_of(&[word])));
    let wrong: Vec<u8> = lines.collect();
    if wrong.len() > text.len() {
        return print(words, &mut []);
    }
    text[..wrong.len()].copy_from_slice(&wrong);
    Printed {
        answer: Answer::Done,
        size: wrong.len(),
    }
}

/// Reads a text of lines that are made anew.
fn read_as(text: &[u8], words: &mut [u16], anew: impl Fn(&str) -> String) -> ReadBack {
    match std::str::from_utf8(text) {
        Ok(text) => {
            let lines: String = text.split_inclusive('\n').map(anew).collect();
            read(lines.as_bytes(), words)
        }
        Err(_) => read(text, words),
    }
}

/// Hexadecimal digits are printed in lower case.
pub struct LowerWritten;

impl Fault for LowerWritten {
    fn print(words: &[u16], text: &mut [u8]) -> Printed {
        printed_as(words, text, |mut line| {
            if let Some(blank) = line.iter().rposition(|&byte| byte == b' ') {
                line[blank..].make_ascii_lowercase();
            }
            line
        })
    }
}

/// 1000h is printed as a word with no name.
pub struct Pause0AsWord;

impl Fault for Pause0AsWord {
    fn print(words: &[u16], text: &mut [u8]) -> Printed {
        printed_as(words, text, |line| match &line[..] {
            b"PAUSE 0\n" => b"WORD 1000\n".to_vec(),
            _ => line,
        })
    }
}

/// A control word is printed by its three bits, whatever others it has.
pub struct StrayPassedOver;

impl Fault for StrayPassedOver {
    fn print(words: &[u16], text: &mut [u8]) -> Printed {
        let plain = |&word: &u16| match word >> 12 {
            4 => word & 0x4031,
            _ => word,
        };
        print(&words.iter().map(plain).collect::<Vec<_>>(), text)
    }
}

/// STOP is printed before INT.
pub struct StopBeforeInt;

impl Fault for StopBeforeInt {
    fn print(words: &[u16], text: &mut [u8]) -> Printed {
        printed_as(words, text, |line| match line.strip_suffix(b"INT+STOP\n") {
            Some(before) => [before, b"STOP+INT\n"].concat(),
            None => line,
        })
    }
}

/// Printing asks for the longest line's room for every word.
pub struct RoomForLongest;

impl Fault for RoomForLongest {
    fn print(words: &[u16], text: &mut [u8]) -> Printed {
        if text.len() < LONGEST_LINE * words.len() {
            return Printed {
                answer: Answer::TooSmall,
                size: 0,
            };
        }
        print(words, text)
    }
}

/// A refused print leaves the lines that had room.
pub struct PartPrinted;

impl Fault for PartPrinted {
    fn print(words: &[u16], text: &mut [u8]) -> Printed {
        let printed = print(words, text);
        if printed.answer == Answer::TooSmall {
            let part = text_of(words);
            let room = text.len();
            text.copy_from_slice(&part[..room]);
        }
        printed
    }
}

/// A served print clears what lies beyond the text.
pub struct BeyondCleared;

impl Fault for BeyondCleared {
    fn print(words: &[u16], text: &mut [u8]) -> Printed {
        let printed = print(words, text);
        if printed.answer == Answer::Done {
            text[printed.size..].fill(0);
        }
        printed
    }
}

/// A zero before a register or a count is passed over.
pub struct LeadingZero;

impl Fault for LeadingZero {
    fn read(text: &[u8], words: &mut [u16]) -> ReadBack {
        read_as(text, words, |line| match line.split_once(" 0") {
            Some((name @ ("LOAD" | "PAUSE" | "REPEAT"), rest))
                if rest.starts_with(|byte: char| byte.is_ascii_digit()) =>
            {
                format!("{name} {rest}")
            }
            _ => line.to_string(),
        })
    }
}

/// WORD is read for a word with a name.
pub struct NamedAsWord;

impl Fault for NamedAsWord {
    fn read(text: &[u8], words: &mut [u16]) -> ReadBack {
        read_as(text, words, |line| {
            let digits = line
                .strip_prefix("WORD ")
                .and_then(|rest| rest.strip_suffix('\n'));
            match digits.map(|digits| (digits.len(), u16::from_str_radix(digits, 16))) {
                Some((4, Ok(word))) => String::from_utf8(text_of(&[word])).unwrap(),
                _ => line.to_string(),
            }
        })
    }
}

/// Lower case is read.
pub struct LowerRead;

impl Fault for LowerRead {
    fn read(text: &[u8], words: &mut [u16]) -> ReadBack {
        read(&text.to_ascii_uppercase(), words)
    }
}

/// A CR before the LF is passed over.
pub struct CarriageReturns;

impl Fault for CarriageReturns {
    fn read(text: &[u8], words: &mut [u16]) -> ReadBack {
        read_as(text, words, |line| line.replace("\r\n", "\n"))
    }
}

/// Blanks at a line's end are passed over.
pub struct BlankAfter;

impl Fault for BlankAfter {
    fn read(text: &[u8], words: &mut [u16]) -> ReadBack {
        read_as(text, words, |line| line.replace(" \n", "\n"))
    }
}

/// The last line may lack its LF.
pub struct LfLeftOut;

impl Fault for LfLeftOut {
    fn read(text: &[u8], words: &mut [u16]) -> ReadBack {
        match text.last() {
            None | Some(b'\n') => read(text, words),
            _ => read(&[text, b"\n"].concat(), words),
        }
    }
}

/// The room is tested before the form.
pub struct RoomBeforeForm;

impl Fault for RoomBeforeForm {
    fn read(text: &[u8], words: &mut [u16]) -> ReadBack {
        let lines = text.split_inclusive(|&byte| byte == b'\n').count();
        if lines > words.len() {
            return ReadBack {
                answer: Answer::TooSmall,
                count: 0,
                line: 0,
            };
        }
        read(text, words)
    }
}

/// Bad lines are numbered from 0.
pub struct BadLineFrom0;

impl Fault for BadLineFrom0 {
    fn read(text: &[u8], words: &mut [u16]) -> ReadBack {
        let mut back = read(text, words);
        back.line = back.line.saturating_sub(1);
        back
    }
}

/// A refused read leaves the words before the bad line.
pub struct PartRead;

impl Fault for PartRead {
    fn read(text: &[u8], words: &mut [u16]) -> ReadBack {
        let back = read(text, words);
        if back.answer == Answer::NotListing {
            let lines = text.split_inclusive(|&byte| byte == b'\n');
            for (place, line) in words.iter_mut().zip(lines.take(back.line - 1)) {
                *place = words_of(line).unwrap()[0];
            }
        }
        back
    }
}
