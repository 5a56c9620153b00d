//! A sound list as text, one line a word, and such a text read back.
//!
//! ```
//! use plus::listing::{text_of, words_of, BadLine};
//!
//! let words = [0x0738, 0x1002, 0x3ABC, 0x4030];
//! let text = text_of(&words);
//! assert_eq!(text, b"LOAD 7 38\nPAUSE 2\nWORD 3ABC\nINT+STOP\n");
//! assert_eq!(words_of(&text), Ok(words.to_vec()));
//!
//! // Printed text alone is read, and the second line here is not printed so.
//! assert_eq!(words_of(b"LOAD 7 38\nPAUSE 02\n"), Err(BadLine(2)));
//! ```

use crate::{ffi, version, Answer};
use std::error::Error;
use std::fmt;

/// The most bytes that a word's line has, its LF with them: `LOOP+INT+STOP`.
pub const LONGEST_LINE: usize = 14;

/// What printing gives.
#[repr(C)]
#[derive(Clone, Copy, Debug, PartialEq, Eq)]
pub struct Printed {
    /// What was answered: number 0 or 8.
    pub answer: Answer,
    /// How many bytes of text were written.
    pub size: usize,
}

/// What reading gives.
#[repr(C)]
#[derive(Clone, Copy, Debug, PartialEq, Eq)]
pub struct ReadBack {
    /// What was answered: number 0, 7 or 8.
    pub answer: Answer,
    /// How many words were written.
    pub count: usize,
    /// With 7 the number of the first bad line, from 1.
    pub line: usize,
}

/// Prints words into a buffer. What lies beyond the text stays.
#[must_use]
pub fn print(words: &[u16], text: &mut [u8]) -> Printed {
    version::check();
    // SAFETY: the library reads and writes only within the slices it is lent.
    unsafe { ffi::plus_print(words.as_ptr(), words.len(), text.as_mut_ptr(), text.len()) }
}

/// Reads a text into a buffer. What lies beyond the words stays.
#[must_use]
pub fn read(text: &[u8], words: &mut [u16]) -> ReadBack {
    version::check();
    // SAFETY: the library reads and writes only within the slices it is lent.
    unsafe { ffi::plus_read(text.as_ptr(), text.len(), words.as_mut_ptr(), words.len()) }
}

/// The text of words.
pub fn text_of(words: &[u16]) -> Vec<u8> {
    let mut text = vec![0; LONGEST_LINE * words.len()];
    let printed = print(words, &mut text);
    debug_assert_eq!(printed.answer, Answer::Done);
    text.truncate(printed.size);
    text
}

/// The words of a text, or its first bad line.
pub fn words_of(text: &[u8]) -> Result<Vec<u16>, BadLine> {
    // A line has one LF, its last byte.
    let lines = text.iter().filter(|&&byte| byte == b'\n').count();
    let mut words = vec![0; lines];
    let read = read(text, &mut words);
    if read.answer == Answer::NotListing {
        return Err(BadLine(read.line));
    }
    debug_assert_eq!((read.answer, read.count), (Answer::Done, lines));
    Ok(words)
}

/// The number of a text's first line that is no word's, from 1.
#[derive(Clone, Copy, Debug, PartialEq, Eq)]
pub struct BadLine(pub usize);

impl fmt::Display for BadLine {
    fn fmt(&self, f: &mut fmt::Formatter) -> fmt::Result {
        write!(f, "line {} is no word's", self.0)
    }
}

impl Error for BadLine {}
