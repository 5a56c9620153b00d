//! A sound list in a file: words, two bytes each, or a listing.

use crate::hint;
use plus::listing::{words_of, BadLine, LONGEST_LINE};
use plus::RAM;

/// More bytes than any list has that fits into RAM, as words or as a listing. So
/// many are enough to see that.
pub const TOO_LONG: u64 = (RAM / 2 * LONGEST_LINE) as u64 + 1;

/// Puts the list of a file into RAM, from an address on whose bit 0 is dropped: a
/// listing if all of the file's lines are words' lines, else words. Why a file that
/// looks like a listing is taken as words, if it is; or why there is no list, or it
/// does not fit.
pub fn put(ram: &mut [u8], start: u16, file: &[u8]) -> Result<Option<String>, String> {
    let start = usize::from(start & 0xFFFE);
    let (words, doubt) = match file.len() as u64 {
        TOO_LONG => (vec![0; RAM], None),
        _ => words_in(file)?,
    };
    let room = (RAM - start) / 2;
    if words.len() > room {
        return Err(format!(
            "has more words than the {room} that fit from {start:04X}h on"
        ));
    }
    for (place, word) in ram[start..].chunks_exact_mut(2).zip(words) {
        place.copy_from_slice(&word.to_le_bytes());
    }
    Ok(doubt)
}

/// The words of a file, and why it is no listing if it looks like one.
fn words_in(file: &[u8]) -> Result<(Vec<u16>, Option<String>), String> {
    let BadLine(line) = match words_of(file) {
        Ok(words) => return Ok((words, None)),
        Err(bad) => bad,
    };
    let doubt = hint::near(file, line);
    if file.len() % 2 == 1 {
        let odd = "has an odd number of bytes, and is no listing";
        return Err(match doubt {
            Some(why) => format!("{odd}: {why}"),
            None => odd.to_string(),
        });
    }
    Ok((words(file), doubt))
}

/// Words of two bytes each, low byte first.
pub fn words(bytes: &[u8]) -> Vec<u16> {
    let word = |pair: &[u8]| u16::from_le_bytes([pair[0], pair[1]]);
    bytes.chunks_exact(2).map(word).collect()
}

/// The bytes of words.
pub fn bytes(words: &[u16]) -> Vec<u8> {
    words.iter().flat_map(|word| word.to_le_bytes()).collect()
}
