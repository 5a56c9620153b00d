//! What an assembler takes.

use plus::listing::text_of;

/// A line a word: its number, and what it is as a comment.
pub fn words(words: &[u16]) -> String {
    let line = |&word: &u16| {
        let text = text_of(&[word]);
        format!("defw #{word:04X} ; {}", String::from_utf8_lossy(&text))
    };
    words.iter().map(line).collect()
}

/// A line a register of an export: what it holds, and its address as a comment.
pub fn registers(export: &[u8]) -> String {
    let line = |three: &[u8]| {
        let address = u16::from_le_bytes([three[0], three[1]]);
        format!("defb #{:02X} ; {address:04X}\n", three[2])
    };
    export.chunks_exact(3).map(line).collect()
}
