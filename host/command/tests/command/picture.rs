//! A PNG that the program has written, read back.

use std::fs;
use std::path::Path;

/// A picture as rows of pixels.
pub struct Picture {
    pub width: usize,
    pub height: usize,
    raw: Vec<u8>,
}

impl Picture {
    /// A PNG whose data is stored and not compressed.
    pub fn read(path: impl AsRef<Path>) -> Picture {
        let file = fs::read(path).unwrap();
        assert_eq!(file[..8], *b"\x89PNG\r\n\x1a\n");
        assert_eq!(file[12..16], *b"IHDR");
        let number = |at: usize| u32::from_be_bytes(file[at..at + 4].try_into().unwrap()) as usize;
        assert_eq!(file[24..29], [8, 2, 0, 0, 0]);
        let length = number(33);
        assert_eq!(file[37..41], *b"IDAT");
        assert_eq!(file[file.len() - 8..file.len() - 4], *b"IEND");
        Picture {
            width: number(16),
            height: number(20),
            raw: unpacked(&file[41..41 + length]),
        }
    }

    pub fn pixel(&self, x: usize, y: usize) -> [u8; 3] {
        let row = &self.raw[y * (1 + 3 * self.width)..];
        assert_eq!(row[0], 0);
        row[1 + 3 * x..][..3].try_into().unwrap()
    }
}

/// The contents of a zlib stream of stored blocks.
fn unpacked(stream: &[u8]) -> Vec<u8> {
    let (mut raw, mut rest) = (vec![], &stream[2..]);
    loop {
        let length = usize::from(u16::from_le_bytes([rest[1], rest[2]]));
        raw.extend(&rest[5..5 + length]);
        let last = rest[0] == 1;
        rest = &rest[5 + length..];
        if last {
            assert_eq!(rest.len(), 4);
            return raw;
        }
    }
}
