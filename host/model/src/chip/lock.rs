//! The lock, decided by the bytes themselves and the two patterns.

use super::Model;

/// What follows the byte that isn't zero and the zero.
const KEY: [u8; 14] = [
    0xFF, 0x77, 0xB3, 0x51, 0xA8, 0xD4, 0x62, 0x39, 0x9C, 0x46, 0x2B, 0x15, 0x8A, 0xCD,
];

/// The longest pattern.
const KEPT: usize = 17;

/// The last bytes since reset, the newest at the end.
#[derive(Clone, Debug)]
pub(super) struct History {
    bytes: [u8; KEPT],
    known: usize,
}

impl History {
    pub(super) fn new() -> History {
        History {
            bytes: [0; KEPT],
            known: 0,
        }
    }

    fn push(&mut self, byte: u8) {
        self.bytes.copy_within(1.., 0);
        self.bytes[KEPT - 1] = byte;
        self.known = KEPT.min(self.known + 1);
    }

    /// The last `n` bytes, if that many have come since reset.
    fn last(&self, n: usize) -> Option<&[u8]> {
        (self.known >= n).then(|| &self.bytes[KEPT - n..])
    }

    /// Not zero, zero, the whole key, any byte.
    fn unlocks(&self) -> bool {
        self.last(17).is_some_and(|bytes| opens(&bytes[..16]))
    }

    /// Not zero, zero, the key but its end, a byte that isn't CD.
    fn locks(&self) -> bool {
        self.last(16)
            .is_some_and(|bytes| opens(&bytes[..15]) && bytes[15] != 0xCD)
    }

    /// The longest beginning of the sequence that the last bytes are.
    fn stage(&self) -> u8 {
        (1..=16u8)
            .rev()
            .find(|&n| self.last(n as usize).is_some_and(opens))
            .unwrap_or(0)
    }
}

/// True if these bytes begin the sequence: not zero, zero, then the key.
fn opens(bytes: &[u8]) -> bool {
    let (start, key) = bytes.split_at(bytes.len().min(2));
    start[0] != 0 && start[1..].iter().all(|&byte| byte == 0) && key == &KEY[..key.len()]
}

impl Model {
    /// Feeds the lock one byte.
    pub(super) fn feed_lock(&mut self, byte: u8) {
        self.history.push(byte);
        if self.history.unlocks() {
            self.lock.unlocked = true;
        } else if self.history.locks() {
            self.lock.unlocked = false;
        }
        self.lock.stage = self.history.stage();
    }

    /// For a state that is put in: sets both lock fields and gives the model a
    /// history that reads as that stage (0 to 16).
    pub fn set_lock(&mut self, unlocked: bool, stage: u8) {
        assert!(stage <= 16);
        self.history = History::new();
        let sequence = [0x01, 0x00].into_iter().chain(KEY);
        for byte in sequence.take(stage as usize) {
            self.history.push(byte);
        }
        self.lock.unlocked = unlocked;
        self.lock.stage = self.history.stage();
    }
}
