//! What registers hold, the records of page writes, undo, and the export.

use super::{answer, Channel, Editor, Model, Sprite, EXPORT, PLACES, STORE};

impl Sprite {
    /// The bits kept of one of its bytes; magnification is there four times.
    fn contents(&self, offset: u16) -> u8 {
        match offset {
            0 => self.x as u8,
            1 => (self.x >> 8) as u8 & 0x03,
            2 => self.y as u8,
            3 => (self.y >> 8) as u8 & 0x01,
            _ => self.magnification,
        }
    }
}

impl Channel {
    /// Its address, wherever lines have moved it, and its prescale.
    fn contents(&self, offset: u16) -> Option<u8> {
        let [low, high] = self.address.to_le_bytes();
        match offset {
            0 => Some(low & 0xFE),
            1 => Some(high),
            2 => Some(self.prescale),
            _ => None,
        }
    }
}

/// The addresses that are exported, rising.
fn exported() -> impl Iterator<Item = u16> {
    let sprites = (0x6000..0x6080).filter(|address| address % 8 <= 4);
    let channels = (0x6C00..0x6C0C).filter(|address| address % 4 <= 2);
    let blocks = sprites.chain(0x6400..0x6440).chain(0x6800..0x6806);
    blocks.chain(channels)
}

impl Model {
    /// What is at an address of the page, if a write there can be undone. A
    /// pixel is the whole byte.
    pub(super) fn contents(&self, store: &[u8], address: u16) -> Option<u8> {
        match address {
            0x4000..=0x4FFF => Some(store[address as usize - 0x4000]),
            _ => self.register(address),
        }
    }

    /// The same outside the pixels.
    fn register(&self, address: u16) -> Option<u8> {
        match address {
            0x6000..=0x607F => {
                let sprite = &self.sprites[(address as usize - 0x6000) / 8];
                Some(sprite.contents(address % 8))
            }
            0x6400..=0x643F => Some(self.palette[address as usize - 0x6400]),
            0x6800 => Some(self.video.pri),
            0x6801 => Some(self.video.split_line),
            0x6802 => Some(self.video.split_high),
            0x6803 => Some(self.video.split_low),
            0x6804 => Some(self.video.sscr),
            0x6805 => Some(self.interrupts.ivr),
            0x6C00..=0x6C0B => {
                let channel = &self.sound.channels[(address as usize - 0x6C00) / 4];
                channel.contents(address % 4)
            }
            _ => None,
        }
    }

    /// Keeps an editor's write, and of more than 256 the newest.
    pub(super) fn keep(&mut self, editor: Editor, address: u16, before: u8) {
        let kept = self.kept_mut(editor);
        if kept.len() == PLACES {
            kept.remove(0);
        }
        kept.push((address, before));
    }

    /// Takes back an editor's newest write that is left.
    pub fn undo(&mut self, editor: Editor, store: &mut [u8]) -> u8 {
        if store.len() != STORE {
            return answer::WRONG_LENGTH;
        }
        let Some((address, before)) = self.kept_mut(editor).pop() else {
            return answer::NOTHING_TO_UNDO;
        };
        match address {
            0x4000..=0x4FFF => store[address as usize - 0x4000] = before,
            _ => {
                self.write_register(address, before);
            }
        }
        answer::DONE
    }

    /// Three bytes for each register: its address, low byte first, and what it
    /// holds.
    pub fn export(&self, out: &mut [u8]) -> u8 {
        if out.len() != EXPORT {
            return answer::WRONG_LENGTH;
        }
        let registers = exported().filter_map(|address| Some((address, self.register(address)?)));
        for (three, (address, contents)) in out.chunks_exact_mut(3).zip(registers) {
            let [low, high] = address.to_le_bytes();
            three.copy_from_slice(&[low, high, contents]);
        }
        answer::DONE
    }
}
