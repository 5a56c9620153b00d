//! The register page, 4000h to 7FFFh.

use super::{answer, Editor, Model, Sprite, STORE};

/// The grey of a palette entry: 9 green + 3 red + blue.
pub fn grey(low: u8, high: u8) -> u8 {
    let (red, blue, green) = (low >> 4, low & 0x0F, high & 0x0F);
    9 * green + 3 * red + blue
}

/// Low and high byte of a word with one of them replaced.
fn with_low(word: u16, low: u8) -> u16 {
    word & 0xFF00 | low as u16
}

fn with_high(word: u16, high: u8) -> u16 {
    word & 0x00FF | (high as u16) << 8
}

/// The top byte of a coordinate as it reads: FFh if negative.
fn high_byte(coordinate: i16) -> u8 {
    if coordinate < 0 {
        0xFF
    } else {
        (coordinate >> 8) as u8
    }
}

/// 10 bits, of which 768 to 1023 mean -256 to -1.
fn signed_x(bits: u16) -> i16 {
    let x = (bits & 0x3FF) as i16;
    if x >= 768 {
        x - 1024
    } else {
        x
    }
}

/// 9 bits of two's complement.
fn signed_y(bits: u16) -> i16 {
    let y = (bits & 0x1FF) as i16;
    if y >= 256 {
        y - 512
    } else {
        y
    }
}

impl Sprite {
    /// A readable byte of the sprite's eight.
    fn read(&self, offset: u16) -> Option<u8> {
        match offset {
            0 => Some(self.x as u8),
            1 => Some(high_byte(self.x)),
            2 => Some(self.y as u8),
            3 => Some(high_byte(self.y)),
            _ => None,
        }
    }

    /// Any of its eight bytes; magnification is at +4 and at its mirrors.
    fn write(&mut self, offset: u16, value: u8) {
        match offset {
            0 => self.x = signed_x(with_low(self.x as u16, value)),
            1 => self.x = signed_x(with_high(self.x as u16, value)),
            2 => self.y = signed_y(with_low(self.y as u16, value)),
            3 => self.y = signed_y(with_high(self.y as u16, value)),
            _ => self.magnification = value & 0x0F,
        }
    }
}

impl Model {
    /// Why the page can't be reached, if it can't.
    fn page_refusal(&self, store: &[u8], address: u16) -> Option<u8> {
        if store.len() != STORE {
            Some(answer::WRONG_LENGTH)
        } else if !self.gate.mapped || !(0x4000..=0x7FFF).contains(&address) {
            Some(answer::OUTSIDE)
        } else {
            None
        }
    }

    /// The answer and the byte read; `bus` where nothing is readable.
    pub fn page_read(&self, editor: Editor, store: &[u8], address: u16, bus: u8) -> (u8, u8) {
        if let Some(refusal) = self.page_refusal(store, address) {
            return (refusal, 0);
        }
        let byte = match address {
            0x4000..=0x4FFF => store[address as usize - 0x4000] & 0x0F,
            0x6000..=0x607F => {
                let sprite = &self.sprites[(address as usize - 0x6000) / 8];
                sprite.read(address % 8).unwrap_or(bus)
            }
            0x6400..=0x643F => self.palette[address as usize - 0x6400],
            0x6808..=0x680F => 0,
            0x6C00..=0x6C0F => self.read_dcsr(editor),
            _ => bus,
        };
        (answer::DONE, byte)
    }

    pub fn page_write(&mut self, editor: Editor, store: &mut [u8], address: u16, value: u8) -> u8 {
        if let Some(refusal) = self.page_refusal(store, address) {
            return refusal;
        }
        if self.is_not_yours(editor, address) {
            return answer::NOT_YOURS;
        }
        let before = self.contents(store, address);
        let written = match address {
            0x4000..=0x4FFF => {
                store[address as usize - 0x4000] = value & 0x0F;
                true
            }
            0x6808..=0x680F => return answer::CONVERTER_THERE,
            0x6C0F => {
                self.write_dcsr(editor, value);
                true
            }
            _ => self.write_register(address, value),
        };
        if !written {
            return answer::NOTHING_THERE;
        }
        if let Some(before) = before {
            self.keep(editor, address, before);
        }
        answer::DONE
    }

    /// A register outside the pixels but DCSR; false if there is nothing to write.
    pub(super) fn write_register(&mut self, address: u16, value: u8) -> bool {
        match address {
            0x6000..=0x607F => {
                let sprite = &mut self.sprites[(address as usize - 0x6000) / 8];
                sprite.write(address % 8, value);
            }
            0x6400..=0x643F => {
                let place = address as usize - 0x6400;
                self.palette[place] = if place % 2 == 1 { value & 0x0F } else { value };
            }
            0x6800..=0x6805 => self.write_video(address, value),
            0x6C00..=0x6C0F => return self.write_sound(address - 0x6C00, value),
            _ => return false,
        }
        true
    }

    fn write_video(&mut self, address: u16, value: u8) {
        match address {
            0x6800 => self.video.pri = value,
            0x6801 => self.video.split_line = value,
            0x6802 => self.video.split_high = value & 0x3F,
            0x6803 => self.video.split_low = value,
            0x6804 => self.video.sscr = value,
            _ => self.interrupts.ivr = value,
        }
    }

    /// The channels' registers; false if there is nothing to write.
    fn write_sound(&mut self, offset: u16, value: u8) -> bool {
        let Some(channel) = self.sound.channels.get_mut(offset as usize / 4) else {
            return false;
        };
        match offset % 4 {
            0 => channel.address = with_low(channel.address, value & 0xFE),
            1 => channel.address = with_high(channel.address, value),
            2 => channel.prescale = value,
            _ => return false,
        }
        true
    }

    /// Enables in bits 0 to 2 for channels 0 to 2, interrupts in bits 6 to 4; those
    /// of the reader's channels. Bit 7 is nobody's, and shown where no table holds.
    fn read_dcsr(&self, editor: Editor) -> u8 {
        let last_raster = self.interrupts.last_raster && self.table.is_none();
        let mut byte = (last_raster as u8) << 7;
        for (n, channel) in self.sound.channels.iter().enumerate() {
            if self.has_channel(editor, n) {
                byte |= (channel.enabled as u8) << n;
                byte |= (channel.interrupt as u8) << (6 - n);
            }
        }
        byte
    }

    /// Sets the enables of the writer's channels; a 1 clears that channel's
    /// interrupt.
    fn write_dcsr(&mut self, editor: Editor, value: u8) {
        let own = [0, 1, 2].map(|n| self.has_channel(editor, n));
        for (n, channel) in self.sound.channels.iter_mut().enumerate() {
            if !own[n] {
                continue;
            }
            channel.enabled = value >> n & 1 != 0;
            if value >> (6 - n) & 1 != 0 {
                channel.interrupt = false;
            }
        }
    }
}
