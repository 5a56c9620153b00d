//! Drawing the current line.

use super::{answer, Model, Sprite, LINE, RAM, STORE};

const BORDER: u8 = 16;

/// The eight positions of a screen byte, for all 256 bytes.
type Pens = [[u8; 8]; 256];

static MODES: [Pens; 3] = [pens(0), pens(1), pens(2)];

const fn pens(mode: u8) -> Pens {
    let mut table = [[0; 8]; 256];
    let mut byte = 0;
    while byte < 256 {
        let mut position = 0;
        while position < 8 {
            table[byte][position] = pen(mode, byte as u8, position);
            position += 1;
        }
        byte += 1;
    }
    table
}

/// The pen that a byte shows at a position from the left.
const fn pen(mode: u8, byte: u8, position: usize) -> u8 {
    match mode {
        0 => {
            let b = byte << (position / 4);
            b >> 7 & 1 | (b >> 3 & 1) << 1 | (b >> 5 & 1) << 2 | (b >> 1 & 1) << 3
        }
        1 => {
            let b = byte << (position / 2);
            b >> 7 & 1 | (b >> 3 & 1) << 1
        }
        _ => byte >> (7 - position) & 1,
    }
}

/// Where the first of a character's two bytes is. `row` is the RC with the
/// soft scroll added.
pub fn byte_address(address: u16, row: u8) -> u16 {
    let address = address % 16_384;
    (address / 4096) * 16_384 + (row as u16 % 8) * 2048 + (address % 1024) * 2
}

/// A two bit magnification as a power of two: off, 1, 2, 4.
fn magnified(code: u8) -> Option<u32> {
    (code as u32 & 3).checked_sub(1)
}

impl Sprite {
    /// Lays this sprite over the open part of the line, `from` to `to`.
    fn paint(&self, pixels: &[u8], y: i32, line: &mut [u8], from: i32, to: i32) {
        let across = magnified(self.magnification >> 2);
        let down = magnified(self.magnification);
        let (Some(across), Some(down)) = (across, down) else {
            return;
        };
        let left = self.x as i32;
        let (first, end) = (left.max(from), (left + (16 << across)).min(to));
        let under = y - self.y as i32;
        if under < 0 || under >> down >= 16 || first >= end {
            return;
        }
        let row = &pixels[(under >> down) as usize * 16..][..16];
        let skipped = (first - left) as usize;
        let places = line[first as usize..end as usize].iter_mut();
        for (n, place) in places.enumerate() {
            let pixel = row[(skipped + n) >> across] & 0x0F;
            if pixel != 0 {
                *place = 16 + pixel;
            }
        }
    }
}

impl Model {
    /// Gives each of the 640 bytes a palette entry, or says why it doesn't.
    pub(super) fn draw(&self, ram: &[u8], store: &[u8], line: &mut [u8]) -> u8 {
        if ram.len() != RAM || store.len() != STORE || line.len() != LINE {
            return answer::WRONG_LENGTH;
        }
        if self.gate.mode == 3 {
            return answer::MODE_THREE;
        }
        let counters = &self.crtc.counters;
        let registers = &self.crtc.registers;
        let left = if self.video.sscr & 0x80 != 0 { 16 } else { 0 };
        let right = LINE.min(registers.r1 as usize * 16);
        line.fill(BORDER);
        if counters.adjust || counters.vc >= registers.r6 || left >= right {
            return answer::DONE;
        }

        let picture = self.picture(ram, right / 16);
        line[left..right].copy_from_slice(&picture[left..right]);

        // From the back to the front, so that the lowest number stays.
        let y = counters.vc as i32 * (registers.r9 as i32 + 1) + counters.rc as i32;
        for (n, sprite) in self.sprites.iter().enumerate().rev() {
            let pixels = &store[n * 256..][..256];
            sprite.paint(pixels, y, line, left as i32, right as i32);
        }
        answer::DONE
    }

    /// The main pens of the first characters, moved right by the soft scroll.
    fn picture(&self, ram: &[u8], characters: usize) -> [u8; LINE + 16] {
        let sscr = self.video.sscr;
        let counters = &self.crtc.counters;
        let pens = &MODES[self.gate.mode as usize];
        let delay = (sscr & 0x0F) as usize;
        let row = counters.rc + (sscr >> 4 & 7);

        let mut picture = [0; LINE + 16];
        let places = picture[delay..].chunks_exact_mut(16).take(characters);
        for (character, place) in places.enumerate() {
            let at = byte_address(counters.address + character as u16, row) as usize;
            place[..8].copy_from_slice(&pens[ram[at] as usize]);
            place[8..].copy_from_slice(&pens[ram[at + 1] as usize]);
        }
        picture
    }
}
