//! Phrases about lists: the area, placing and removing, and channels that play there.

use super::super::call::{Call, LISTS, SPARE};
use super::Writer;
use crate::random::Random;
use plus::RAM;

/// The words of RAM.
const WORDS: u64 = RAM as u64 / 2;

/// Bounds that an area can have: of a few words, of as many as handles take, or of any
/// number, all of RAM too.
pub(super) fn any_bounds(random: &mut Random) -> (u32, u32) {
    let r = random;
    let words = match r.below(12) {
        0 => WORDS,
        1 => 1 + r.below(WORDS),
        2..=3 => 1 + r.below(8),
        4..=7 => 64 + r.below(140),
        _ => 8 + r.below(56),
    };
    let below = match r.below(4) {
        0 => 0,
        1 => WORDS - words,
        _ => r.below(WORDS - words + 1),
    };
    (2 * below as u32, 2 * (below + words) as u32)
}

/// Bounds that none can have: odd, with nothing between, reversed, too high, too high by
/// as much as 16 bits don't show. Seldom they are good.
fn other_bounds(random: &mut Random) -> (u32, u32) {
    let (from, upto) = any_bounds(random);
    let all = RAM as u32;
    match random.below(8) {
        0 => (from + 1, upto),
        1 => (from, upto - 1),
        2 => (from, upto + 1),
        3 => (from, from),
        4 => (upto, from),
        5 => (from, all + 2 + 2 * random.below(100) as u32),
        6 => (from + all, upto + all),
        _ => (random.next() as u32, random.next() as u32),
    }
}

impl Writer {
    /// An area, which is refused where one was given before; at times other bounds come
    /// first, or another area behind.
    fn area(&mut self) {
        if self.random.chance(3) {
            let (from, upto) = other_bounds(&mut self.random);
            self.push(Call::Area { from, upto });
        }
        for _ in 0..1 + self.random.either(6, 2, 1) {
            let (from, upto) = any_bounds(&mut self.random);
            self.push(Call::Area { from, upto });
            self.area = (from, upto);
        }
    }

    /// How many bytes a list has: mostly a few words, and seldom no length of a list.
    fn list_length(&mut self, most_words: u64) -> usize {
        let (from, upto) = self.area;
        let area = u64::from(upto - from);
        let r = &mut self.random;
        let bytes = match r.below(40) {
            0 => 0,
            1 => 1 + 2 * r.below(8),
            2 => area,
            3 => area + 2,
            4 => area - 2,
            5 => r.below((RAM + SPARE) as u64),
            6..=9 => 2 * (1 + r.below(area / 2)),
            _ => 2 * (1 + r.below(most_words)),
        };
        bytes as usize
    }

    fn place(&mut self, most_words: u64) {
        let (ram, list) = (self.length(RAM), self.list_length(most_words));
        let at = 2 * self.random.below(LISTS as u64 / 2) as usize;
        self.push(Call::Place { ram, at, list });
    }

    /// A handle, mostly one of a list.
    fn remove(&mut self) {
        let r = &mut self.random;
        let handle = match r.below(24) {
            0 => 64 + r.below(3) as u32,
            1 => r.next() as u32,
            2..=9 => r.below(64) as u32,
            _ => r.below(12) as u32,
        };
        self.push(Call::Remove(handle));
    }

    /// A channel that plays from somewhere in the area on.
    fn play_there(&mut self) {
        let (from, upto) = self.area;
        let start = from + self.random.below((upto - from).into()) as u32;
        let channel = self.random.below(3) as u16;
        let [low, high, ..] = start.to_le_bytes();
        self.page_write(0x6C00 + 4 * channel, low);
        self.page_write(0x6C01 + 4 * channel, high);
        self.page_write(0x6C02 + 4 * channel, 0);
        let others = self.random.byte() & 7;
        self.page_write(0x6C0F, others | 1 << channel);
        self.lines(4);
    }

    /// Some calls on lists.
    pub(super) fn lists(&mut self) {
        if self.random.chance(4) {
            self.area();
        }
        for _ in 0..1 + self.random.below(6) {
            match self.random.below(3) {
                0 => self.remove(),
                _ => self.place(6),
            }
        }
        if self.random.chance(4) {
            self.play_there();
        }
    }

    /// A long time of placing and removing, in which lists become more and then fewer,
    /// while channels play them.
    pub(super) fn keeping_lists(&mut self) {
        self.opening();
        self.area();
        let most_words = self.random.pick(&[1, 1, 2, 4, 12]);
        let mut more = true;
        for _ in 0..100 + self.random.below(200) {
            more ^= self.random.chance(50);
            match self.random.below(24) {
                0 => {
                    self.play_there();
                    (0..4).for_each(|_| self.remove());
                }
                1 => self.lines(3),
                2 => {
                    let enables = self.random.byte() & 7;
                    self.page_write(0x6C0F, enables);
                }
                3 if self.random.chance(8) => self.area(),
                n if (n < 21) == more => self.place(most_words),
                _ => self.remove(),
            }
        }
    }
}
