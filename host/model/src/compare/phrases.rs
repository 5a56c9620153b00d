//! What a script says: phrases of calls that go together.

mod lists;

use super::call::{Call, SPARE};
use crate::random::{any_accesses, any_channel_number, any_list, any_table, any_word, Random};
use plus::{Editor, Table, EXPORT, LINE, RAM, STORE, UNLOCK};

/// The addresses around the edges of each block of registers.
const EDGES: [u16; 24] = [
    0x0000, 0x3FFF, 0x4000, 0x4FFF, 0x5000, 0x5FFF, 0x6000, 0x607F, 0x6080, 0x63FF, 0x6400, 0x643F,
    0x6440, 0x67FF, 0x6800, 0x6806, 0x6808, 0x680F, 0x6810, 0x6BFF, 0x6C10, 0x7FFF, 0x8000, 0xFFFF,
];

/// Writes a script's calls.
pub(super) struct Writer {
    random: Random,
    /// Who makes most calls of the phrase.
    editor: Editor,
    /// What most starts give.
    table: Table,
    /// The bounds of the last area that was to be given.
    area: (u32, u32),
    pub(super) calls: Vec<Call>,
}

impl Writer {
    pub(super) fn new(mut random: Random) -> Writer {
        Writer {
            editor: random.pick(&Editor::BOTH),
            table: any_table(&mut random),
            area: lists::any_bounds(&mut random),
            random,
            calls: Vec::new(),
        }
    }

    fn push(&mut self, call: Call) {
        self.calls.push(call);
    }

    /// A phrase: some calls that go together.
    pub(super) fn phrase(&mut self) {
        if self.random.chance(4) {
            self.editor = self.random.pick(&Editor::BOTH);
        }
        match self.random.below(62) {
            0..=1 => self.unlock(2),
            2 => self.opening(),
            3..=5 => self.map(),
            6..=7 => self.crtc(),
            8..=9 => self.frame(),
            10..=19 => self.page_writes(),
            20..=26 => self.page_reads(),
            27..=29 => self.play(),
            30..=35 => self.lines(24),
            36..=38 => self.acknowledges(),
            39..=42 => self.forecast(),
            43 => self.ram_bytes(),
            44..=46 => self.ports(),
            47..=48 => self.line(),
            49..=51 => self.undos(6),
            52 => self.export(),
            53 if self.random.chance(2) => self.editing(),
            54 => self.start(),
            55 if self.random.chance(2) => self.keeping_lists(),
            56..=58 => self.lists(),
            59..=60 => self.mutes(),
            _ if self.random.chance(3) => self.push(Call::Reset),
            _ => self.opening(),
        }
    }

    /// Mostly unlocks and maps the page in.
    pub(super) fn opening(&mut self) {
        self.unlock(8);
        self.map();
    }

    /// The unlock sequence, one time in `broken` damaged, and some times tried
    /// again at once.
    fn unlock(&mut self, broken: u64) {
        let mut bytes = UNLOCK.to_vec();
        bytes[0] = self.random.byte() | 1 << self.random.below(8);
        bytes[16] = self.random.byte();
        if self.random.chance(broken) {
            self.damage(&mut bytes);
        }
        if self.random.chance(4) {
            // The last byte begins the next attempt.
            bytes[16..].fill(0);
            bytes.extend_from_slice(&UNLOCK[2..]);
        }
        for byte in bytes {
            self.push(Call::WriteBc(byte));
        }
    }

    fn damage(&mut self, bytes: &mut Vec<u8>) {
        let at = self.random.below(bytes.len() as u64) as usize;
        match self.random.below(6) {
            0 => bytes[at] = self.random.byte(),
            1 => bytes[15] = self.random.byte(),
            2 => bytes.truncate(at),
            3 => bytes.insert(at, 0),
            4 => bytes[at] = 0,
            // A zero, and then the sequence from there on.
            _ => {
                bytes.truncate(at);
                bytes.push(0);
                bytes.extend_from_slice(&UNLOCK[2..]);
            }
        }
        bytes.resize(bytes.len().max(17), 0);
    }

    /// The page mapped in, seldom out.
    fn map(&mut self) {
        let byte = self.random.byte() & 0x1F;
        let byte = match self.random.below(8) {
            0 => 0xA0 | byte,
            _ => 0xB8 | byte,
        };
        self.push(Call::Write7f(byte));
    }

    /// Any bytes to the ports.
    fn ports(&mut self) {
        for _ in 0..1 + self.random.below(4) {
            let byte = self.random.byte();
            let call = match self.random.below(4) {
                0 => Call::WriteBc(byte),
                1 => Call::WriteBd(byte),
                2 => Call::Write7f(0x80 | byte & 0x3F),
                _ => Call::Write7f(byte),
            };
            self.push(call);
        }
    }

    /// 6845 registers, mostly for frames of a few lines.
    fn crtc(&mut self) {
        for _ in 0..1 + self.random.below(5) {
            let register = self.random.pick(&[1, 4, 4, 5, 5, 6, 9, 9, 12, 13]);
            let byte = match register {
                4 => self.random.either(4, 256, 4),
                5 | 9 => self.random.either(4, 256, 12),
                _ => self.random.below(256),
            };
            self.push(Call::WriteBc(register));
            self.push(Call::WriteBd(byte as u8));
        }
    }

    /// A frame of a few lines, with PRI and the split on lines of it.
    fn frame(&mut self) {
        let r = &mut self.random;
        let (rows, lines, adjust) = (r.below(4), r.below(9), r.either(2, 12, 1));
        for (register, byte) in [(4, rows), (9, lines), (5, adjust)] {
            self.push(Call::WriteBc(register));
            self.push(Call::WriteBd(byte as u8));
        }
        for address in 0x6800..0x6805 {
            let r = &mut self.random;
            let line = r.below(rows + 1) * 8 + r.below(lines + 1);
            let last = if adjust == 0 {
                rows * 8 + lines
            } else {
                rows * 8 + 7 + adjust
            };
            let byte = match address {
                0x6800 | 0x6801 => r.pick(&[line, last, 0]),
                _ => r.below(256),
            };
            self.page_write(address, byte as u8);
        }
        self.lines(60);
    }

    /// A table, often the same one.
    fn start(&mut self) {
        if self.random.chance(3) {
            self.table = any_table(&mut self.random);
        }
        self.push(Call::Start(self.table));
    }

    /// Who makes a call: mostly the one whose phrase it is.
    fn editor(&mut self) -> Editor {
        match self.random.chance(8) {
            true => self.editor.other(),
            false => self.editor,
        }
    }

    /// An address, mostly of a register.
    fn address(&mut self) -> u16 {
        let r = &mut self.random;
        match r.below(12) {
            0..=2 => 0x6C00 + r.below(16) as u16,
            3..=4 => 0x6800 + r.below(16) as u16,
            5..=6 => 0x6000 + r.below(128) as u16,
            7 => 0x6400 + r.below(64) as u16,
            8..=9 => 0x4000 + r.below(4096) as u16,
            10 => r.pick(&EDGES),
            _ => r.word(),
        }
    }

    /// The right length but for one time in 24.
    fn length(&mut self, right: usize) -> usize {
        match self.random.chance(24) {
            true => self.another(right),
            false => right,
        }
    }

    /// A length that is hardly ever the right one.
    fn another(&mut self, right: usize) -> usize {
        match self.random.below(6) {
            0 => 0,
            1 => right - 1,
            2 => right + 1,
            3 => right + SPARE,
            4 => LINE.min(right - 1),
            _ => self.random.below((right + SPARE) as u64) as usize,
        }
    }

    fn page_write(&mut self, address: u16, byte: u8) {
        let (editor, store) = (self.editor(), self.length(STORE));
        self.push(Call::PageWrite {
            editor,
            store,
            address,
            byte,
        });
    }

    fn page_writes(&mut self) {
        for _ in 0..1 + self.random.below(10) {
            let address = self.address();
            let byte = match address {
                // Lines that short frames have, and short pauses.
                0x6800 | 0x6801 | 0x6C02 | 0x6C06 | 0x6C0A => self.random.either(4, 256, 24) as u8,
                _ => self.random.byte(),
            };
            self.page_write(address, byte);
        }
    }

    fn undos(&mut self, most: u64) {
        for _ in 0..1 + self.random.below(most) {
            let (editor, store) = (self.editor(), self.length(STORE));
            self.push(Call::Undo { editor, store });
        }
    }

    fn export(&mut self) {
        let out = self.length(EXPORT);
        self.push(Call::Export { out });
    }

    /// A long time of editing: writes and more writes, now and then some taken
    /// back, lines between, and seldom all taken back in the end.
    fn editing(&mut self) {
        self.opening();
        for _ in 0..100 + self.random.below(150) {
            match self.random.below(12) {
                0 => self.undos(4),
                1 => self.lines(2),
                2 => self.export(),
                _ => self.page_writes(),
            }
        }
        if self.random.chance(4) {
            self.undos(300);
        }
    }

    fn page_reads(&mut self) {
        for _ in 0..1 + self.random.below(10) {
            let (editor, store) = (self.editor(), self.length(STORE));
            let address = self.address();
            let bus = self.random.byte();
            self.push(Call::PageRead {
                editor,
                store,
                address,
                bus,
            });
        }
    }

    /// Some lines, seldom in mode 3.
    fn lines(&mut self, most: u64) {
        if !self.random.chance(4) {
            let mode = self.random.below(3) as u8;
            self.push(Call::Write7f(0x80 | mode));
        }
        for _ in 0..1 + self.random.below(most) {
            self.line();
        }
    }

    /// A line in the mode that it finds. One time in 12 a buffer may have another
    /// length, or two of them, or all.
    fn line(&mut self) {
        let others = self.random.chance(12);
        let [ram, store, line] =
            [RAM, STORE, LINE].map(|right| match others && self.random.chance(2) {
                true => self.another(right),
                false => right,
            });
        let accesses = any_accesses(&mut self.random);
        self.push(Call::Line {
            ram,
            store,
            line,
            accesses,
        });
    }

    fn acknowledges(&mut self) {
        for _ in 0..1 + self.random.below(3) {
            self.push(Call::Acknowledge);
        }
    }

    /// Channels muted, or heard again.
    fn mutes(&mut self) {
        for _ in 0..1 + self.random.below(3) {
            let channel = any_channel_number(&mut self.random);
            let on = self.random.chance(2);
            self.push(Call::Mute { channel, on });
        }
    }

    /// Where a list begins: often the same few places, the last word among them.
    fn list_start(&mut self) -> u16 {
        let r = &mut self.random;
        match r.below(6) {
            0 => r.word(),
            1 => 0xFFE0 + r.below(32) as u16,
            2 => 0xFFFE,
            _ => 0x8000 + r.below(64) as u16,
        }
    }

    fn put_words(&mut self, start: u16, words: &[u16]) {
        let bytes = words.iter().flat_map(|word| word.to_le_bytes());
        for (n, byte) in bytes.enumerate() {
            let address = (start & 0xFFFE).wrapping_add(n as u16);
            self.push(Call::Ram { address, byte });
        }
    }

    /// A list put into RAM, forecast, and played on a channel.
    fn play(&mut self) {
        let start = self.list_start();
        let mut words = any_list(&mut self.random);
        words.drain(..words.len().saturating_sub(12));
        if self.random.chance(8) {
            words.pop();
        }
        self.put_words(start, &words);
        let prescale = self.random.either(8, 256, 3) as u8;
        self.forecast_of(start, prescale);

        let channel = self.random.below(3) as u16;
        let [low, high] = start.to_le_bytes();
        self.page_write(0x6C00 + 4 * channel, low);
        self.page_write(0x6C01 + 4 * channel, high);
        self.page_write(0x6C02 + 4 * channel, prescale);
        let others = self.random.byte() & self.random.byte();
        self.page_write(0x6C0F, others | 1 << channel);
        if self.random.chance(3) {
            self.mutes();
        }
        self.lines(60);
    }

    fn forecast(&mut self) {
        let (start, prescale) = (self.list_start(), self.random.byte());
        self.forecast_of(start, prescale);
    }

    fn forecast_of(&mut self, start: u16, prescale: u8) {
        let ram = self.length(RAM);
        self.push(Call::Forecast {
            ram,
            start,
            prescale,
        });
    }

    fn ram_bytes(&mut self) {
        for _ in 0..1 + self.random.below(6) {
            let start = self.list_start();
            let word = any_word(&mut self.random);
            self.put_words(start, &[word]);
            let (address, byte) = (self.list_start(), self.random.byte());
            self.push(Call::Ram { address, byte });
        }
    }
}
