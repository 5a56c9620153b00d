//! Pairs of runs, each made from a seed alone.

use super::Premises;
use crate::compare::{Buffers, Call};
use crate::random::{any_accesses, any_channel_number, any_table, put_any_words, Random};
use plus::{Editor, Table, EXPORT, LINE, RAM, STORE, UNLOCK};

/// What the two runs do next.
#[derive(Clone, Debug)]
pub enum Step {
    /// One call, in both.
    Both(Call),
    /// In each some calls of the other editor's, or none.
    Apart([Vec<Call>; 2]),
}

/// Bytes that lists are cut from.
const LISTS: usize = 512;

/// Two runs from one state that differ in one editor's calls.
pub struct Pair {
    pub seed: u64,
    pub premises: Premises,
    /// The editor whose calls are in both.
    pub watching: Editor,
    pub lent: Buffers,
    /// From reset up to the state that both start from, in which a table holds.
    pub before: Vec<Call>,
    pub steps: Vec<Step>,
}

impl Pair {
    pub fn new(seed: u64, premises: Premises) -> Pair {
        let mut random = Random::new(seed);
        let watching = random.pick(&Editor::BOTH);
        let table = any_table(&mut random);
        let area = any_area(&mut random);
        let mut making = Making {
            random,
            table,
            area,
            watching,
            premises,
        };
        Pair {
            seed,
            premises,
            watching,
            lent: making.lent(),
            before: making.before(),
            steps: (0..80).map(|_| making.step()).collect(),
        }
    }
}

/// The bounds of an area of some 40 words: mostly where channels play from reset on,
/// and always with addresses that differ in their low byte alone.
fn any_area(r: &mut Random) -> (u32, u32) {
    let from = match r.chance(4) {
        true => 256 * r.below(256) + 2 * r.below(64),
        false => 2 * r.below(4),
    };
    let words = 16 + r.below(48);
    (from as u32, (from + 2 * words) as u32)
}

struct Making {
    random: Random,
    table: Table,
    area: (u32, u32),
    watching: Editor,
    premises: Premises,
}

impl Making {
    /// RAM and lists of words with many an INT, and any pixels.
    fn lent(&mut self) -> Buffers {
        let r = &mut self.random;
        let (mut ram, mut lists) = (vec![0; RAM], vec![0; LISTS]);
        put_any_words(r, &mut ram);
        put_any_words(r, &mut lists);
        let mut store = vec![0; STORE];
        r.fill(&mut store);
        Buffers {
            ram,
            store,
            line: vec![0; LINE],
            export: vec![0; EXPORT],
            lists: lists.into(),
        }
    }

    /// Unlocked and mapped, IVR set, frames of 32 lines; calls of both editors
    /// before the start and after it. Mostly an area for lists is given.
    fn before(&mut self) -> Vec<Call> {
        let mut calls: Vec<Call> = UNLOCK.map(Call::WriteBc).into();
        calls.push(Call::Write7f(0xB8));
        for (register, byte) in [(4, 3), (9, 7)] {
            calls.extend([Call::WriteBc(register), Call::WriteBd(byte)]);
        }
        if !self.random.chance(8) {
            calls.push(self.give());
        }
        self.some(&mut calls);
        // Under a table IVR could not be set.
        calls.retain(|call| !matches!(call, Call::Start(_)));
        let ivr = match self.premises.ivr_bit_0 {
            true => self.random.byte() | 1,
            false => self.random.byte() & 0xFE,
        };
        calls.push(Call::Write7f(0xB8));
        calls.push(Call::PageWrite {
            editor: self.watching,
            store: STORE,
            address: 0x6805,
            byte: ivr,
        });
        calls.push(Call::Start(self.table));
        self.some(&mut calls);
        calls
    }

    /// Some calls of both editors and of the host, any reads and undos among them.
    fn some(&mut self, calls: &mut Vec<Call>) {
        for _ in 0..self.random.below(40) {
            let editor = self.random.pick(&Editor::BOTH);
            let call = match self.random.chance(3) {
                true => self.of_host(),
                false => self.of_editor(editor),
            };
            calls.push(call);
        }
    }

    fn step(&mut self) -> Step {
        match self.random.below(6) {
            0..=1 => Step::Both(self.of_host()),
            2..=3 => Step::Both(self.of_watching()),
            _ => Step::Apart([(); 2].map(|()| self.of_other())),
        }
    }

    /// Up to three calls of the other editor's.
    fn of_other(&mut self) -> Vec<Call> {
        let other = self.watching.other();
        let count = self.random.below(4);
        (0..count).map(|_| self.of_editor(other)).collect()
    }

    /// A call of the editor that watches, which reads no more than it may.
    fn of_watching(&mut self) -> Call {
        let mut call = self.of_editor(self.watching);
        if let Call::PageRead { address, .. } = &mut call {
            while self.premises.own_reads && !self.may_read(*address) {
                *address = self.address();
            }
        }
        call
    }

    /// Whether the editor that watches owns an address, or reads DCSR there.
    fn may_read(&self, address: u16) -> bool {
        let (number, n) = match address {
            0x4000..=0x4FFF => (self.table.sprites.into(), (address - 0x4000) / 256),
            0x6000..=0x607F => (self.table.sprites.into(), (address - 0x6000) / 8),
            0x6400..=0x643F => (self.table.palette, (address - 0x6400) / 2),
            0x6800..=0x6804 => return self.watching == Editor::Picture,
            0x6C00..=0x6C0F => return true,
            _ => return false,
        };
        Editor::from((number >> n & 1) as u8) == self.watching
    }

    fn address(&mut self) -> u16 {
        let r = &mut self.random;
        match r.below(16) {
            0..=2 => 0x6C00 + r.below(16) as u16,
            3..=5 => 0x6C0F,
            6..=7 => 0x6800 + r.below(10) as u16,
            8..=9 => 0x6000 + r.below(128) as u16,
            10..=11 => 0x6400 + r.below(64) as u16,
            12..=14 => 0x4000 + r.below(4096) as u16,
            _ => r.word(),
        }
    }

    /// The store's length, seldom another.
    fn store(&mut self) -> usize {
        match self.random.chance(40) {
            true => self.random.below(STORE as u64) as usize,
            false => STORE,
        }
    }

    fn of_editor(&mut self, editor: Editor) -> Call {
        let (address, store) = (self.address(), self.store());
        let byte = match address {
            // Lines that the frame has.
            0x6800 | 0x6801 => self.random.below(32) as u8,
            // Mostly where the lists are.
            0x6C01 | 0x6C05 | 0x6C09 if !self.random.chance(4) => (self.area.0 >> 8) as u8,
            _ => self.random.byte(),
        };
        match self.random.below(8) {
            0 => Call::Undo { editor, store },
            1..=2 => Call::PageRead {
                editor,
                store,
                address,
                bus: byte,
            },
            _ => Call::PageWrite {
                editor,
                store,
                address,
                byte,
            },
        }
    }

    fn give(&mut self) -> Call {
        let (from, upto) = self.area;
        Call::Area { from, upto }
    }

    /// A list of a few words, seldom of more than there are, or of no length.
    fn place(&mut self) -> Call {
        let r = &mut self.random;
        let list = match r.chance(16) {
            true => r.below(100) as usize,
            false => 2 * (1 + r.below(12)) as usize,
        };
        let at = 2 * r.below((LISTS - list) as u64 / 2) as usize;
        Call::Place { ram: RAM, at, list }
    }

    fn of_lists(&mut self) -> Call {
        match self.random.below(20) {
            0 => self.give(),
            1..=10 => self.place(),
            _ => Call::Remove(self.random.either(8, 70, 8) as u32),
        }
    }

    fn of_host(&mut self) -> Call {
        if self.random.chance(5) {
            return self.of_lists();
        }
        let r = &mut self.random;
        match r.below(25) {
            0..=11 => self.line(),
            12..=15 => Call::Acknowledge,
            16 => Call::WriteBc(r.byte()),
            17 => Call::WriteBd(r.byte()),
            18 if r.chance(3) => Call::Write7f(0xA0 | r.byte() & 0x07),
            18..=20 => Call::Write7f(0xB8 | r.byte() & 0x07),
            21 => Call::Start(match self.premises.one_table {
                true => self.table,
                false => any_table(r),
            }),
            22 => Call::Export { out: EXPORT },
            23 => Call::Mute {
                channel: any_channel_number(r),
                on: r.chance(2),
            },
            // Lines are refused in mode 3.
            _ => Call::Write7f(0x80 | r.pick(&[0, 1, 2, 3])),
        }
    }

    /// A line, seldom with a buffer of another length.
    fn line(&mut self) -> Call {
        let (store, accesses) = (self.store(), any_accesses(&mut self.random));
        Call::Line {
            ram: RAM,
            store,
            line: LINE,
            accesses,
        }
    }
}
