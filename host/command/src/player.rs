//! The playing of a scene: each record's call, made on the proved core.

use crate::scene::Record;
use plus::take::{Noted, Recorder};
use plus::{Access, Answer, Editor, Length, Placed, Report, Table};
use plus::{EXPORT, LINE, RAM, TABLE};

/// How many bytes can wait for the calls that take more than a record has: the table of
/// a start in the first seven, the bounds of an area for lists in the next eight, and
/// last the high byte of a list's length.
const WAITING: usize = 16;

/// Where the bounds wait, and the length.
pub const BOUNDS: usize = TABLE;
pub const LENGTH: usize = WAITING - 1;

/// A chip that notes every call that is served, what is lent to it, and the bytes
/// that wait.
pub struct Player {
    pub chip: Recorder,
    pub ram: Vec<u8>,
    pub store: Vec<u8>,
    waiting: [u8; WAITING],
}

/// What a record's call gave.
pub enum Outcome {
    /// An answer alone.
    Answer(Answer),
    /// An answer, and the byte read or the vector.
    Byte(Answer, u8),
    /// A list that was to be placed.
    Placed(Answer, Placed),
    /// A line, of which the report alone is told.
    Line(Answer, Report),
    /// A line that is shown, with its report.
    Shown(Answer, Box<[u8; LINE]>, Report),
    /// An export.
    Exported(Answer, Box<[u8; EXPORT]>),
    /// The PSG's registers.
    Psg([u8; 16]),
    /// A forecast.
    Forecast(Length),
    /// The letter names no call.
    Bad,
}

impl Player {
    /// After reset, with RAM and store of the right lengths.
    pub fn new(ram: &[u8], store: &[u8]) -> Player {
        Player {
            chip: Recorder::new(Noted::Served),
            ram: ram.to_vec(),
            store: store.to_vec(),
            waiting: [0; WAITING],
        }
    }

    /// Makes a record's call.
    pub fn play(&mut self, record: Record) -> Outcome {
        let Record { op, address, value } = record;
        match op {
            b'B' => Outcome::Answer(self.chip.write_bc(value)),
            b'D' => Outcome::Answer(self.chip.write_bd(value)),
            b'G' => Outcome::Answer(self.chip.write_7f(value)),
            b'W' => self.write(Editor::Song, address, value),
            b'R' => self.read(Editor::Song, address, value),
            b'U' => self.undo(Editor::Song),
            b'w' => self.write(Editor::Picture, address, value),
            b'r' => self.read(Editor::Picture, address, value),
            b'u' => self.undo(Editor::Picture),
            b'T' => self.wait(address, value),
            b'S' => self.start(),
            b'N' => self.area(),
            b'K' => self.place(address, value),
            b'X' => Outcome::Answer(self.chip.remove(value.into())),
            b'Q' => Outcome::Answer(self.chip.mute(address, value != 0)),
            b'H' => Outcome::Psg(self.chip.sound.psg),
            b'E' => self.export(),
            b'A' => self.acknowledge(),
            b'L' => self.passed(value),
            b'P' => self.shown(value),
            b'F' => Outcome::Forecast(plus::forecast(&self.ram, address, value)),
            b'M' => self.poke(address, value),
            b'Z' => self.reset(),
            _ => Outcome::Bad,
        }
    }

    fn write(&mut self, editor: Editor, address: u16, value: u8) -> Outcome {
        let store = &mut self.store;
        Outcome::Answer(self.chip.page_write(editor, store, address, value))
    }

    fn read(&mut self, editor: Editor, address: u16, bus: u8) -> Outcome {
        let (answer, byte) = self.chip.page_read(editor, &self.store, address, bus);
        Outcome::Byte(answer, byte)
    }

    fn undo(&mut self, editor: Editor) -> Outcome {
        Outcome::Answer(self.chip.undo(editor, &mut self.store))
    }

    /// A byte that waits; one that has no place there goes nowhere.
    fn wait(&mut self, address: u16, value: u8) -> Outcome {
        if let Some(place) = self.waiting.get_mut(usize::from(address)) {
            *place = value;
        }
        Outcome::Answer(Answer::Done)
    }

    /// A start with the table in the first of the waiting bytes, which stay.
    fn start(&mut self) -> Outcome {
        let mut bytes = [0; TABLE];
        bytes.copy_from_slice(&self.waiting[..TABLE]);
        Outcome::Answer(self.chip.start(Table::from(bytes)))
    }

    /// The area for lists given, with the bounds that wait, which stay.
    fn area(&mut self) -> Outcome {
        let [from, upto] = [BOUNDS, BOUNDS + 4].map(|place| {
            let mut bytes = [0; 4];
            bytes.copy_from_slice(&self.waiting[place..][..4]);
            u32::from_le_bytes(bytes)
        });
        Outcome::Answer(self.chip.area(from, upto))
    }

    /// A list placed: so many bytes of RAM from an address on, which goes on from its end
    /// at its start.
    fn place(&mut self, address: u16, low: u8) -> Outcome {
        let length = u16::from_le_bytes([low, self.waiting[LENGTH]]);
        let from = usize::from(address);
        let bytes = from..from + usize::from(length);
        let list: Vec<u8> = bytes.map(|at| self.ram[at % RAM]).collect();
        let (answer, placed) = self.chip.place(&mut self.ram, &list);
        Outcome::Placed(answer, placed)
    }

    fn export(&mut self) -> Outcome {
        let mut out = Box::new([0; EXPORT]);
        let answer = self.chip.export(&mut out[..]);
        Outcome::Exported(answer, out)
    }

    fn acknowledge(&mut self) -> Outcome {
        let (answer, vector) = self.chip.acknowledge();
        Outcome::Byte(answer, vector)
    }

    /// The line's call, with what the processor does at the 8255.
    pub fn line(&mut self, line: &mut [u8], accesses: [Access; 3]) -> (Answer, Report) {
        self.chip.line(&self.ram, &self.store, line, accesses)
    }

    fn passed(&mut self, value: u8) -> Outcome {
        let (answer, report) = self.line(&mut [0; LINE], accesses_in(value));
        Outcome::Line(answer, report)
    }

    fn shown(&mut self, value: u8) -> Outcome {
        let mut line = Box::new([0; LINE]);
        let (answer, report) = self.line(&mut line[..], accesses_in(value));
        Outcome::Shown(answer, line, report)
    }

    /// A byte of RAM.
    fn poke(&mut self, address: u16, value: u8) -> Outcome {
        self.ram[usize::from(address)] = value;
        Outcome::Answer(Answer::Done)
    }

    fn reset(&mut self) -> Outcome {
        self.chip.reset();
        self.waiting = [0; WAITING];
        Outcome::Answer(Answer::Done)
    }
}

/// What the processor does, two bits for each channel, the lowest two for channel 0.
fn accesses_in(value: u8) -> [Access; 3] {
    [0, 2, 4].map(|place| Access::from(value >> place & 3))
}
