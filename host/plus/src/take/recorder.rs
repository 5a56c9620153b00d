//! A chip that notes the calls made on it.

use super::{kind, Record};
use crate::{Access, Answer, Chip, Editor, Placed, Report, Table};
use std::error::Error;
use std::fmt;
use std::ops::Deref;

/// Which of the served calls a recorder notes.
#[derive(Clone, Copy, Debug, PartialEq, Eq)]
pub enum Noted {
    /// Those that changed the chip, the pixel store or a record of page writes.
    Changes,
    /// All, also those that left everything as it was.
    Served,
}

/// A chip that notes the calls made on it as the records of a take, and counts the
/// lines that pass: a call of [`line`](Recorder::line) is one if it is served, and
/// none if it is refused. Only writes to the ports and to the page, acknowledges,
/// undos, starts and mutes are ever noted, and refused ones never. Made on a chip after
/// reset, each after as many lines as its record says, and with the same RAM, store
/// and table, the calls noted lead to the same state, but for the area for lists,
/// which a take leaves out. A host that places a list while it records has another
/// RAM from there on, and a take is played on one.
///
/// A take says nothing of a start's table, so that all of them have to give one:
/// [`given_table`](Recorder::given_table) hands it out beside the records.
///
/// It is read like the [`Chip`] in it, and has the chip's calls.
///
/// ```
/// use plus::take::{kind, Noted, Recorder};
/// use plus::{Access, Answer, Editor, Table, LINE, RAM, STORE, UNLOCK};
///
/// let (ram, mut store, mut line) = (vec![0; RAM], vec![0; STORE], [0; LINE]);
/// let mut chip = Recorder::new(Noted::Changes);
/// for byte in UNLOCK {
///     chip.write_bc(byte);
/// }
/// chip.write_7f(0xB8).served()?; // maps the register page in
/// for _ in 0..2 {
///     let (answer, _report) = chip.line(&ram, &store, &mut line, [Access::Off; 3]);
///     answer.served()?;
/// }
/// chip.write_7f(0xB8).served()?; // is mapped in already
/// let table = Table { palette: u32::MAX, sprites: 0xFFFF, channels: 0 };
/// chip.start(table); // the channels are the song editor's, and nothing else is
/// assert_eq!(chip.page_write(Editor::Song, &mut store, 0x6800, 100), Answer::NotYours);
/// chip.page_write(Editor::Picture, &mut store, 0x6800, 100).served()?;
/// assert_eq!(chip.video.pri, 100);
///
/// let records = chip.records()?;
/// assert_eq!(records.len(), 17 + 1 + 1 + 1);
/// let [.., mapped, started, written] = records else { unreachable!() };
/// assert_eq!((mapped.line, mapped.kind, mapped.value), (0, kind::WRITE_7F, 0xB8));
/// assert_eq!((started.line, started.kind), (2, kind::START));
/// assert_eq!((written.line, written.kind), (2, kind::PICTURE_WRITE));
/// assert_eq!((written.address, written.value), (0x6800, 100));
/// assert_eq!(chip.given_table(), table);
/// # Ok::<(), Box<dyn std::error::Error>>(())
/// ```
#[derive(Clone, Debug)]
pub struct Recorder {
    chip: Chip,
    noted: Noted,
    /// Lines since reset, as long as a record can say them.
    line: Option<u32>,
    /// The table that the first start since reset gave.
    given: Option<Table>,
    records: Result<Vec<Record>, NoRecords>,
}

impl Recorder {
    /// A chip after reset, with nothing noted.
    pub fn new(noted: Noted) -> Recorder {
        Recorder {
            chip: Chip::new(),
            noted,
            line: Some(0),
            given: None,
            records: Ok(Vec::new()),
        }
    }

    /// The calls noted since reset. There are none to be had after one that came
    /// too late, nor after starts with two tables.
    pub fn records(&self) -> Result<&[Record], NoRecords> {
        match &self.records {
            Ok(records) => Ok(records),
            Err(why) => Err(*why),
        }
    }

    /// The table that the starts since reset gave, which [`replay()`](super::replay())
    /// wants beside the take; all 0 if there was none.
    pub fn given_table(&self) -> Table {
        self.given.unwrap_or_default()
    }

    /// Resets the chip, and starts anew: a take begins with a reset.
    pub fn reset(&mut self) {
        self.chip.reset();
        self.line = Some(0);
        self.given = None;
        self.records = Ok(Vec::new());
    }

    /// [`Chip::write_bc`], noted.
    pub fn write_bc(&mut self, byte: u8) -> Answer {
        self.note(kind::WRITE_BC, 0, byte, |chip| chip.write_bc(byte))
    }

    /// [`Chip::write_bd`], noted.
    #[must_use]
    pub fn write_bd(&mut self, byte: u8) -> Answer {
        self.note(kind::WRITE_BD, 0, byte, |chip| chip.write_bd(byte))
    }

    /// [`Chip::write_7f`], noted.
    #[must_use]
    pub fn write_7f(&mut self, byte: u8) -> Answer {
        self.note(kind::WRITE_7F, 0, byte, |chip| chip.write_7f(byte))
    }

    /// [`Chip::start`], noted. After one with other owners than the first one's
    /// there are no records any more.
    pub fn start(&mut self, table: Table) -> Answer {
        let first = *self.given.get_or_insert(table);
        if table.kept() != first.kept() && self.records.is_ok() {
            self.records = Err(NoRecords::TwoTables);
        }
        self.note(kind::START, 0, 0, |chip| chip.start(table))
    }

    /// [`Chip::page_write`], noted.
    #[must_use]
    pub fn page_write(
        &mut self,
        editor: Editor,
        store: &mut [u8],
        address: u16,
        byte: u8,
    ) -> Answer {
        let kind = match editor {
            Editor::Song => kind::PAGE_WRITE,
            Editor::Picture => kind::PICTURE_WRITE,
        };
        self.note(kind, address, byte, |chip| {
            chip.page_write(editor, store, address, byte)
        })
    }

    /// [`Chip::acknowledge`], noted.
    #[must_use]
    pub fn acknowledge(&mut self) -> (Answer, u8) {
        let mut vector = 0;
        let answer = self.note(kind::ACKNOWLEDGE, 0, 0, |chip| {
            let (answer, served) = chip.acknowledge();
            vector = served;
            answer
        });
        (answer, vector)
    }

    /// [`Chip::undo`], noted.
    #[must_use]
    pub fn undo(&mut self, editor: Editor, store: &mut [u8]) -> Answer {
        let kind = match editor {
            Editor::Song => kind::UNDO,
            Editor::Picture => kind::PICTURE_UNDO,
        };
        self.note(kind, 0, 0, |chip| chip.undo(editor, store))
    }

    /// [`Chip::mute`], noted.
    #[must_use]
    pub fn mute(&mut self, channel: u16, on: bool) -> Answer {
        self.note(kind::MUTE, channel, on.into(), |chip| {
            chip.mute(channel, on)
        })
    }

    /// [`Chip::line`], counted if it is served.
    #[must_use]
    pub fn line(
        &mut self,
        ram: &[u8],
        store: &[u8],
        line: &mut [u8],
        accesses: [Access; 3],
    ) -> (Answer, Report) {
        let (answer, report) = self.chip.line(ram, store, line, accesses);
        if answer == Answer::Done {
            self.line = self.line.and_then(|passed| passed.checked_add(1));
        }
        (answer, report)
    }

    /// [`Chip::area`], which no take has.
    #[must_use]
    pub fn area(&mut self, from: u32, upto: u32) -> Answer {
        self.chip.area(from, upto)
    }

    /// [`Chip::place`], which no take has.
    #[must_use]
    pub fn place(&mut self, ram: &mut [u8], list: &[u8]) -> (Answer, Placed) {
        self.chip.place(ram, list)
    }

    /// [`Chip::remove`], which no take has.
    #[must_use]
    pub fn remove(&mut self, handle: u32) -> Answer {
        self.chip.remove(handle)
    }

    /// [`Chip::page_read`], which changes nothing.
    #[must_use]
    pub fn page_read(&self, editor: Editor, store: &[u8], address: u16, bus: u8) -> (Answer, u8) {
        self.chip.page_read(editor, store, address, bus)
    }

    /// Makes a call, and notes it if it is one to note.
    fn note(
        &mut self,
        kind: u8,
        address: u16,
        value: u8,
        call: impl FnOnce(&mut Chip) -> Answer,
    ) -> Answer {
        let before = *self.chip;
        let answer = call(&mut self.chip);
        // A write that is kept and an undo move the place of a record, and a start
        // that empties one its count, so that the store and the records never change
        // without the state.
        let changed = *self.chip != before;
        if answer == Answer::Done && (changed || self.noted == Noted::Served) {
            self.push(kind, address, value);
        }
        answer
    }

    fn push(&mut self, kind: u8, address: u16, value: u8) {
        let Ok(records) = &mut self.records else {
            return;
        };
        match self.line {
            None => self.records = Err(NoRecords::TooLate),
            Some(line) => records.push(Record {
                line,
                kind,
                address,
                value,
            }),
        }
    }
}

impl Deref for Recorder {
    type Target = Chip;

    fn deref(&self) -> &Chip {
        &self.chip
    }
}

/// Why a recorder has no records.
#[derive(Clone, Copy, Debug, PartialEq, Eq)]
#[non_exhaustive]
pub enum NoRecords {
    /// A call came after line 4,294,967,295, which is the last that a record can
    /// say.
    TooLate,
    /// The starts gave two tables, and a take has one.
    TwoTables,
}

impl fmt::Display for NoRecords {
    fn fmt(&self, f: &mut fmt::Formatter) -> fmt::Result {
        match self {
            NoRecords::TooLate => write!(f, "a call came after line {}", u32::MAX),
            NoRecords::TwoTables => f.write_str("the starts give two tables"),
        }
    }
}

impl Error for NoRecords {}
