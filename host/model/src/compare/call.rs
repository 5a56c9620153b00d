//! One call of a script, made on a machine.

use crate::machine::Machine;
use plus::{Access, Answer, Editor, Length, Placed, Report, Table};
use std::rc::Rc;

/// Bytes that follow each buffer, for lengths above the right one.
pub const SPARE: usize = 16;

/// A list is cut from what is lent below this place.
pub const LISTS: usize = 2_048;

/// What the host lends. A call gets as many bytes of it as the script says.
#[derive(Clone, PartialEq, Eq)]
pub struct Buffers {
    pub ram: Vec<u8>,
    pub store: Vec<u8>,
    pub line: Vec<u8>,
    pub export: Vec<u8>,
    /// What lists that are placed are cut from. No call can write it, so that all have
    /// the same one.
    pub lists: Rc<[u8]>,
}

/// One call. A buffer's number is the length that is lent.
#[derive(Clone, Copy, Debug, PartialEq, Eq)]
pub enum Call {
    Reset,
    WriteBc(u8),
    WriteBd(u8),
    Write7f(u8),
    Start(Table),
    PageRead {
        editor: Editor,
        store: usize,
        address: u16,
        bus: u8,
    },
    PageWrite {
        editor: Editor,
        store: usize,
        address: u16,
        byte: u8,
    },
    Undo {
        editor: Editor,
        store: usize,
    },
    Area {
        from: u32,
        upto: u32,
    },
    /// A list of so many bytes, the first of them at a place among those lent.
    Place {
        ram: usize,
        at: usize,
        list: usize,
    },
    Remove(u32),
    Export {
        out: usize,
    },
    Acknowledge,
    Mute {
        channel: u16,
        on: bool,
    },
    Line {
        ram: usize,
        store: usize,
        line: usize,
        accesses: [Access; 3],
    },
    Forecast {
        ram: usize,
        start: u16,
        prescale: u8,
    },
    /// No call: the host puts a byte into RAM.
    Ram {
        address: u16,
        byte: u8,
    },
}

/// All that a call gives back.
#[derive(Clone, Copy, Debug, PartialEq, Eq)]
pub enum Reply {
    /// Of a reset, and of a byte put into RAM.
    Nothing,
    Answer(Answer),
    /// The answer, and the byte read or the vector.
    Byte(Answer, u8),
    Placed(Answer, Placed),
    Line(Answer, Report),
    Length(Length),
}

impl Reply {
    pub fn number(&self) -> u8 {
        match *self {
            Reply::Nothing => 0,
            Reply::Answer(answer) => answer.number(),
            Reply::Byte(answer, _) => answer.number(),
            Reply::Placed(answer, _) => answer.number(),
            Reply::Line(answer, _) => answer.number(),
            Reply::Length(length) => length.answer.number(),
        }
    }
}

impl Call {
    pub const NAMES: [&'static str; 16] = [
        "reset",
        "write_bc",
        "write_bd",
        "write_7f",
        "start",
        "page_read",
        "page_write",
        "undo",
        "area",
        "place",
        "remove",
        "export",
        "acknowledge",
        "mute",
        "line",
        "forecast",
    ];

    /// Its place among the names; a byte put into RAM is no call.
    pub fn row(&self) -> Option<usize> {
        match self {
            Call::Reset => Some(0),
            Call::WriteBc(_) => Some(1),
            Call::WriteBd(_) => Some(2),
            Call::Write7f(_) => Some(3),
            Call::Start(_) => Some(4),
            Call::PageRead { .. } => Some(5),
            Call::PageWrite { .. } => Some(6),
            Call::Undo { .. } => Some(7),
            Call::Area { .. } => Some(8),
            Call::Place { .. } => Some(9),
            Call::Remove(_) => Some(10),
            Call::Export { .. } => Some(11),
            Call::Acknowledge => Some(12),
            Call::Mute { .. } => Some(13),
            Call::Line { .. } => Some(14),
            Call::Forecast { .. } => Some(15),
            Call::Ram { .. } => None,
        }
    }

    /// Makes it on a machine.
    pub fn make<M: Machine>(self, machine: &mut M, lent: &mut Buffers) -> Reply {
        match self {
            Call::Reset => {
                machine.reset();
                Reply::Nothing
            }
            Call::WriteBc(byte) => Reply::Answer(machine.write_bc(byte)),
            Call::WriteBd(byte) => Reply::Answer(machine.write_bd(byte)),
            Call::Write7f(byte) => Reply::Answer(machine.write_7f(byte)),
            Call::Start(table) => Reply::Answer(machine.start(table)),
            Call::PageRead {
                editor,
                store,
                address,
                bus,
            } => {
                let (number, byte) = machine.page_read(editor, &lent.store[..store], address, bus);
                Reply::Byte(number, byte)
            }
            Call::PageWrite {
                editor,
                store,
                address,
                byte,
            } => {
                let store = &mut lent.store[..store];
                Reply::Answer(machine.page_write(editor, store, address, byte))
            }
            Call::Undo { editor, store } => {
                Reply::Answer(machine.undo(editor, &mut lent.store[..store]))
            }
            Call::Area { from, upto } => Reply::Answer(machine.area(from, upto)),
            Call::Place { ram, at, list } => {
                let list = &lent.lists[at..][..list];
                let (number, placed) = machine.place(&mut lent.ram[..ram], list);
                Reply::Placed(number, placed)
            }
            Call::Remove(handle) => Reply::Answer(machine.remove(handle)),
            Call::Export { out } => Reply::Answer(machine.export(&mut lent.export[..out])),
            Call::Acknowledge => {
                let (number, vector) = machine.acknowledge();
                Reply::Byte(number, vector)
            }
            Call::Mute { channel, on } => Reply::Answer(machine.mute(channel, on)),
            Call::Line {
                ram,
                store,
                line,
                accesses,
            } => {
                let (ram, store) = (&lent.ram[..ram], &lent.store[..store]);
                let (number, report) = machine.line(ram, store, &mut lent.line[..line], accesses);
                Reply::Line(number, report)
            }
            Call::Forecast {
                ram,
                start,
                prescale,
            } => Reply::Length(M::forecast(&lent.ram[..ram], start, prescale)),
            Call::Ram { address, byte } => {
                lent.ram[address as usize] = byte;
                Reply::Nothing
            }
        }
    }
}
