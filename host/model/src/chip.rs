//! The chip as documents 01 and 02 describe it, written from these alone.
//!
//! The state and its reset are here; each group of calls has its own file.

mod draw;
mod editors;
mod forecast;
mod interrupts;
mod line;
mod listing;
mod lists;
mod lock;
mod mend;
mod page;
mod ports;
mod replay;
mod sound;
mod take;
mod undo;

pub use draw::byte_address;
pub use forecast::{forecast, list, Length};
pub use listing::{print, read};
pub use lists::{Area, List};
pub use mend::{change, mend};
pub use page::grey;
pub use replay::{replay, Replay};
pub use take::{take_open, take_record, take_write, Record};

use lock::History;

/// The numbers a call can answer.
pub mod answer {
    pub const DONE: u8 = 0;
    pub const WRONG_LENGTH: u8 = 1;
    pub const OUTSIDE: u8 = 2;
    pub const NOTHING_THERE: u8 = 3;
    pub const MODE_THREE: u8 = 4;
    pub const NO_INTERRUPT: u8 = 5;
    pub const NO_STOP: u8 = 6;
    pub const NOT_LISTING: u8 = 7;
    pub const TOO_SMALL: u8 = 8;
    pub const CONVERTER_THERE: u8 = 9;
    pub const NOTHING_TO_UNDO: u8 = 10;
    pub const NO_TRAILER: u8 = 11;
    pub const NOT_MET: u8 = 12;
    pub const BAD_RECORD: u8 = 13;
    pub const NO_ROOM: u8 = 14;
    pub const NOT_YOURS: u8 = 15;
    pub const NO_ROOM_FOR_STOP: u8 = 16;
    pub const REPORT_TOO_SMALL: u8 = 17;
    pub const WRONG_AREA: u8 = 18;
    pub const ALL_PLACED: u8 = 19;
    pub const NO_GAP: u8 = 20;
    pub const NO_HANDLE: u8 = 21;
    pub const LIST_IN_USE: u8 = 22;
}

/// Lengths of the lent buffers.
pub const RAM: usize = 65_536;
pub const STORE: usize = 4_096;
pub const LINE: usize = 640;
pub const EXPORT: usize = 477;

/// How many page writes an editor can undo.
pub const PLACES: usize = 256;

/// The lock. `stage` only shows what the history of bytes says.
#[derive(Clone, Copy, Debug, Default, PartialEq, Eq)]
pub struct Lock {
    pub unlocked: bool,
    pub stage: u8,
}

/// The gate array: screen mode and whether the register page is mapped in.
#[derive(Clone, Copy, Debug, Default, PartialEq, Eq)]
pub struct Gate {
    pub mode: u8,
    pub mapped: bool,
}

#[derive(Clone, Copy, Debug, Default, PartialEq, Eq)]
pub struct Registers {
    pub r1: u8,
    pub r4: u8,
    pub r5: u8,
    pub r6: u8,
    pub r9: u8,
    pub r12: u8,
    pub r13: u8,
}

/// Where the picture is. `split` is the captured address while `held`, else 0.
#[derive(Clone, Copy, Debug, Default, PartialEq, Eq)]
pub struct Counters {
    pub vc: u8,
    pub rc: u8,
    pub adjust: bool,
    pub address: u16,
    pub held: bool,
    pub split: u16,
}

#[derive(Clone, Copy, Debug, Default, PartialEq, Eq)]
pub struct Crtc {
    pub selected: u8,
    pub registers: Registers,
    pub counters: Counters,
}

#[derive(Clone, Copy, Debug, Default, PartialEq, Eq)]
pub struct Video {
    pub pri: u8,
    pub split_line: u8,
    pub split_high: u8,
    pub split_low: u8,
    pub sscr: u8,
}

/// X is -256 to 767, Y is -256 to 255. Magnification: bits 3-2 X, 1-0 Y.
#[derive(Clone, Copy, Debug, Default, PartialEq, Eq)]
pub struct Sprite {
    pub x: i16,
    pub y: i16,
    pub magnification: u8,
}

/// `count` counts lines within one step of the pause; `counter` is the loop
/// counter and `mark` the address it goes back to. The LOADs of a `muted` one leave
/// the PSG.
#[derive(Clone, Copy, Debug, Default, PartialEq, Eq)]
pub struct Channel {
    pub enabled: bool,
    pub interrupt: bool,
    pub address: u16,
    pub prescale: u8,
    pub pause: u16,
    pub count: u8,
    pub counter: u16,
    pub mark: u16,
    pub muted: bool,
}

#[derive(Clone, Copy, Debug, Default, PartialEq, Eq)]
pub struct Sound {
    pub channels: [Channel; 3],
    pub psg: [u8; 16],
}

#[derive(Clone, Copy, Debug, Default, PartialEq, Eq)]
pub struct Interrupts {
    pub raster: bool,
    pub last_raster: bool,
    pub ivr: u8,
}

/// The two that work on one chip.
#[derive(Clone, Copy, Debug, PartialEq, Eq)]
pub enum Editor {
    Song,
    Picture,
}

/// The owners of palette entries, sprites and channels: bit n is that of
/// number n, and set for the picture editor.
#[derive(Clone, Copy, Debug, Default, PartialEq, Eq)]
pub struct Table {
    pub palette: u32,
    pub sprites: u16,
    pub channels: u8,
}

/// Page writes that can be undone, the newest last: addresses, and what their
/// registers held before.
pub type Kept = Vec<(u16, u8)>;

/// Each editor's.
#[derive(Clone, Debug, Default, PartialEq, Eq)]
pub struct Undo {
    pub song: Kept,
    pub picture: Kept,
}

/// The kinds of sound words.
#[derive(Clone, Copy, Debug, PartialEq, Eq)]
pub enum Kind {
    Load,
    Pause,
    Repeat,
    Control,
    Nothing,
}

/// What a channel did on a line; the number is the word's low 12 bits.
#[derive(Clone, Copy, Debug, PartialEq, Eq)]
pub enum Did {
    SatOut,
    Executed(Kind, u16),
}

/// What the processor does at the 8255 when a channel has its turn.
#[derive(Clone, Copy, Debug, PartialEq, Eq)]
pub enum Access {
    Off,
    On,
    PsgWrite,
}

/// What a line tells.
#[derive(Clone, Copy, Debug, PartialEq, Eq)]
pub struct Report {
    pub cycles: u8,
    pub did: [Did; 3],
}

#[derive(Clone, Debug)]
pub struct Model {
    pub lock: Lock,
    pub gate: Gate,
    pub crtc: Crtc,
    pub video: Video,
    pub sprites: [Sprite; 16],
    pub palette: [u8; 64],
    pub sound: Sound,
    pub interrupts: Interrupts,
    /// The table, while one holds.
    pub table: Option<Table>,
    pub undo: Undo,
    /// The area for lists, once it is given.
    pub lists: Option<Area>,
    /// The last bytes written to BCxx; what decides the lock.
    history: History,
}

impl Model {
    /// The chip after reset.
    pub fn new() -> Model {
        Model {
            lock: Lock::default(),
            gate: Gate::default(),
            crtc: Crtc::default(),
            video: Video::default(),
            sprites: [Sprite::default(); 16],
            palette: [0; 64],
            sound: Sound::default(),
            interrupts: Interrupts {
                ivr: 0x01,
                ..Interrupts::default()
            },
            table: None,
            undo: Undo::default(),
            lists: None,
            history: History::new(),
        }
    }
}

impl Default for Model {
    fn default() -> Model {
        Model::new()
    }
}
