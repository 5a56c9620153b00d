//! The proved core of the Amstrad Plus chip, from Rust: a safe wrapper over
//! `libplus.a`, whose C interface is `include/plus.h`. The library is for x86-64
//! Linux.
//!
//! A [`Chip`] is the whole state of one chip, held by value, with the records of
//! page writes that can be undone and the places of its lists; the library keeps
//! nothing between calls. A host lends each call the buffers it needs: RAM of [`RAM`]
//! bytes, which only [`Chip::place`] writes, the sprite pixel store of [`STORE`]
//! bytes, a line of [`LINE`] bytes to draw into, and [`EXPORT`] bytes for an export.
//! Every call gives an [`Answer`]. With any other than [`Answer::Done`] the call was
//! refused: chip and buffers are as they were, and all else in the answer is 0, but
//! for the number of a bad line or a bad record.
//!
//! A line is one call, [`Chip::line`], which draws it and steps on to the next.
//! [`Chip::mute`] silences a sound channel, which plays on unheard.
//!
//! Two editors work on one chip, a song editor and a picture editor. Page reads,
//! page writes and undos name the [`Editor`] that makes them, and each has a record
//! of its own. A [`Table`], which the host gives by [`Chip::start`], says which of
//! them may write what; while none is given both may write everything, and a host
//! with one editor can name either, always the same.
//!
//! Up to [`LISTS`] sound lists are kept in an area of RAM: [`Chip::area`] gives it,
//! [`Chip::place`] finds the room for a list and puts it there, and [`Chip::remove`]
//! frees the room of one that no channel has in use.
//!
//! [`listing`] prints a sound list as text and reads such a text back. [`mend`]
//! makes an old sound list a good one. [`take`] writes, opens and plays takes, and
//! has a [`Recorder`](take::Recorder) that makes one of the calls on a chip.
//!
//! A sound list forecast, then played on channel 0 up to its STOP:
//!
//! ```
//! use plus::{forecast, Access, Answer, Chip, Editor, LINE, RAM, STORE, UNLOCK};
//!
//! // LOAD 7 38h, PAUSE 2, STOP
//! let (mut ram, mut store) = (vec![0; RAM], vec![0; STORE]);
//! ram[0x8000..0x8006].copy_from_slice(&[0x38, 0x07, 0x02, 0x10, 0x20, 0x40]);
//! let told = forecast(&ram, 0x8000, 0);
//! assert_eq!((told.answer, told.lines, told.cycles), (Answer::Done, 4, 13));
//! assert_eq!(told.most, 15); // if the processor is in the way of the LOAD
//!
//! let mut chip = Chip::new();
//! for byte in UNLOCK {
//!     chip.write_bc(byte);
//! }
//! chip.write_7f(0xB8).served()?; // maps the register page in
//! for (address, byte) in [(0x6C00, 0x00), (0x6C01, 0x80), (0x6C02, 0), (0x6C0F, 1)] {
//!     chip.page_write(Editor::Song, &mut store, address, byte).served()?;
//! }
//! let dcsr = chip.page_read(Editor::Song, &store, 0x6C0F, 0);
//! assert_eq!(dcsr, (Answer::Done, 1)); // enabled
//! let mut line = [0; LINE]; // what is drawn on the way
//! for _ in 0..told.lines {
//!     let (answer, _report) = chip.line(&ram, &store, &mut line, [Access::Off; 3]);
//!     answer.served()?;
//! }
//! let dcsr = chip.page_read(Editor::Song, &store, 0x6C0F, 0);
//! assert_eq!(dcsr, (Answer::Done, 0)); // and off again
//! # Ok::<(), Answer>(())
//! ```
//!
//! A line of one character in mode 2, and one in mode 3, which is neither drawn nor
//! stepped. Entry 16 is the border:
//!
//! ```
//! use plus::{Access, Answer, Chip, LINE, RAM, STORE};
//!
//! let (mut ram, store, mut line) = (vec![0; RAM], vec![0; STORE], [0; LINE]);
//! ram[0] = 0b1010_0000;
//! let mut chip = Chip::new();
//! for (register, value) in [(1, 1), (6, 1), (9, 7)] {
//!     chip.write_bc(register);
//!     chip.write_bd(value).served()?;
//! }
//! chip.write_7f(0x82).served()?;
//! chip.line(&ram, &store, &mut line, [Access::Off; 3]).0.served()?;
//! assert_eq!(line[..5], [1, 0, 1, 0, 0]);
//! assert_eq!(line[15..17], [0, 16]);
//! assert_eq!(chip.crtc.counters.rc, 1); // the next line
//!
//! chip.write_7f(0x83).served()?;
//! let (answer, report) = chip.line(&ram, &store, &mut line, [Access::Off; 3]);
//! assert_eq!((answer, report.cycles), (Answer::ModeThree, 0));
//! assert_eq!(chip.crtc.counters.rc, 1); // and still there
//! # Ok::<(), Answer>(())
//! ```
//!
//! A LOAD takes longer while the processor is on the 8255. RAM of zeros is all
//! LOADs, and here the three channels execute one each on every line:
//!
//! ```
//! use plus::{Access, Chip, LINE, RAM, STORE};
//!
//! let mut chip = Chip::new();
//! for channel in &mut chip.sound.channels {
//!     channel.enabled = true;
//! }
//! let lines = [Access::Off, Access::On, Access::PsgWrite].map(|access| {
//!     let (_, report) = chip.line(&[0; RAM], &[0; STORE], &mut [0; LINE], [access; 3]);
//!     report.cycles
//! });
//! assert_eq!(lines, [28, 31, 34]);
//! ```
//!
//! A channel muted and heard again. Its LOADs are reported as ever, and only the PSG
//! does not get them:
//!
//! ```
//! use plus::{kind, Access, Answer, Chip, LINE, RAM, STORE};
//!
//! // LOAD 8 0F, LOAD 8 0E
//! let (mut ram, store) = (vec![0; RAM], vec![0; STORE]);
//! ram[..4].copy_from_slice(&[0x0F, 0x08, 0x0E, 0x08]);
//! let mut chip = Chip::new();
//! chip.sound.channels[0].enabled = true;
//! for (on, volume) in [(true, 0), (false, 0x0E)] {
//!     chip.mute(0, on).served()?;
//!     let (answer, report) = chip.line(&ram, &store, &mut [0; LINE], [Access::Off; 3]);
//!     answer.served()?;
//!     assert_eq!((report.kinds[0], report.cycles), (kind::LOAD, 10));
//!     assert_eq!(chip.sound.psg[8], volume);
//! }
//! assert_eq!(chip.mute(3, true), Answer::NothingThere); // there are channels 0 to 2
//! # Ok::<(), Answer>(())
//! ```
//!
//! A prescale changed, undone and exported. The export ends with the registers of
//! channel 2, and 6C0Ah is its prescale:
//!
//! ```
//! use plus::{Answer, Chip, Editor, EXPORT, STORE, UNLOCK};
//!
//! let (mut chip, mut store) = (Chip::new(), vec![0; STORE]);
//! for byte in UNLOCK {
//!     chip.write_bc(byte);
//! }
//! chip.write_7f(0xB8).served()?;
//! for prescale in [3, 5] {
//!     chip.page_write(Editor::Song, &mut store, 0x6C0A, prescale).served()?;
//! }
//! // what each took the place of
//! assert!(chip.record(Editor::Song).eq([(0x6C0A, 3), (0x6C0A, 0)]));
//! chip.undo(Editor::Song, &mut store).served()?;
//! let mut out = [0; EXPORT];
//! chip.export(&mut out).served()?;
//! assert!(out.ends_with(&[0x0A, 0x6C, 3]));
//! # Ok::<(), Answer>(())
//! ```
//!
//! The song editor beside the picture editor. All palette entries and sprites are
//! the picture editor's here, and the channels the song editor's; the screen
//! registers from 6800h to 6804h are always the picture editor's while a table
//! holds, and IVR is nobody's:
//!
//! ```
//! use plus::{Answer, Chip, Editor, Table, STORE, UNLOCK};
//!
//! let (mut chip, mut store) = (Chip::new(), vec![0; STORE]);
//! for byte in UNLOCK {
//!     chip.write_bc(byte);
//! }
//! chip.write_7f(0xB8).served()?;
//! let table = Table { palette: u32::MAX, sprites: 0xFFFF, channels: 0 };
//! chip.start(table);
//! assert_eq!(chip.table(), Some(table));
//!
//! chip.page_write(Editor::Picture, &mut store, 0x6400, 0x70).served()?;
//! assert_eq!(chip.page_write(Editor::Song, &mut store, 0x6400, 0), Answer::NotYours);
//! chip.page_write(Editor::Song, &mut store, 0x6C02, 5).served()?;
//!
//! // Each undoes its own writes, and sees its own channels in DCSR.
//! chip.undo(Editor::Song, &mut store).served()?;
//! assert_eq!(chip.undo(Editor::Song, &mut store), Answer::NothingToUndo);
//! assert_eq!(chip.record(Editor::Picture).count(), 1);
//! chip.page_write(Editor::Song, &mut store, 0x6C0F, 0b001).served()?; // channel 0 on
//! let seen = Editor::BOTH.map(|editor| chip.page_read(editor, &store, 0x6C0F, 0).1);
//! assert_eq!(seen, [0b001, 0]);
//! # Ok::<(), Answer>(())
//! ```
//!
//! Lists dropped and replaced while one of them plays. It can't be removed until its
//! channel is at its STOP:
//!
//! ```
//! use plus::{Access, Answer, Chip, Editor, List, LINE, RAM, STORE, UNLOCK};
//!
//! let (mut ram, mut store, mut line) = (vec![0; RAM], vec![0; STORE], [0; LINE]);
//! let mut chip = Chip::new();
//! for byte in UNLOCK {
//!     chip.write_bc(byte);
//! }
//! chip.write_7f(0xB8).served()?;
//! chip.area(0x8000, 0x8010).served()?; // room for eight words
//!
//! // LOAD 7 38h, PAUSE 2, STOP; and a STOP alone.
//! let song = [0x38, 0x07, 0x02, 0x10, 0x20, 0x40];
//! let (answer, first) = chip.place(&mut ram, &song);
//! answer.served()?;
//! assert_eq!((first.address, first.handle), (0x8000, 0));
//! assert_eq!(ram[0x8000..0x8006], song);
//! let (answer, second) = chip.place(&mut ram, &[0x20, 0x40]);
//! answer.served()?;
//! assert_eq!((second.address, second.handle), (0x8006, 1));
//!
//! // The first one on channel 0.
//! for (address, byte) in [(0x6C00, 0x00), (0x6C01, 0x80), (0x6C0F, 1)] {
//!     chip.page_write(Editor::Song, &mut store, address, byte).served()?;
//! }
//! for _ in 0..4 {
//!     assert_eq!(chip.remove(first.handle), Answer::ListInUse);
//!     let (answer, _report) = chip.line(&ram, &store, &mut line, [Access::Off; 3]);
//!     answer.served()?;
//! }
//! chip.remove(first.handle).served()?;
//! assert_eq!(chip.remove(first.handle), Answer::NoHandle);
//!
//! // Its room is too short for the next one, and its handle is free again.
//! let (answer, third) = chip.place(&mut ram, &[0x40; 8]);
//! answer.served()?;
//! assert_eq!((third.address, third.handle), (0x8008, 0));
//! assert_eq!(chip.bounds(), Some((0x8000, 0x8010)));
//! let list = |handle, address, length| List { handle, address, length };
//! assert!(chip.lists().eq([list(0, 0x8008, 8), list(1, 0x8006, 2)]));
//! # Ok::<(), Answer>(())
//! ```
//!
//! A slider sends an event for every step of a gesture, and each write is kept by
//! itself: a long gesture would fill the record, and take as many undos to take
//! back. To keep one entry a gesture, take back the last event's write before each
//! further one. Between two events that editor may make no other page write, since
//! undo would take back that one; and DCSR is not kept, so it needs none of this.
//!
//! ```
//! use plus::Editor::Picture;
//! use plus::{Answer, Chip, STORE, UNLOCK};
//!
//! let (mut chip, mut store) = (Chip::new(), vec![0; STORE]);
//! for byte in UNLOCK {
//!     chip.write_bc(byte);
//! }
//! chip.write_7f(0xB8).served()?;
//! chip.page_write(Picture, &mut store, 0x6400, 0x70).served()?;
//! for event in 0..300 {
//!     if event > 0 {
//!         chip.undo(Picture, &mut store).served()?;
//!     }
//!     chip.page_write(Picture, &mut store, 0x6400, event as u8).served()?;
//! }
//! assert!(chip.record(Picture).eq([(0x6400, 0x70), (0x6400, 0)])); // the gesture is one
//! chip.undo(Picture, &mut store).served()?;
//! assert_eq!(chip.palette[0], 0x70);
//! # Ok::<(), Answer>(())
//! ```

#![warn(missing_docs)]
// An example that would warn where it is copied fails.
#![doc(test(attr(deny(warnings))))]

mod access;
mod answer;
mod chip;
mod editor;
mod ffi;
mod forecast;
pub mod kind;
mod list;
pub mod listing;
pub mod mend;
mod palette;
mod state;
pub mod take;
mod version;

pub use access::Access;
pub use answer::Answer;
pub use chip::{Chip, Report};
pub use editor::{Editor, Table, TABLE};
pub use forecast::{forecast, Length};
pub use list::{List, Placed};
pub use palette::grey;
pub use state::{
    Area, Channel, Counters, Crtc, Editing, Gate, Held, Interrupts, Lock, Registers, Sound, Sprite,
    State, Undo, Video,
};
pub use version::{built, Built, VERSION};

/// How many bytes of RAM a host lends.
pub const RAM: usize = 65_536;

/// How many bytes the sprite pixel store has.
pub const STORE: usize = 4_096;

/// How many bytes a drawn line has, each the number of a palette entry.
pub const LINE: usize = 640;

/// How many bytes an export has: three for each of 159 registers.
pub const EXPORT: usize = 477;

/// How many page writes an editor can undo.
pub const PLACES: usize = 256;

/// How many lists can be placed at a time.
pub const LISTS: usize = 64;

/// Bytes that unlock a chip, written to BCxx one after the other. Any byte but
/// zero does for the first, and any at all for the last.
pub const UNLOCK: [u8; 17] = [
    0x01, 0x00, 0xFF, 0x77, 0xB3, 0x51, 0xA8, 0xD4, 0x62, 0x39, 0x9C, 0x46, 0x2B, 0x15, 0x8A, 0xCD,
    0xEE,
];
