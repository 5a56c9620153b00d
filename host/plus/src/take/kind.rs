//! Which call a record is.

/// A byte to port BCxx.
pub const WRITE_BC: u8 = 1;

/// A data byte to the selected 6845 register.
pub const WRITE_BD: u8 = 2;

/// A byte to port 7Fxx.
pub const WRITE_7F: u8 = 3;

/// A page write of the song editor. It has an address, as have that of the picture
/// editor and a mute, and no other kind.
pub const PAGE_WRITE: u8 = 4;

/// An acknowledge, which has no value.
pub const ACKNOWLEDGE: u8 = 5;

/// An undo of the song editor, which has no value.
pub const UNDO: u8 = 6;

/// A page write of the picture editor.
pub const PICTURE_WRITE: u8 = 7;

/// An undo of the picture editor, which has no value.
pub const PICTURE_UNDO: u8 = 8;

/// A start, which has no value: the table is no part of a take.
pub const START: u8 = 9;

/// A channel muted or heard again. Its address is the channel, its value 1 for on and
/// 0 for off.
pub const MUTE: u8 = 10;
