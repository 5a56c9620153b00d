//! The chip's state, laid out as the C interface has it.
//!
//! Any contents can be handed to the core. The widths told here are those that
//! a run from reset stays within.

/// The lock.
#[repr(C)]
#[derive(Clone, Copy, Debug, Default, PartialEq, Eq)]
pub struct Lock {
    /// Whether 7Fxx can map the page.
    pub unlocked: bool,
    /// How much of the unlock sequence the last bytes are, 0 to 16.
    pub stage: u8,
}

/// The gate array.
#[repr(C)]
#[derive(Clone, Copy, Debug, Default, PartialEq, Eq)]
pub struct Gate {
    /// The screen mode, 0 to 3.
    pub mode: u8,
    /// Whether the register page is mapped in.
    pub mapped: bool,
}

/// The 6845 registers that are kept.
#[repr(C)]
#[derive(Clone, Copy, Debug, Default, PartialEq, Eq)]
pub struct Registers {
    /// Characters shown on a line.
    pub r1: u8,
    /// The last row's number, 7 bits.
    pub r4: u8,
    /// Adjust lines after the last row, 5 bits.
    pub r5: u8,
    /// Rows shown, 7 bits.
    pub r6: u8,
    /// The number of a row's last line, 5 bits.
    pub r9: u8,
    /// The frame's screen address, high byte, 6 bits.
    pub r12: u8,
    /// The frame's screen address, low byte.
    pub r13: u8,
}

/// Where the picture is.
#[repr(C)]
#[derive(Clone, Copy, Debug, Default, PartialEq, Eq)]
pub struct Counters {
    /// The row, 7 bits.
    pub vc: u8,
    /// The line within the row, 5 bits.
    pub rc: u8,
    /// Whether this is an adjust line.
    pub adjust: bool,
    /// Whether a captured split address waits.
    pub held: bool,
    /// The current line's screen address, 14 bits.
    pub address: u16,
    /// The split address that waits, 0 where none does.
    pub split: u16,
}

/// The 6845.
#[repr(C)]
#[derive(Clone, Copy, Debug, Default, PartialEq, Eq)]
pub struct Crtc {
    /// The register that the next data write goes to.
    pub selected: u8,
    /// Its registers.
    pub registers: Registers,
    /// Its counters.
    pub counters: Counters,
}

/// The page's registers for raster interrupt, split and soft scroll.
#[repr(C)]
#[derive(Clone, Copy, Debug, Default, PartialEq, Eq)]
pub struct Video {
    /// PRI: the line of the raster interrupt, 0 for none.
    pub pri: u8,
    /// The line of the split, 0 for none.
    pub split_line: u8,
    /// The split's screen address, high byte, 6 bits.
    pub split_high: u8,
    /// The split's screen address, low byte.
    pub split_low: u8,
    /// SSCR: bit 7 widens the border, bits 6-4 scroll by lines, 3-0 by
    /// positions.
    pub sscr: u8,
}

/// A sprite's registers.
#[repr(C)]
#[derive(Clone, Copy, Debug, Default, PartialEq, Eq)]
pub struct Sprite {
    /// The left edge, -256 to 767.
    pub x: i16,
    /// The top edge, -256 to 255.
    pub y: i16,
    /// Bits 3-2 for X and 1-0 for Y, each off, 1, 2 or 4.
    pub magnification: u8,
}

/// A sound channel.
#[repr(C)]
#[derive(Clone, Copy, Debug, Default, PartialEq, Eq)]
pub struct Channel {
    /// Whether it plays.
    pub enabled: bool,
    /// Whether its interrupt waits.
    pub interrupt: bool,
    /// How many lines more than one a pause takes to fall by 1.
    pub prescale: u8,
    /// Lines counted towards the pause's next fall.
    pub count: u8,
    /// Where its next word is. This is the start address register too.
    pub address: u16,
    /// What is left of the pause.
    pub pause: u16,
    /// Passes that LOOP has left.
    pub counter: u16,
    /// Where LOOP goes back to.
    pub mark: u16,
    /// Whether its LOADs leave the PSG as it is: [`Chip::mute`](crate::Chip::mute).
    pub muted: bool,
}

/// The sound channels, and the PSG they load.
#[repr(C)]
#[derive(Clone, Copy, Debug, Default, PartialEq, Eq)]
pub struct Sound {
    /// Channels 0 to 2.
    pub channels: [Channel; 3],
    /// The PSG's registers.
    pub psg: [u8; 16],
}

/// Interrupts that are no channel's.
#[repr(C)]
#[derive(Clone, Copy, Debug, Default, PartialEq, Eq)]
pub struct Interrupts {
    /// Whether a raster interrupt waits.
    pub raster: bool,
    /// Whether the last acknowledge was for the raster.
    pub last_raster: bool,
    /// IVR: the vector's top five bits, and in bit 0 whether an acknowledge
    /// leaves a channel's interrupt.
    pub ivr: u8,
}

/// Where an editor's record of page writes that can be undone stands among its
/// places.
#[repr(C)]
#[derive(Clone, Copy, Debug, Default, PartialEq, Eq)]
pub struct Undo {
    /// The place that the next write goes to.
    pub next: u8,
    /// How many writes can be undone, 0 to 256.
    pub count: u16,
}

/// The table of the two editors, as the chip holds it.
#[repr(C)]
#[derive(Clone, Copy, Debug, Default, PartialEq, Eq)]
pub struct Held {
    /// Whether one holds. If not, the rest is 0.
    pub held: bool,
    /// Bit n is channel n, and set for the picture editor; 3 bits.
    pub channels: u8,
    /// The same of the sprites.
    pub sprites: u16,
    /// The same of the palette entries.
    pub palette: u32,
}

/// The area that lists are placed in, and which handles have one.
#[repr(C)]
#[derive(Clone, Copy, Debug, Default, PartialEq, Eq)]
pub struct Area {
    /// Bit h is set if handle h has a list.
    pub used: u64,
    /// How many words of RAM lie below the lower bound. With no area both are 0.
    pub from: u16,
    /// How many lie below the higher bound.
    pub upto: u16,
}

/// What is kept for those who edit.
#[repr(C)]
#[derive(Clone, Copy, Debug, Default, PartialEq, Eq)]
pub struct Editing {
    /// Who may write what.
    pub table: Held,
    /// The song editor's record of page writes.
    pub song: Undo,
    /// The picture editor's.
    pub picture: Undo,
    /// The area for lists.
    pub lists: Area,
}

/// The whole state.
#[repr(C)]
#[derive(Clone, Copy, Debug, PartialEq, Eq)]
pub struct State {
    /// The lock.
    pub lock: Lock,
    /// The gate array.
    pub gate: Gate,
    /// The 6845.
    pub crtc: Crtc,
    /// Raster interrupt, split and soft scroll.
    pub video: Video,
    /// Interrupts.
    pub interrupts: Interrupts,
    /// Sprites 0 to 15.
    pub sprites: [Sprite; 16],
    /// Two bytes an entry: red and blue, then green.
    pub palette: [u8; 64],
    /// Channels and PSG.
    pub sound: Sound,
    /// The table of the editors, their records of page writes and the placed lists,
    /// both but for the places.
    pub editing: Editing,
}
