//! The forecast of a sound list.

use crate::{ffi, version, Answer};

/// The length of a sound list.
#[repr(C)]
#[derive(Clone, Copy, Debug, PartialEq, Eq)]
pub struct Length {
    /// What was answered: number 0, 1 or 6.
    pub answer: Answer,
    /// Lines from the first word through the STOP.
    pub lines: u64,
    /// The channel's own cycles over these lines if the processor disturbs no
    /// LOAD. It never takes fewer, and as few only then.
    pub cycles: u64,
    /// The same if a PSG register write meets every LOAD. It never takes more.
    pub most: u64,
    /// Where in RAM the list begins.
    pub offset: u32,
    /// How many bytes it has, its STOP with them.
    pub length: u32,
}

/// How long the list at a start address plays, without playing it. Bit 0 of the
/// address is dropped.
#[must_use]
pub fn forecast(ram: &[u8], start: u16, prescale: u8) -> Length {
    version::check();
    // SAFETY: the library reads only within the slice it is lent.
    unsafe { ffi::plus_forecast(ram.as_ptr(), ram.len(), start, prescale) }
}

impl Length {
    /// The list itself in the RAM that was forecast, through its STOP; empty
    /// after a refusal.
    ///
    /// # Panics
    ///
    /// If `ram` is shorter than the RAM that was forecast.
    pub fn list<'a>(&self, ram: &'a [u8]) -> &'a [u8] {
        &ram[self.offset as usize..][..self.length as usize]
    }
}
