//! The palette.

use crate::{ffi, version};

/// The grey of a palette entry, 0 to 195, from its low and its high byte.
pub fn grey(low: u8, high: u8) -> u8 {
    version::check();
    // SAFETY: it takes and gives numbers.
    unsafe { ffi::plus_grey(low, high) }
}
