//! What a channel did on a line, as [`Report`](crate::Report) numbers it.

/// The channel was off or in a pause.
pub const SAT_OUT: u8 = 0;

/// It loaded a PSG register.
pub const LOAD: u8 = 1;

/// It began a pause, or met a PAUSE of 0.
pub const PAUSE: u8 = 2;

/// It set its loop counter and its mark.
pub const REPEAT: u8 = 3;

/// It executed a word of LOOP, INT and STOP bits, or of none.
pub const CONTROL: u8 = 4;

/// It executed a word that does nothing.
pub const NOTHING: u8 = 5;
