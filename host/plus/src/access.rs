//! The processor at the 8255.

/// What the processor does at the 8255 while a channel has its turn. It counts
/// where the channel executes a LOAD, and nowhere else.
///
/// Its number is that of the C interface, where any above 2 is a PSG register
/// write too:
///
/// ```
/// # use plus::Access;
/// assert_eq!([0, 1].map(Access::from), [Access::Off, Access::On]);
/// assert_eq!([2, 3, 255].map(Access::from), [Access::PsgWrite; 3]);
/// ```
#[repr(u8)]
#[derive(Clone, Copy, Debug, Default, PartialEq, Eq)]
pub enum Access {
    /// It is off the 8255.
    #[default]
    Off = 0,
    /// It is on it: the LOAD takes a cycle more.
    On = 1,
    /// It writes a PSG register there: the LOAD takes two more.
    PsgWrite = 2,
}

impl From<u8> for Access {
    fn from(number: u8) -> Access {
        match number {
            0 => Access::Off,
            1 => Access::On,
            _ => Access::PsgWrite,
        }
    }
}
