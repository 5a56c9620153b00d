//! Sound lists placed in an area of RAM.
//!
//! A number says where a list is: 32,768 times the words before its start, and the
//! words before its last one.

/// Where a list was placed, and the handle that it is removed by.
#[derive(Clone, Copy, Debug, Default, PartialEq, Eq)]
pub struct Placed {
    /// The address of its first byte.
    pub address: u32,
    /// Its handle, the lowest that was free.
    pub handle: u32,
}

/// A list that is placed.
#[derive(Clone, Copy, Debug, PartialEq, Eq)]
pub struct List {
    /// Its handle, 0 to 63.
    pub handle: u32,
    /// The address of its first byte.
    pub address: u32,
    /// How many bytes it has.
    pub length: u32,
}

impl List {
    /// The list of a handle, by the number of its place.
    pub(crate) fn at(handle: u32, place: u32) -> List {
        let address = place / 32_768 * 2;
        let end = (place % 32_768 + 1) * 2;
        List {
            handle,
            address,
            length: end.saturating_sub(address),
        }
    }
}
