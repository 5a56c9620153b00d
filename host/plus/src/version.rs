//! The version, of this wrapper and of the library that it is linked with.

use crate::{ffi, State};
use std::sync::Once;

/// The version of this wrapper: 10,000 times the major number, 100 times the minor
/// one, and the patch. `PLUS_VERSION` of `include/plus.h` is the same.
pub const VERSION: u32 = 10_000 * number(env!("CARGO_PKG_VERSION_MAJOR"))
    + 100 * number(env!("CARGO_PKG_VERSION_MINOR"))
    + number(env!("CARGO_PKG_VERSION_PATCH"));

const fn number(digits: &str) -> u32 {
    match u32::from_str_radix(digits, 10) {
        Ok(number) => number,
        Err(_) => panic!("a part of a version is a number"),
    }
}

/// What the library was built with.
#[repr(C)]
#[derive(Clone, Copy, Debug, PartialEq, Eq)]
pub struct Built {
    /// Its version, as [`VERSION`] says it.
    pub version: u32,
    /// How many bytes a chip's state has.
    pub state: u32,
}

/// What the library that is linked was built with. The wrapper looks at this once,
/// before its first call, and panics if it is not what it was written for, since
/// the structs of another version may have another layout.
///
/// ```
/// let built = plus::built();
/// assert_eq!(built.version, plus::VERSION);
/// assert_eq!(built.state as usize, size_of::<plus::State>());
/// ```
pub fn built() -> Built {
    // SAFETY: it takes nothing, and has been the same in every version that has it.
    unsafe { ffi::plus_built() }
}

/// That the library is of this version, once.
pub(crate) fn check() {
    static CHECKED: Once = Once::new();
    CHECKED.call_once(|| {
        let (found, state) = (built(), size_of::<State>());
        assert!(
            found.version == VERSION && found.state as usize == state,
            "the library libplus is version {} with a state of {} bytes, and the wrapper is {} \
             with {state}: build both from one source",
            text(found.version),
            found.state,
            text(VERSION)
        );
    });
}

/// A version as it is written.
fn text(version: u32) -> String {
    format!(
        "{}.{}.{}",
        version / 10_000,
        version / 100 % 100,
        version % 100
    )
}
