//! A model of the Plus chip in plain Rust, written from documents 01 and 02
//! alone, and what holds the proved core against these and this model.
//!
//! - [`chip`] is the model. It knows nothing of the core.
//! - [`machine`] has what core and model have in common: the calls, and the
//!   state put in and read out. Every test is written over it.
//! - [`under_test`] has the few moves that most tests begin with, and the macro
//!   that runs a test on both.
//! - [`by_hand`] makes the calls of a take one by one.
//! - [`fault`] has cores that go wrong in one rule, to see that tests fail.
//! - [`compare`] makes random calls on both and compares all they give.
//! - [`beside`] makes two runs that differ in one editor's calls, for the other.
//! - [`random`] makes random bytes, lists and states.

pub mod beside;
pub mod by_hand;
pub mod chip;
pub mod compare;
pub mod fault;
pub mod machine;
pub mod random;
pub mod under_test;

pub use chip::Model;
pub use machine::Machine;
