//! Documents 01 and 02 held against the core and against the model, a file for
//! each part of them. Every expected value is the document's or worked out beside
//! the test.

// A test that no machine is held to would be dead code.
#![deny(dead_code)]

mod drawing;
mod editors;
mod export;
mod forecast;
mod interrupts;
mod kept;
mod line;
mod line_call;
mod listing;
mod lists;
mod lock;
mod mend;
mod mute;
mod page;
mod played;
mod ports;
mod processor;
mod registers;
mod replay;
mod reset;
mod screen;
mod sound;
mod split;
mod sprites;
mod take;
mod undo;
