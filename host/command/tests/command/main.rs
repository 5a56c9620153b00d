//! The commands as a person uses them: the built program on real files, what it
//! prints, what it says on standard error, and its exit status.

mod export;
mod forecast;
mod frame;
mod install;
mod list;
mod lost;
mod map;
mod mend;
mod picture;
mod play;
mod read;
mod run;
mod scene;
mod take;
mod tools;
mod usage;
mod version;
