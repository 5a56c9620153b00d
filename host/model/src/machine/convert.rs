//! The model's state as the core's, and back: structs of the same names and
//! fields, and a take's record and a placed list like them. The model's records of
//! page writes and its placed lists are Vecs and no part of the state.

use crate::chip::{self, Model};
use plus::{Editing, Held, State};

/// The core's structs in one place.
mod proved {
    pub use plus::take::Record;
    pub use plus::*;
}

/// Both ways between the two structs of a name.
macro_rules! same {
    ($($name:ident { $($field:ident),* })*) => {$(
        impl From<chip::$name> for proved::$name {
            fn from(model: chip::$name) -> proved::$name {
                let chip::$name { $($field),* } = model;
                proved::$name { $($field: $field.into()),* }
            }
        }

        impl From<proved::$name> for chip::$name {
            fn from(core: proved::$name) -> chip::$name {
                let proved::$name { $($field),* } = core;
                chip::$name { $($field: $field.into()),* }
            }
        }
    )*};
}

same! {
    Lock { unlocked, stage }
    Gate { mode, mapped }
    Registers { r1, r4, r5, r6, r9, r12, r13 }
    Counters { vc, rc, adjust, address, held, split }
    Crtc { selected, registers, counters }
    Video { pri, split_line, split_high, split_low, sscr }
    Sprite { x, y, magnification }
    Channel { enabled, interrupt, address, prescale, pause, count, counter, mark, muted }
    Interrupts { raster, last_raster, ivr }
    Record { line, kind, address, value }
    Table { palette, sprites, channels }
    List { handle, address, length }
}

impl From<plus::Editor> for chip::Editor {
    fn from(core: plus::Editor) -> chip::Editor {
        match core {
            plus::Editor::Song => chip::Editor::Song,
            plus::Editor::Picture => chip::Editor::Picture,
        }
    }
}

/// The table that holds, and none as the chip has it then.
fn held(table: Option<chip::Table>) -> Held {
    match table {
        None => Held::default(),
        Some(chip::Table {
            palette,
            sprites,
            channels,
        }) => Held {
            held: true,
            channels,
            sprites,
            palette,
        },
    }
}

fn holding(held: Held) -> Option<chip::Table> {
    let Held {
        channels,
        sprites,
        palette,
        ..
    } = held;
    held.held.then_some(chip::Table {
        palette,
        sprites,
        channels,
    })
}

impl From<plus::Access> for chip::Access {
    fn from(core: plus::Access) -> chip::Access {
        match core {
            plus::Access::Off => chip::Access::Off,
            plus::Access::On => chip::Access::On,
            plus::Access::PsgWrite => chip::Access::PsgWrite,
        }
    }
}

impl From<chip::Sound> for plus::Sound {
    fn from(model: chip::Sound) -> plus::Sound {
        plus::Sound {
            channels: model.channels.map(Into::into),
            psg: model.psg,
        }
    }
}

impl From<plus::Sound> for chip::Sound {
    fn from(core: plus::Sound) -> chip::Sound {
        chip::Sound {
            channels: core.channels.map(Into::into),
            psg: core.psg,
        }
    }
}

impl From<&Model> for State {
    fn from(model: &Model) -> State {
        State {
            lock: model.lock.into(),
            gate: model.gate.into(),
            crtc: model.crtc.into(),
            video: model.video.into(),
            sprites: model.sprites.map(Into::into),
            palette: model.palette,
            sound: model.sound.into(),
            interrupts: model.interrupts.into(),
            editing: Editing {
                table: held(model.table),
                ..Editing::default()
            },
        }
    }
}

impl From<State> for Model {
    fn from(state: State) -> Model {
        let mut model = Model::new();
        model.set_lock(state.lock.unlocked, state.lock.stage);
        model.gate = state.gate.into();
        model.crtc = state.crtc.into();
        model.video = state.video.into();
        model.sprites = state.sprites.map(Into::into);
        model.palette = state.palette;
        model.sound = state.sound.into();
        model.interrupts = state.interrupts.into();
        model.table = holding(state.editing.table);
        model
    }
}
