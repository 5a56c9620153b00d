//! What an editor can see of a chip while a table holds.

use crate::compare::Buffers;
use crate::machine::Machine;
use plus::{Channel, Editor, Held, Sprite, State, Video};

/// The contents of all that an editor owns, its record, and what both know: whether
/// the page is mapped, and the table.
pub struct View<'a> {
    table: Held,
    mapped: bool,
    /// Of each sprite that it owns its number and registers.
    sprites: Vec<(usize, Sprite)>,
    /// And its number and pixels.
    pixels: Vec<(usize, &'a [u8])>,
    /// Of each palette entry its number and both bytes.
    palette: Vec<(usize, [u8; 2])>,
    /// Of each channel its number, start address and prescale, and what DCSR shows
    /// of it: enable and interrupt.
    channels: Vec<(usize, [u16; 2], [bool; 2])>,
    video: Option<Video>,
    record: Vec<(u16, u8)>,
}

/// The numbers below `count` that a table has for an editor.
fn owned(number: u32, count: usize, editor: Editor) -> impl Iterator<Item = usize> {
    (0..count).filter(move |&n| Editor::from((number >> n & 1) as u8) == editor)
}

impl<'a> View<'a> {
    pub fn of(machine: &impl Machine, lent: &'a Buffers, editor: Editor) -> View<'a> {
        let State {
            gate,
            video,
            sprites,
            palette,
            sound,
            editing,
            ..
        } = machine.state();
        let table = editing.table;
        let channel = |n: usize| {
            let Channel {
                enabled,
                interrupt,
                address,
                prescale,
                ..
            } = sound.channels[n];
            (n, [address, prescale.into()], [enabled, interrupt])
        };
        View {
            table,
            mapped: gate.mapped,
            sprites: owned(table.sprites.into(), 16, editor)
                .map(|n| (n, sprites[n]))
                .collect(),
            pixels: owned(table.sprites.into(), 16, editor)
                .map(|n| (n, &lent.store[256 * n..][..256]))
                .collect(),
            palette: owned(table.palette, 32, editor)
                .map(|n| (n, [palette[2 * n], palette[2 * n + 1]]))
                .collect(),
            channels: owned(table.channels.into(), 3, editor)
                .map(channel)
                .collect(),
            video: (editor == Editor::Picture).then_some(video),
            record: machine.record(editor),
        }
    }

    /// The first part that two of them differ in.
    pub fn differs(&self, other: &View) -> Result<(), String> {
        macro_rules! part {
            ($($name:ident)+) => {$(
                if self.$name != other.$name {
                    let (one, two) = (&self.$name, &other.$name);
                    let name = stringify!($name);
                    return Err(format!("{name}: {one:02X?}\n{name}: {two:02X?}"));
                }
            )+};
        }
        part!(table mapped channels sprites palette video record);
        for ((n, one), (_, two)) in self.pixels.iter().zip(&other.pixels) {
            if let Some(at) = (0..256).find(|&at| one[at] != two[at]) {
                let (one, two) = (one[at], two[at]);
                return Err(format!(
                    "pixel {at} of sprite {n}: {one:02X}, and {two:02X}"
                ));
            }
        }
        Ok(())
    }
}
