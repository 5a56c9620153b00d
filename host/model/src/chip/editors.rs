//! Two editors on one chip: the start, and whose a register is.

use super::{answer, Editor, Kept, Model, Table};

/// Who may write a register while a table holds.
#[derive(Clone, Copy, Debug, PartialEq, Eq)]
enum Owner {
    /// This editor alone.
    One(Editor),
    /// Neither of them.
    Neither,
    /// Nobody, since there is nothing that takes a byte; or both, as for DCSR.
    Open,
}

/// The editor that bit n of a number names.
fn named(number: u32, n: usize) -> Owner {
    match number >> n & 1 {
        0 => Owner::One(Editor::Song),
        _ => Owner::One(Editor::Picture),
    }
}

impl Table {
    fn owner(&self, address: u16) -> Owner {
        let place = address as usize;
        match address {
            0x4000..=0x4FFF => named(self.sprites.into(), (place - 0x4000) / 256),
            0x6000..=0x607F => named(self.sprites.into(), (place - 0x6000) / 8),
            0x6400..=0x643F => named(self.palette, (place - 0x6400) / 2),
            0x6800..=0x6804 => Owner::One(Editor::Picture),
            0x6805 => Owner::Neither,
            0x6C00..=0x6C0B if place % 4 != 3 => named(self.channels.into(), (place - 0x6C00) / 4),
            _ => Owner::Open,
        }
    }
}

impl Model {
    /// The host gives a table. There is nothing to undo then.
    pub fn start(&mut self, table: Table) -> u8 {
        self.table = Some(Table {
            channels: table.channels & 0b111,
            ..table
        });
        self.undo.song.clear();
        self.undo.picture.clear();
        answer::DONE
    }

    /// Whether the table has the register for somebody else.
    pub(super) fn is_not_yours(&self, editor: Editor, address: u16) -> bool {
        let owner = match &self.table {
            Some(table) => table.owner(address),
            None => Owner::Open,
        };
        owner != Owner::Open && owner != Owner::One(editor)
    }

    /// Whether the bits of a channel in DCSR are the editor's.
    pub(super) fn has_channel(&self, editor: Editor, n: usize) -> bool {
        match &self.table {
            Some(table) => named(table.channels.into(), n) == Owner::One(editor),
            None => true,
        }
    }

    /// What an editor can undo.
    pub fn kept(&self, editor: Editor) -> &Kept {
        match editor {
            Editor::Song => &self.undo.song,
            Editor::Picture => &self.undo.picture,
        }
    }

    pub(super) fn kept_mut(&mut self, editor: Editor) -> &mut Kept {
        match editor {
            Editor::Song => &mut self.undo.song,
            Editor::Picture => &mut self.undo.picture,
        }
    }
}
