//! Faults of the two editors and their table.

use crate::machine::Fault;
use plus::{Answer, Chip, Editor, Held, Table};

/// A call made as if another table held, or none.
fn under<T>(chip: &mut Chip, table: Held, call: impl FnOnce(&mut Chip) -> T) -> T {
    let before = chip.editing.table;
    chip.editing.table = table;
    let gave = call(chip);
    chip.editing.table = before;
    gave
}

/// The sound registers: every one of them reads DCSR.
fn is_dcsr(address: u16) -> bool {
    (0x6C00..=0x6C0F).contains(&address)
}

/// What a start leaves, with the numbers of its table turned by some bits.
fn turned(table: Held, palette: u32, sprites: u32) -> Held {
    Held {
        palette: table.palette.rotate_right(palette),
        sprites: table.sprites.rotate_right(sprites),
        ..table
    }
}

reads! {
    /// A DCSR read shows the channels of both editors.
    OthersChannelsShown: |chip, editor, store, address, bus| {
        let last_raster = chip.interrupts.last_raster;
        chip.interrupts.last_raster &= chip.table().is_none() || !is_dcsr(address);
        let read = under(chip, Held::default(), |chip| {
            chip.page_read(editor, store, address, bus)
        });
        chip.interrupts.last_raster = last_raster;
        read
    };

    /// A DCSR read has bit 7 under a table too.
    Bit7Shown: |chip, editor, store, address, bus| {
        let (answer, byte) = chip.page_read(editor, store, address, bus);
        let shown = answer == Answer::Done && is_dcsr(address) && chip.interrupts.last_raster;
        (answer, byte | u8::from(shown) << 7)
    };

    /// A read of what is not the editor's gives the bus byte.
    OthersNotRead: |chip, editor, store, address, bus| {
        let mut written = chip.clone();
        match written.page_write(editor, &mut store.to_vec(), address, 0) {
            Answer::NotYours => (Answer::Done, bus),
            _ => chip.page_read(editor, store, address, bus),
        }
    };
}

writes! {
    /// A register that is not the editor's is written.
    NotYoursServed: |chip, editor, store, address, byte| match address {
        0x6C0F => chip.page_write(editor, store, address, byte),
        _ => under(chip, Held::default(), |chip| {
            chip.page_write(editor, store, address, byte)
        }),
    };

    /// A register that is not the editor's is refused as none at all.
    NotYoursAsNothing: |chip, editor, store, address, byte| {
        match chip.page_write(editor, store, address, byte) {
            Answer::NotYours => Answer::NothingThere,
            answer => answer,
        }
    };

    /// 15 where the page is not mapped.
    NotYoursUnmapped: |chip, editor, store, address, byte| {
        let mut mapped = chip.clone();
        mapped.gate.mapped = true;
        match mapped.page_write(editor, &mut store.to_vec(), address, byte) {
            Answer::NotYours => Answer::NotYours,
            _ => chip.page_write(editor, store, address, byte),
        }
    };

    /// 15 at a converter.
    ConverterOfNobody: |chip, editor, store, address, byte| {
        let holds = chip.table().is_some();
        match chip.page_write(editor, store, address, byte) {
            Answer::ConverterThere if holds => Answer::NotYours,
            answer => answer,
        }
    };

    /// 15 at 6C03h, 6C0Ch and wherever else there is no register.
    NothingOfNobody: |chip, editor, store, address, byte| {
        let holds = chip.table().is_some();
        match chip.page_write(editor, store, address, byte) {
            Answer::NothingThere if holds => Answer::NotYours,
            answer => answer,
        }
    };

    /// IVR can be written under a table.
    IvrOfBoth: |chip, editor, store, address, byte| match address {
        0x6805 => under(chip, Held::default(), |chip| {
            chip.page_write(editor, store, address, byte)
        }),
        _ => chip.page_write(editor, store, address, byte),
    };

    /// The screen registers are the song editor's.
    ScreenOfSong: |chip, editor, store, address, byte| match address {
        0x6800..=0x6804 if chip.table().is_some() && editor == Editor::Picture => {
            match chip.page_write(editor, &mut store.to_vec(), address, byte) {
                Answer::Done => Answer::NotYours,
                answer => answer,
            }
        }
        _ => chip.page_write(editor, store, address, byte),
    };

    /// A pixel is the next sprite's owner's.
    PixelOfNextSprite: |chip, editor, store, address, byte| match address {
        0x4000..=0x4FFF => {
            let table = turned(chip.editing.table, 0, 1);
            under(chip, table, |chip| chip.page_write(editor, store, address, byte))
        }
        _ => chip.page_write(editor, store, address, byte),
    };

    /// A palette entry's high byte is the next entry's owner's.
    HighByteOfNextEntry: |chip, editor, store, address, byte| match address {
        0x6401..=0x643F if address % 2 == 1 => {
            let table = turned(chip.editing.table, 1, 0);
            under(chip, table, |chip| chip.page_write(editor, store, address, byte))
        }
        _ => chip.page_write(editor, store, address, byte),
    };

    /// A DCSR write clears the interrupts of both editors' channels.
    OthersInterruptCleared: |chip, editor, store, address, byte| {
        let answer = chip.page_write(editor, store, address, byte);
        if answer == Answer::Done && address == 0x6C0F {
            for (n, channel) in chip.sound.channels.iter_mut().enumerate() {
                channel.interrupt &= byte >> (6 - n) & 1 == 0;
            }
        }
        answer
    };

    /// A DCSR write sets the enables of both editors' channels.
    OthersEnabled: |chip, editor, store, address, byte| {
        let answer = chip.page_write(editor, store, address, byte);
        if answer == Answer::Done && address == 0x6C0F {
            for (n, channel) in chip.sound.channels.iter_mut().enumerate() {
                channel.enabled = byte >> n & 1 != 0;
            }
        }
        answer
    };

    /// A DCSR write of an editor without a channel is refused.
    DcsrOfOwners: |chip, editor, store, address, byte| {
        let own = chip.table().is_none_or(|table| match editor {
            Editor::Song => table.channels & 7 != 7,
            Editor::Picture => table.channels & 7 != 0,
        });
        let mut after = chip.clone();
        match after.page_write(editor, &mut store.to_vec(), address, byte) {
            Answer::Done if address == 0x6C0F && !own => Answer::NotYours,
            _ => chip.page_write(editor, store, address, byte),
        }
    };

    /// Both editors' writes are kept in the song editor's record.
    OneRecord: |chip, editor, store, address, byte| {
        match chip.page_write(editor, &mut store.to_vec(), address, byte) {
            Answer::Done => {}
            answer => return answer,
        }
        // Taken back and made again for the other record.
        if address != 0x6C0F && editor == Editor::Picture {
            let _ = chip.undo(editor, &mut store.to_vec());
            return under(chip, Held::default(), |chip| {
                chip.page_write(Editor::Song, store, address, byte)
            });
        }
        if (0x4000..=0x4FFF).contains(&address) {
            store[usize::from(address) - 0x4000] = byte & 0x0F;
        }
        Answer::Done
    };
}

/// Undo takes back the other editor's newest write.
pub struct UndoOfOther;

impl Fault for UndoOfOther {
    fn undo(chip: &mut Chip, editor: Editor, store: &mut [u8]) -> Answer {
        chip.undo(editor.other(), store)
    }
}

/// A start leaves the records.
pub struct RecordsThroughStart;

impl Fault for RecordsThroughStart {
    fn start(chip: &mut Chip, table: Table) -> Answer {
        let before = chip.editing;
        let answer = chip.start(table);
        (chip.editing.song, chip.editing.picture) = (before.song, before.picture);
        answer
    }
}

/// A start empties the song editor's record alone.
pub struct PictureRecordThroughStart;

impl Fault for PictureRecordThroughStart {
    fn start(chip: &mut Chip, table: Table) -> Answer {
        let before = chip.editing;
        let answer = chip.start(table);
        chip.editing.picture = before.picture;
        answer
    }
}

/// The first table holds until a reset.
pub struct FirstTableStays;

impl Fault for FirstTableStays {
    fn start(chip: &mut Chip, table: Table) -> Answer {
        let first = chip.table().unwrap_or(table);
        chip.start(first)
    }
}

/// A start keeps all 8 bits of the channels' number.
pub struct ChannelsBy8Bits;

impl Fault for ChannelsBy8Bits {
    fn start(chip: &mut Chip, table: Table) -> Answer {
        let answer = chip.start(table);
        chip.editing.table.channels = table.channels;
        answer
    }
}

/// A reset leaves the table.
pub struct TableThroughReset;

impl Fault for TableThroughReset {
    fn reset(chip: &mut Chip) {
        let table = chip.editing.table;
        chip.reset();
        chip.editing.table = table;
    }
}
