//! Faults of the records and of undo.

use crate::machine::Fault;
use plus::{Answer, Chip, Editor, State, STORE};

/// Puts an entry more into an editor's record: a palette byte written as it is.
fn keep_another(chip: &mut Chip, editor: Editor) {
    let (mapped, held) = (chip.gate.mapped, chip.editing.table.held);
    let byte = chip.palette[0];
    (chip.gate.mapped, chip.editing.table.held) = (true, false);
    let _ = chip.page_write(editor, &mut [0; STORE], 0x6400, byte);
    (chip.gate.mapped, chip.editing.table.held) = (mapped, held);
}

/// An undo, and then something more at the address of what it took back.
fn undone_and(
    chip: &mut Chip,
    editor: Editor,
    store: &mut [u8],
    more: impl FnOnce(&mut State, &mut [u8], usize),
) -> Answer {
    let newest = chip.record(editor).next();
    let answer = chip.undo(editor, store);
    if let (Answer::Done, Some((address, _))) = (answer, newest) {
        more(chip, store, address.into());
    }
    answer
}

writes! {
    /// Writes to DCSR are kept too.
    DcsrKept: |chip, editor, store, address, byte| {
        let answer = chip.page_write(editor, store, address, byte);
        if answer == Answer::Done && address == 0x6C0F {
            keep_another(chip, editor);
        }
        answer
    };

    /// Refused writes are kept too.
    RefusedKept: |chip, editor, store, address, byte| {
        let answer = chip.page_write(editor, store, address, byte);
        if answer != Answer::Done {
            keep_another(chip, editor);
        }
        answer
    };

    /// A write that leaves everything as it was isn't kept.
    SameNotKept: |chip, editor, store, address, byte| {
        let (before, pixels) = (**chip, store.to_vec());
        let answer = chip.page_write(editor, store, address, byte);
        let editing = chip.editing;
        chip.editing = before.editing;
        if **chip != before || store != pixels {
            chip.editing = editing;
        }
        answer
    };

    /// The record has 255 places.
    RecordOf255: |chip, editor, store, address, byte| {
        let answer = chip.page_write(editor, store, address, byte);
        let editing = &mut chip.editing;
        for record in [&mut editing.song, &mut editing.picture] {
            record.count = record.count.min(255);
        }
        answer
    };
}

/// A reset leaves the records.
pub struct RecordThroughReset;

impl Fault for RecordThroughReset {
    fn reset(chip: &mut Chip) {
        let editing = chip.editing;
        chip.reset();
        (chip.editing.song, chip.editing.picture) = (editing.song, editing.picture);
    }
}

/// Undo puts back the byte that was written.
pub struct WrittenByteBack;

impl Fault for WrittenByteBack {
    fn undo(chip: &mut Chip, editor: Editor, store: &mut [u8]) -> Answer {
        let (before, pixels) = (**chip, store.to_vec());
        let answer = chip.undo(editor, store);
        let editing = chip.editing;
        **chip = State { editing, ..before };
        store.copy_from_slice(&pixels);
        answer
    }
}

/// Undo puts back the low 4 bits of a pixel.
pub struct PixelBackBy4Bits;

impl Fault for PixelBackBy4Bits {
    fn undo(chip: &mut Chip, editor: Editor, store: &mut [u8]) -> Answer {
        undone_and(chip, editor, store, |_, store, address| {
            if let 0x4000..=0x4FFF = address {
                store[address - 0x4000] &= 0x0F;
            }
        })
    }
}

/// Undo of one byte of a start address clears the other.
pub struct OtherByteToo;

impl Fault for OtherByteToo {
    fn undo(chip: &mut Chip, editor: Editor, store: &mut [u8]) -> Answer {
        undone_and(chip, editor, store, |state, _, address| {
            if let 0x6C00..=0x6C0B = address {
                let channel = &mut state.sound.channels[(address - 0x6C00) / 4];
                channel.address &= [0x00FF, 0xFF00, 0xFFFF, 0xFFFF][address % 4];
            }
        })
    }
}

/// Undo of a split address reaches one that is already captured.
pub struct CapturedSplitBack;

impl Fault for CapturedSplitBack {
    fn undo(chip: &mut Chip, editor: Editor, store: &mut [u8]) -> Answer {
        undone_and(chip, editor, store, |state, _, address| {
            let (video, counters) = (state.video, &mut state.crtc.counters);
            if counters.held && (0x6802..=0x6803).contains(&address) {
                counters.split = u16::from_le_bytes([video.split_low, video.split_high]);
            }
        })
    }
}

/// Undo of an empty record is served.
pub struct EmptyServed;

impl Fault for EmptyServed {
    fn undo(chip: &mut Chip, editor: Editor, store: &mut [u8]) -> Answer {
        match chip.undo(editor, store) {
            Answer::NothingToUndo => Answer::Done,
            answer => answer,
        }
    }
}

/// An empty record is told before a store of another length.
pub struct EmptyFirst;

impl Fault for EmptyFirst {
    fn undo(chip: &mut Chip, editor: Editor, store: &mut [u8]) -> Answer {
        match chip.undo(editor, store) {
            Answer::WrongLength if chip.record(editor).next().is_none() => Answer::NothingToUndo,
            answer => answer,
        }
    }
}

/// Undo is refused where the page is not mapped.
pub struct UndoWhereMapped;

impl Fault for UndoWhereMapped {
    fn undo(chip: &mut Chip, editor: Editor, store: &mut [u8]) -> Answer {
        match chip.gate.mapped {
            true => chip.undo(editor, store),
            false => Answer::NotMapped,
        }
    }
}

/// Undo is refused while the chip is locked.
pub struct UndoWhereUnlocked;

impl Fault for UndoWhereUnlocked {
    fn undo(chip: &mut Chip, editor: Editor, store: &mut [u8]) -> Answer {
        match chip.lock.unlocked {
            true => chip.undo(editor, store),
            false => Answer::NotMapped,
        }
    }
}
