//! A take played from reset.

use super::take::opened;
use super::{answer, Access, Editor, Model, Record, Table, RAM, STORE};

/// How far a replay came. `counts` has how often each number refused a call.
#[derive(Clone, Debug)]
pub struct Replay {
    pub answer: u8,
    pub bad: usize,
    pub chip: Model,
    pub lines: u32,
    pub counts: [u32; 24],
}

/// Plays a take from reset, with the table that its starts give. Nothing is played
/// where it is refused.
pub fn replay(ram: &[u8], store: &mut [u8], table: Table, file: &[u8]) -> Replay {
    let mut replay = Replay {
        answer: answer::DONE,
        bad: 0,
        chip: Model::new(),
        lines: 0,
        counts: [0; 24],
    };
    if ram.len() != RAM || store.len() != STORE {
        replay.answer = answer::WRONG_LENGTH;
        return replay;
    }
    match opened(file) {
        Err((refusal, bad)) => (replay.answer, replay.bad) = (refusal, bad),
        Ok((_, records)) => {
            for record in records {
                replay.play(record, ram, store, table);
            }
        }
    }
    replay
}

impl Replay {
    /// Steps up to the record's line, and makes its call.
    fn play(&mut self, record: Record, ram: &[u8], store: &mut [u8], table: Table) {
        for _ in self.lines..record.line {
            self.chip.step(ram, [Access::Off; 3]);
        }
        self.lines = record.line;
        let Record { address, value, .. } = record;
        let chip = &mut self.chip;
        let answer = match record.kind {
            1 => chip.write_bc(value),
            2 => chip.write_bd(value),
            3 => chip.write_7f(value),
            4 => chip.page_write(Editor::Song, store, address, value),
            5 => chip.acknowledge().0,
            6 => chip.undo(Editor::Song, store),
            7 => chip.page_write(Editor::Picture, store, address, value),
            8 => chip.undo(Editor::Picture, store),
            9 => chip.start(table),
            _ => chip.mute(address, value == 1),
        };
        if answer != answer::DONE {
            self.counts[usize::from(answer)] += 1;
        }
    }
}
