//! A take's calls made one by one on any machine.

use crate::machine::{Machine, Replay};
use crate::under_test::UnderTest;
use plus::take::{kind, Record, COUNTS};
use plus::{Answer, Editor, Table};

/// A machine from reset, the buffers that it is lent, and what a replay counts.
pub struct ByHand<'a, M> {
    pub chip: M,
    pub ram: &'a [u8],
    pub store: &'a mut [u8],
    /// What every start gives.
    pub table: Table,
    pub lines: u32,
    pub counts: [u32; COUNTS],
}

impl<'a, M: Machine> ByHand<'a, M> {
    pub fn new(ram: &'a [u8], store: &'a mut [u8], table: Table) -> ByHand<'a, M> {
        ByHand {
            chip: M::new(),
            ram,
            store,
            table,
            lines: 0,
            counts: [0; COUNTS],
        }
    }

    /// Steps lines until there are as many, in any mode. The processor is off the
    /// 8255, and what is drawn goes nowhere.
    pub fn step_to(&mut self, line: u32) {
        while self.lines < line {
            self.chip.step_in_any_mode(self.ram);
            self.lines += 1;
        }
    }

    /// Makes a record's call: its answer.
    pub fn call(&mut self, record: Record) -> Answer {
        let Record { address, value, .. } = record;
        let (chip, store) = (&mut self.chip, &mut *self.store);
        match record.kind {
            kind::WRITE_BC => chip.write_bc(value),
            kind::WRITE_BD => chip.write_bd(value),
            kind::WRITE_7F => chip.write_7f(value),
            kind::PAGE_WRITE => chip.page_write(Editor::Song, store, address, value),
            kind::ACKNOWLEDGE => chip.acknowledge().0,
            kind::UNDO => chip.undo(Editor::Song, store),
            kind::PICTURE_WRITE => chip.page_write(Editor::Picture, store, address, value),
            kind::PICTURE_UNDO => chip.undo(Editor::Picture, store),
            kind::START => chip.start(self.table),
            kind::MUTE => chip.mute(address, value == 1),
            other => panic!("kind {other}"),
        }
    }

    /// Counts an answer if it is a refusal.
    pub fn count(&mut self, answer: Answer) {
        if answer != Answer::Done {
            self.counts[answer as usize] += 1;
        }
    }

    /// A record played: its line reached, its call made and counted.
    pub fn play(&mut self, record: Record) {
        self.step_to(record.line);
        let answer = self.call(record);
        self.count(answer);
    }

    /// What it has come to, as a replay that was served.
    pub fn end(self) -> Replay<M> {
        Replay {
            answer: Answer::Done,
            bad: 0,
            chip: self.chip,
            lines: self.lines,
            counts: self.counts,
        }
    }
}
