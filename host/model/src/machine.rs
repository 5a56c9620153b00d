//! A chip under test: the calls on it, and its state put in and read out.
//!
//! The core, the model, and the core with a fault are such machines.

mod convert;

use crate::chip::{self, Did, Kind, Model};
use plus::listing::{self, Printed, ReadBack};
use plus::mend::{self, Change, Mended};
use plus::take::{self, Opened, Record, RecordRead, Replayed, Written, COUNTS};
use plus::{
    kind, Access, Answer, Chip, Editing, Editor, Length, List, Placed, Report, State, Table,
};
use std::marker::PhantomData;
use std::mem;

/// What playing a take gives, on any machine.
#[derive(Clone, Debug)]
pub struct Replay<M> {
    pub answer: Answer,
    pub bad: usize,
    pub chip: M,
    pub lines: u32,
    pub counts: [u32; COUNTS],
}

impl<M> Replay<M> {
    /// The core's, with its chip in a machine.
    fn of(core: Replayed, machine: impl FnOnce(Chip) -> M) -> Replay<M> {
        Replay {
            answer: core.answer,
            bad: core.bad,
            chip: machine(core.chip),
            lines: core.lines,
            counts: core.counts,
        }
    }
}

/// Makes four things of one list of the calls, those on a chip and then those
/// that take none: the trait of all machines, the core as such a machine, what a
/// fault may change, and the core with a fault.
macro_rules! calls {
    (
        chip {$(
            $(#[$about:meta])* fn $call:ident($($name:ident: $type:ty),*) -> $answer:ty;
        )*}
        no_chip {$(
            $(#[$of:meta])* fn $free:ident($($given:ident: $kind:ty),*) -> $gives:ty = $core:path;
        )*}
    ) => {
        /// A chip under test.
        pub trait Machine: Sized {
            /// The chip after reset.
            fn new() -> Self;

            /// A take played from reset.
            fn replay(ram: &[u8], store: &mut [u8], table: Table, file: &[u8]) -> Replay<Self>;

            /// All of its state but the records of page writes, which are empty here, and
            /// the placed lists, of which there is no area.
            fn state(&self) -> State;

            /// Puts it into a state. A lock's stage is 0 to 16, and while no table
            /// holds its numbers are 0. The records and the lists stay.
            fn put(&mut self, state: State);

            /// An editor's record, the newest write first: addresses, and what their
            /// registers held before.
            fn record(&self, editor: Editor) -> Vec<(u16, u8)>;

            /// The bounds of the area for lists, if one was given.
            fn bounds(&self) -> Option<(u32, u32)>;

            /// The placed lists, by rising handles.
            fn lists(&self) -> Vec<List>;

            $($(#[$about])* fn $call(&mut self, $($name: $type),*) -> $answer;)*

            $($(#[$of])* fn $free($($given: $kind),*) -> $gives;)*
        }

        impl Machine for Chip {
            fn new() -> Chip {
                Chip::new()
            }

            fn replay(ram: &[u8], store: &mut [u8], table: Table, file: &[u8]) -> Replay<Chip> {
                Replay::of(take::replay(ram, store, table, file), |chip| chip)
            }

            fn state(&self) -> State {
                without_lent(self)
            }

            fn put(&mut self, state: State) {
                put_beside_lent(self, state);
            }

            fn record(&self, editor: Editor) -> Vec<(u16, u8)> {
                Chip::record(self, editor).collect()
            }

            fn bounds(&self) -> Option<(u32, u32)> {
                Chip::bounds(self)
            }

            fn lists(&self) -> Vec<List> {
                Chip::lists(self).collect()
            }

            $(fn $call(&mut self, $($name: $type),*) -> $answer {
                Chip::$call(self, $($name),*)
            })*

            $(fn $free($($given: $kind),*) -> $gives {
                $core($($given),*)
            })*
        }

        /// A fault: the calls that it spoils. All others are the core's.
        pub trait Fault {
            /// A take played from reset.
            fn replay(ram: &[u8], store: &mut [u8], table: Table, file: &[u8]) -> Replayed {
                take::replay(ram, store, table, file)
            }

            $($(#[$about])* fn $call(chip: &mut Chip, $($name: $type),*) -> $answer {
                chip.$call($($name),*)
            })*

            $($(#[$of])* fn $free($($given: $kind),*) -> $gives {
                $core($($given),*)
            })*
        }

        impl<F: Fault> Machine for Faulty<F> {
            fn new() -> Faulty<F> {
                Faulty(Chip::new(), PhantomData)
            }

            fn replay(
                ram: &[u8],
                store: &mut [u8],
                table: Table,
                file: &[u8],
            ) -> Replay<Faulty<F>> {
                let replayed = F::replay(ram, store, table, file);
                Replay::of(replayed, |chip| Faulty(chip, PhantomData))
            }

            fn state(&self) -> State {
                without_lent(&self.0)
            }

            fn put(&mut self, state: State) {
                put_beside_lent(&mut self.0, state);
            }

            fn record(&self, editor: Editor) -> Vec<(u16, u8)> {
                self.0.record(editor).collect()
            }

            fn bounds(&self) -> Option<(u32, u32)> {
                self.0.bounds()
            }

            fn lists(&self) -> Vec<List> {
                self.0.lists().collect()
            }

            $(fn $call(&mut self, $($name: $type),*) -> $answer {
                F::$call(&mut self.0, $($name),*)
            })*

            $(fn $free($($given: $kind),*) -> $gives {
                F::$free($($given),*)
            })*
        }
    };
}

calls! {
    chip {
        /// A reset.
        fn reset() -> ();

        /// A byte to BCxx.
        fn write_bc(byte: u8) -> Answer;

        /// A 6845 data write.
        fn write_bd(byte: u8) -> Answer;

        /// A byte to 7Fxx.
        fn write_7f(byte: u8) -> Answer;

        /// The table given.
        fn start(table: Table) -> Answer;

        /// A page read: the answer and the byte.
        fn page_read(editor: Editor, store: &[u8], address: u16, bus: u8) -> (Answer, u8);

        /// A page write.
        fn page_write(editor: Editor, store: &mut [u8], address: u16, byte: u8) -> Answer;

        /// An editor's newest page write taken back.
        fn undo(editor: Editor, store: &mut [u8]) -> Answer;

        /// The area for lists given.
        fn area(from: u32, upto: u32) -> Answer;

        /// A list placed: the answer, and where it is.
        fn place(ram: &mut [u8], list: &[u8]) -> (Answer, Placed);

        /// The list of a handle removed.
        fn remove(handle: u32) -> Answer;

        /// The registers exported.
        fn export(out: &mut [u8]) -> Answer;

        /// An acknowledge: the answer and the vector.
        fn acknowledge() -> (Answer, u8);

        /// A channel muted, or heard again.
        fn mute(channel: u16, on: bool) -> Answer;

        /// The current line drawn and stepped, with what the processor does at the
        /// 8255.
        fn line(
            ram: &[u8], store: &[u8], line: &mut [u8], accesses: [Access; 3]
        ) -> (Answer, Report);
    }

    no_chip {
        /// The forecast of a sound list.
        fn forecast(ram: &[u8], start: u16, prescale: u8) -> Length = plus::forecast;

        /// The grey of a palette entry's two bytes.
        fn grey(low: u8, high: u8) -> u8 = plus::grey;

        /// Words printed as text.
        fn print(words: &[u16], text: &mut [u8]) -> Printed = listing::print;

        /// A text read back as words.
        fn read(text: &[u8], words: &mut [u16]) -> ReadBack = listing::read;

        /// Words mended, so many of a buffer.
        fn mend(words: &mut [u16], used: usize, report: &mut [u64]) -> Mended = mend::mend;

        /// A report's change of a number.
        fn mend_change(report: &[u64], number: usize) -> Change = mend::change;

        /// A record as a number.
        fn take_pack(record: Record) -> u64 = take::pack;

        /// The record in a number.
        fn take_unpack(number: u64) -> Record = take::unpack;

        /// A take written.
        fn take_write(comment: &[u8], records: &[u64], output: &mut [u8]) -> Written =
            take::write;

        /// A take opened.
        fn take_open(file: &[u8]) -> Opened = take::open;

        /// A take's record of a number.
        fn take_record(file: &[u8], number: usize) -> RecordRead = take::record_at;
    }
}

/// The core with a fault.
pub struct Faulty<F>(Chip, PhantomData<F>);

/// The core's state with empty records and no lists: where these stand in their lent
/// places is no part of what a machine has to be.
fn without_lent(chip: &Chip) -> State {
    State {
        editing: Editing {
            table: chip.editing.table,
            ..Editing::default()
        },
        ..**chip
    }
}

/// The core in another state, with the records and the lists that it has.
fn put_beside_lent(chip: &mut Chip, state: State) {
    **chip = State {
        editing: Editing {
            table: state.editing.table,
            ..chip.editing
        },
        ..state
    };
}

impl Machine for Model {
    fn new() -> Model {
        Model::new()
    }

    fn replay(ram: &[u8], store: &mut [u8], table: Table, file: &[u8]) -> Replay<Model> {
        let chip::Replay {
            answer: number,
            bad,
            chip,
            lines,
            counts,
        } = chip::replay(ram, store, table.into(), file);
        Replay {
            answer: answer(number),
            bad,
            chip,
            lines,
            counts,
        }
    }

    fn state(&self) -> State {
        State::from(self)
    }

    fn put(&mut self, state: State) {
        let (undo, lists) = (mem::take(&mut self.undo), self.lists.take());
        *self = Model::from(state);
        (self.undo, self.lists) = (undo, lists);
    }

    fn record(&self, editor: Editor) -> Vec<(u16, u8)> {
        self.kept(editor.into()).iter().rev().copied().collect()
    }

    fn bounds(&self) -> Option<(u32, u32)> {
        let area = self.lists.as_ref()?;
        Some((area.from, area.upto))
    }

    fn lists(&self) -> Vec<List> {
        let lists = self.lists.iter().flat_map(|area| &area.lists);
        let mut lists: Vec<List> = lists.map(|&list| list.into()).collect();
        lists.sort_by_key(|list| list.handle);
        lists
    }

    fn reset(&mut self) {
        *self = Model::new();
    }

    fn write_bc(&mut self, byte: u8) -> Answer {
        answer(Model::write_bc(self, byte))
    }

    fn write_bd(&mut self, byte: u8) -> Answer {
        answer(Model::write_bd(self, byte))
    }

    fn write_7f(&mut self, byte: u8) -> Answer {
        answer(Model::write_7f(self, byte))
    }

    fn start(&mut self, table: Table) -> Answer {
        answer(Model::start(self, table.into()))
    }

    fn page_read(&mut self, editor: Editor, store: &[u8], address: u16, bus: u8) -> (Answer, u8) {
        let (number, byte) = Model::page_read(self, editor.into(), store, address, bus);
        (answer(number), byte)
    }

    fn page_write(&mut self, editor: Editor, store: &mut [u8], address: u16, byte: u8) -> Answer {
        answer(Model::page_write(self, editor.into(), store, address, byte))
    }

    fn undo(&mut self, editor: Editor, store: &mut [u8]) -> Answer {
        answer(Model::undo(self, editor.into(), store))
    }

    fn area(&mut self, from: u32, upto: u32) -> Answer {
        answer(Model::area(self, from, upto))
    }

    fn place(&mut self, ram: &mut [u8], list: &[u8]) -> (Answer, Placed) {
        let (number, address, handle) = Model::place(self, ram, list);
        (answer(number), Placed { address, handle })
    }

    fn remove(&mut self, handle: u32) -> Answer {
        answer(Model::remove(self, handle))
    }

    fn export(&mut self, out: &mut [u8]) -> Answer {
        answer(Model::export(self, out))
    }

    fn acknowledge(&mut self) -> (Answer, u8) {
        let (number, vector) = Model::acknowledge(self);
        (answer(number), vector)
    }

    fn mute(&mut self, channel: u16, on: bool) -> Answer {
        answer(Model::mute(self, channel, on))
    }

    fn line(
        &mut self,
        ram: &[u8],
        store: &[u8],
        line: &mut [u8],
        accesses: [Access; 3],
    ) -> (Answer, Report) {
        let accesses = accesses.map(Into::into);
        let (number, report) = Model::line(self, ram, store, line, accesses);
        (answer(number), in_numbers(&report))
    }

    fn forecast(ram: &[u8], start: u16, prescale: u8) -> Length {
        let told = chip::forecast(ram, start, prescale);
        let list = chip::list(ram, start);
        let offset = if list.is_empty() {
            0
        } else {
            list.as_ptr() as usize - ram.as_ptr() as usize
        };
        Length {
            answer: answer(told.answer),
            lines: told.lines,
            cycles: told.cycles,
            most: told.most,
            offset: offset as u32,
            length: list.len() as u32,
        }
    }

    fn grey(low: u8, high: u8) -> u8 {
        chip::grey(low, high)
    }

    fn print(words: &[u16], text: &mut [u8]) -> Printed {
        let (number, size) = chip::print(words, text);
        Printed {
            answer: answer(number),
            size,
        }
    }

    fn read(text: &[u8], words: &mut [u16]) -> ReadBack {
        let (number, count, line) = chip::read(text, words);
        ReadBack {
            answer: answer(number),
            count,
            line,
        }
    }

    fn mend(words: &mut [u16], used: usize, report: &mut [u64]) -> Mended {
        let (number, used, changes) = chip::mend(words, used, report);
        Mended {
            answer: answer(number),
            used,
            changes,
        }
    }

    fn mend_change(report: &[u64], number: usize) -> Change {
        let (place, old, new) = chip::change(report, number);
        Change { place, old, new }
    }

    fn take_pack(record: Record) -> u64 {
        chip::Record::from(record).number()
    }

    fn take_unpack(number: u64) -> Record {
        chip::Record::from_number(number).into()
    }

    fn take_write(comment: &[u8], records: &[u64], output: &mut [u8]) -> Written {
        let (number, size, bad) = chip::take_write(comment, records, output);
        Written {
            answer: answer(number),
            size,
            bad,
        }
    }

    fn take_open(file: &[u8]) -> Opened {
        let (number, bad, count, offset) = chip::take_open(file);
        Opened {
            answer: answer(number),
            bad,
            count,
            offset,
        }
    }

    fn take_record(file: &[u8], number: usize) -> RecordRead {
        let (number, record) = chip::take_record(file, number);
        RecordRead {
            answer: answer(number),
            record: record.into(),
        }
    }
}

/// The answer of a number that the model gives.
fn answer(number: u8) -> Answer {
    Answer::try_from(number).expect("the model answers a number of the table")
}

/// The model's report as the C interface numbers it.
fn in_numbers(report: &chip::Report) -> Report {
    Report {
        cycles: report.cycles,
        kinds: report.did.map(|did| match did {
            Did::SatOut => kind::SAT_OUT,
            Did::Executed(Kind::Load, _) => kind::LOAD,
            Did::Executed(Kind::Pause, _) => kind::PAUSE,
            Did::Executed(Kind::Repeat, _) => kind::REPEAT,
            Did::Executed(Kind::Control, _) => kind::CONTROL,
            Did::Executed(Kind::Nothing, _) => kind::NOTHING,
        }),
        lows: report.did.map(|did| match did {
            Did::SatOut => 0,
            Did::Executed(_, low) => low,
        }),
    }
}
