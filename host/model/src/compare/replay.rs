//! Takes played on the core and on another machine. Random sessions are made by hand
//! on a recorder: their takes have to lead to its chip. The takes of all their calls,
//! refused ones with them, have to lead to the same chip on both.

use super::phrases::Writer;
use super::script::buffers;
use super::{differ, Buffers, Call};
use crate::machine::{Machine, Replay};
use crate::random::{changed_take, Random};
use crate::under_test::UnderTest;
use plus::take::{file_of, kind, Noted, Record, Recorder, Take, COUNTS};
use plus::{Answer, Chip, Editor, Table, RAM, STORE};

/// How many takes were played, what they answered, and how often each number
/// refused a call.
#[derive(Clone, Copy, Debug, Default)]
pub struct Tally {
    pub takes: u64,
    pub lines: u64,
    pub answers: [u64; 16],
    pub counts: [u64; COUNTS],
}

/// Two takes of each session: of the calls that a recorder noted, and of all calls.
pub fn sessions<M: Machine>(count: u64, seed: u64) -> Result<Tally, String> {
    let mut tally = Tally::default();
    let mut lent = buffers(&mut Random::new(seed));
    for n in seed..seed + count {
        let mut random = Random::new(n);
        if n % 64 == 0 {
            lent = buffers(&mut random);
        }
        let session = Session::new(random, &mut lent);
        let differs = |how| format!("session {n}: {how}");
        tally.recorded::<M>(&session, &lent).map_err(differs)?;
        tally.of_all::<M>(&session, &lent, n).map_err(differs)?;
    }
    Ok(tally)
}

/// A session from reset: some phrases of calls, and the table that their starts
/// give.
struct Session {
    calls: Vec<Call>,
    table: Table,
}

impl Session {
    /// What its calls put into RAM is there from the first of them.
    fn new(random: Random, lent: &mut Buffers) -> Session {
        let mut writer = Writer::new(random);
        writer.opening();
        while writer.calls.len() < 200 {
            writer.phrase();
        }
        for call in &writer.calls {
            if let Call::Ram { address, byte } = *call {
                lent.ram[usize::from(address)] = byte;
            }
        }
        let (calls, table) = for_a_take(&writer.calls);
        Session { calls, table }
    }
}

/// The calls that a take can have or go on after, with the first start's table in
/// all of them.
pub fn for_a_take(calls: &[Call]) -> (Vec<Call>, Table) {
    let given = |call: &Call| match *call {
        Call::Start(table) => Some(table),
        _ => None,
    };
    let table = calls.iter().find_map(given).unwrap_or_default();
    let one_table = |&call: &Call| match call {
        Call::Start(_) => Call::Start(table),
        call => call,
    };
    let calls = calls.iter().filter(|call| in_a_take(call)).map(one_table);
    (calls.collect(), table)
}

/// Whether a take can have the call, or go on after it. Those on lists it leaves out,
/// and placing one changes RAM.
fn in_a_take(call: &Call) -> bool {
    !matches!(
        call,
        Call::Reset | Call::Ram { .. } | Call::Area { .. } | Call::Place { .. } | Call::Remove(_)
    )
}

/// Makes a call on a recorder; whether a line has passed.
pub fn note(call: Call, recorder: &mut Recorder, lent: &mut Buffers) -> bool {
    match call {
        Call::WriteBc(byte) => recorder.write_bc(byte),
        Call::WriteBd(byte) => recorder.write_bd(byte),
        Call::Write7f(byte) => recorder.write_7f(byte),
        Call::Start(table) => recorder.start(table),
        Call::PageWrite {
            editor,
            store,
            address,
            byte,
        } => recorder.page_write(editor, &mut lent.store[..store], address, byte),
        Call::PageRead {
            editor,
            store,
            address,
            bus,
        } => {
            let store = &lent.store[..store];
            recorder.page_read(editor, store, address, bus).0
        }
        Call::Undo { editor, store } => recorder.undo(editor, &mut lent.store[..store]),
        Call::Acknowledge => recorder.acknowledge().0,
        Call::Mute { channel, on } => recorder.mute(channel, on),
        Call::Line {
            ram,
            store,
            line,
            accesses,
        } => {
            let (ram, store) = (&lent.ram[..ram], &lent.store[..store]);
            let line = &mut lent.line[..line];
            return recorder.line(ram, store, line, accesses).0 == Answer::Done;
        }
        _ => Answer::Done,
    };
    false
}

/// The records of all calls, as if each buffer had its length and lines passed in
/// mode 3 too.
fn records_of(calls: &[Call]) -> Vec<Record> {
    let mut line = 0;
    let mut records = Vec::new();
    for &call in calls {
        let (kind, address, value) = match call {
            Call::WriteBc(byte) => (kind::WRITE_BC, 0, byte),
            Call::WriteBd(byte) => (kind::WRITE_BD, 0, byte),
            Call::Write7f(byte) => (kind::WRITE_7F, 0, byte),
            Call::Start(_) => (kind::START, 0, 0),
            Call::PageWrite {
                editor,
                address,
                byte,
                ..
            } => match editor {
                Editor::Song => (kind::PAGE_WRITE, address, byte),
                Editor::Picture => (kind::PICTURE_WRITE, address, byte),
            },
            Call::Acknowledge => (kind::ACKNOWLEDGE, 0, 0),
            Call::Undo { editor, .. } => match editor {
                Editor::Song => (kind::UNDO, 0, 0),
                Editor::Picture => (kind::PICTURE_UNDO, 0, 0),
            },
            Call::Mute { channel, on } => (kind::MUTE, channel, on.into()),
            Call::Line { .. } => {
                line += 1;
                continue;
            }
            _ => continue,
        };
        records.push(Record {
            line,
            kind,
            address,
            value,
        });
    }
    records
}

/// Whether a take has so few lines that it is soon played.
fn is_short(file: &[u8]) -> bool {
    let lines = |take: Take| take.records().last().map_or(0, |record| record.line);
    Take::open(file).map_or(0, lines) < 10_000
}

/// What replay gave, with the store after it.
struct Given<M> {
    replay: Replay<M>,
    store: Vec<u8>,
}

impl<M: Machine> Given<M> {
    fn new(ram: &[u8], store: &[u8], table: Table, file: &[u8]) -> Given<M> {
        let mut store = store.to_vec();
        let replay = M::replay(ram, &mut store, table, file);
        Given { replay, store }
    }

    /// How it differs from what another machine gave.
    fn differs<N: Machine>(&self, other: &Given<N>) -> Result<(), String> {
        let numbers = |answer, bad, lines, counts: [u32; COUNTS]| {
            format!("answer {answer}, bad {bad}, lines {lines}, counts {counts:?}")
        };
        let (one, two) = (&self.replay, &other.replay);
        let core = numbers(one.answer, one.bad, one.lines, one.counts);
        let expected = numbers(two.answer, two.bad, two.lines, two.counts);
        if core != expected {
            return Err(format!("core gives {core}\nand not {expected}"));
        }
        if let Some(how) = differ::machines(&one.chip, &two.chip) {
            return Err(how);
        }
        if self.store != other.store {
            return Err(String::from("the pixel stores differ"));
        }
        Ok(())
    }
}

impl Tally {
    /// The take that a recorder makes of a session leads to the recorder's chip, and
    /// nothing in it is refused.
    fn recorded<M: Machine>(&mut self, session: &Session, lent: &Buffers) -> Result<(), String> {
        let (mut recorder, mut after) = (Recorder::new(Noted::Changes), lent.clone());
        let mut lines = 0;
        for &call in &session.calls {
            lines += u32::from(note(call, &mut recorder, &mut after));
        }
        let records = recorder.records().expect("few lines and one table");
        let table = recorder.given_table();
        assert_eq!(table, session.table);
        let file = file_of(b"a session", records).expect("records are good");
        let (ram, store) = (&lent.ram[..RAM], &lent.store[..STORE]);
        let mut core = self.play::<M>(ram, store, table, &file)?;

        // The recorder's last lines have no call behind them.
        for _ in core.replay.lines..lines {
            core.replay.chip.lines(1, ram);
        }
        core.replay.lines = lines;
        let expected = Replay {
            answer: Answer::Done,
            bad: 0,
            chip: Chip::clone(&recorder),
            lines,
            counts: [0; COUNTS],
        };
        after.store.truncate(STORE);
        core.differs(&Given {
            replay: expected,
            store: after.store,
        })
    }

    /// The take of all calls, and then with a byte changed or with another length of
    /// RAM or store.
    fn of_all<M: Machine>(
        &mut self,
        session: &Session,
        lent: &Buffers,
        n: u64,
    ) -> Result<(), String> {
        let (mut random, table) = (Random::new(n), session.table);
        let file = file_of(b"", &records_of(&session.calls)).expect("records are good");
        let (ram, store) = (&lent.ram[..RAM], &lent.store[..STORE]);
        self.play::<M>(ram, store, table, &file)?;
        let changed = changed_take(&mut random, &file);
        if random.chance(2) && is_short(&changed) {
            self.play::<M>(ram, store, table, &changed)?;
        }
        if random.chance(16) {
            self.play::<M>(&lent.ram[..RAM - 1], store, table, &changed)?;
            self.play::<M>(ram, &lent.store[..STORE + 1], table, &file)?;
        }
        Ok(())
    }

    /// Plays a take on both: what the core gave.
    fn play<M: Machine>(
        &mut self,
        ram: &[u8],
        store: &[u8],
        table: Table,
        file: &[u8],
    ) -> Result<Given<Chip>, String> {
        let core = Given::<Chip>::new(ram, store, table, file);
        core.differs(&Given::<M>::new(ram, store, table, file))?;
        self.takes += 1;
        self.lines += u64::from(core.replay.lines);
        self.answers[core.replay.answer as usize] += 1;
        for (sum, count) in self.counts.iter_mut().zip(core.replay.counts) {
            *sum += u64::from(count);
        }
        Ok(core)
    }
}
