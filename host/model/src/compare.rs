//! The comparison: one script run on the proved core and on another machine,
//! with every answer, the whole state, the records of page writes, the placed lists
//! and every buffer compared after each call.

mod call;
mod differ;
pub mod line;
pub mod listing;
pub mod lists;
pub mod mend;
mod phrases;
pub mod replay;
mod script;
pub mod take;

pub use call::{Buffers, Call, Reply};
pub use script::Script;

use crate::machine::Machine;
use plus::{kind, Answer, Channel, Chip, Editing, List, State, Undo, PLACES};
use std::fmt;

/// How often each call gave each answer number; `Call::NAMES` names the rows.
#[derive(Clone, Debug, Default)]
pub struct Tally {
    pub scripts: u64,
    pub calls: u64,
    pub answers: [[u64; 24]; Call::NAMES.len()],
    /// How many calls were made while a table held.
    pub held: u64,
    /// How often a record became full, and how often it dropped a write then.
    pub filled: u64,
    pub dropped: u64,
    /// How many LOADs met the processor off the 8255, on it, and writing a PSG
    /// register there.
    pub loads: [u64; 3],
    /// How many were a muted channel's, and beside how many of these a channel that is
    /// not muted loaded the same register.
    pub muted: [u64; 2],
    /// How often a list could not be removed for a channel's address, for its mark, and
    /// for nothing but a word between the two.
    pub in_use: [u64; 3],
    /// How many lists were placed below another one.
    pub between: u64,
}

/// Why a channel has a list in use: 0 for its address, 1 for its mark, 2 for a word
/// between.
fn why_in_use(channels: &[Channel], list: List) -> usize {
    let has = |address: u16| u32::from(address).wrapping_sub(list.address) < list.length;
    let enabled = || channels.iter().filter(|channel| channel.enabled);
    if enabled().any(|channel| has(channel.address)) {
        return 0;
    }
    match enabled().any(|channel| channel.counter > 0 && has(channel.mark)) {
        true => 1,
        false => 2,
    }
}

impl Tally {
    fn add(&mut self, call: Call, reply: Reply) {
        if let Some(row) = call.row() {
            self.calls += 1;
            self.answers[row][reply.number() as usize] += 1;
        }
        if let (Call::Line { accesses, .. }, Reply::Line(_, report)) = (call, reply) {
            for (access, reported) in accesses.into_iter().zip(report.kinds) {
                self.loads[access as usize] += u64::from(reported == kind::LOAD);
            }
        }
    }

    /// The LOADs of muted channels on a line, on a chip after it.
    fn add_muted(&mut self, reply: Reply, chip: &Chip) {
        let Reply::Line(_, report) = reply else {
            return;
        };
        let loads = |muted: bool| {
            let of = move |&n: &usize| {
                report.kinds[n] == kind::LOAD && chip.sound.channels[n].muted == muted
            };
            (0..3).filter(of).map(move |n| report.lows[n] >> 8)
        };
        for register in loads(true) {
            self.muted[0] += 1;
            self.muted[1] += u64::from(loads(false).any(|other| other == register));
        }
    }

    /// What a call on lists has come to, on a chip after it.
    fn add_lists(&mut self, call: Call, reply: Reply, chip: &Chip) {
        match (call, reply) {
            (Call::Remove(handle), Reply::Answer(Answer::ListInUse)) => {
                let list = chip.lists().find(|list| list.handle == handle);
                let list = list.expect("a list that is in use");
                self.in_use[why_in_use(&chip.sound.channels, list)] += 1;
            }
            (Call::Place { .. }, Reply::Placed(Answer::Done, placed)) => {
                let above = chip.lists().any(|list| list.address > placed.address);
                self.between += u64::from(above);
            }
            _ => {}
        }
    }

    /// What was kept for the editors before a call, and what after it.
    fn add_editing(&mut self, before: Editing, after: Editing) {
        self.held += u64::from(before.table.held);
        self.add_record(before.song, after.song);
        self.add_record(before.picture, after.picture);
    }

    /// Where a record stood before a call, and where after it.
    fn add_record(&mut self, before: Undo, after: Undo) {
        let full = |undo: Undo| usize::from(undo.count) == PLACES;
        if before.next == after.next || !full(after) {
            return;
        }
        match full(before) {
            true => self.dropped += 1,
            false => self.filled += 1,
        }
    }
}

/// A script on which the two differ.
#[derive(Debug)]
pub struct Difference {
    pub seed: u64,
    /// The shortest prefix of the script that shows it.
    pub prefix: Vec<Call>,
    /// Those of its calls that are enough to show one.
    pub enough: Vec<Call>,
    pub how: String,
}

/// Runs the scripts from `seed` on until `count` calls are made, on the core
/// and on another machine.
pub fn compare<M: Machine>(count: u64, seed: u64) -> Result<Tally, Box<Difference>> {
    let mut tally = Tally::default();
    while tally.calls < count {
        let script = Script::new(seed.wrapping_add(tally.scripts));
        tally.scripts += 1;
        if let Some((at, _)) = run::<M>(&script, &script.calls, &mut tally) {
            return Err(Box::new(shown::<M>(&script, at)));
        }
    }
    Ok(tally)
}

/// The core and another machine, each with what it is lent.
struct Two<M> {
    core: Chip,
    core_lent: Buffers,
    other: M,
    other_lent: Buffers,
}

impl<M: Machine> Two<M> {
    /// Both from reset.
    fn new(lent: &Buffers) -> Two<M> {
        Two {
            core: Chip::new(),
            core_lent: lent.clone(),
            other: M::new(),
            other_lent: lent.clone(),
        }
    }

    /// Puts both into a state.
    fn put(&mut self, state: State) {
        self.core.put(state);
        self.other.put(state);
    }

    /// A call on both: what both have replied, or how they differ in that, or after it.
    /// What they are lent is not looked at.
    fn make(&mut self, call: Call) -> Result<Reply, String> {
        let reply = call.make(&mut self.core, &mut self.core_lent);
        let expected = call.make(&mut self.other, &mut self.other_lent);
        if reply != expected {
            return Err(format!("core answers {reply:02X?}, not {expected:02X?}"));
        }
        match differ::machines(&self.core, &self.other) {
            Some(how) => Err(how),
            None => Ok(reply),
        }
    }

    /// The same, with what they are lent.
    fn make_whole(&mut self, call: Call) -> Result<Reply, String> {
        let reply = self.make(call)?;
        match self.core_lent == self.other_lent {
            true => Ok(reply),
            false => Err(self.first_byte()),
        }
    }

    /// The first lent byte that differs.
    fn first_byte(&self) -> String {
        differ::first_byte(&self.core_lent, &self.other_lent)
    }
}

/// The first call after which the two differ, and how.
fn run<M: Machine>(script: &Script, calls: &[Call], tally: &mut Tally) -> Option<(usize, String)> {
    let mut two = Two::<M>::new(&script.lent);
    if let Some(start) = script.start {
        two.put(start);
    }
    for (n, &call) in calls.iter().enumerate() {
        let before = two.core.editing;
        let reply = match two.make_whole(call) {
            Ok(reply) => reply,
            Err(how) => return Some((n, how)),
        };
        tally.add(call, reply);
        tally.add_editing(before, two.core.editing);
        tally.add_muted(reply, &two.core);
        tally.add_lists(call, reply, &two.core);
    }
    None
}

/// Runs the script again up to the call that showed a difference, and then
/// without the calls that it doesn't take.
fn shown<M: Machine>(script: &Script, at: usize) -> Difference {
    let differs = |calls: &[Call]| run::<M>(script, calls, &mut Tally::default());
    let prefix = &script.calls[..=at];
    let (_, how) = differs(prefix).expect("a script runs the same again");
    assert!(differs(&script.calls[..at]).is_none());

    let mut enough = prefix.to_vec();
    let mut size = enough.len();
    while size > 0 {
        let mut from = 0;
        while from < enough.len() {
            let mut fewer = enough.clone();
            fewer.drain(from..enough.len().min(from + size));
            match differs(&fewer) {
                Some((last, _)) => enough = fewer[..=last].to_vec(),
                None => from += size,
            }
        }
        size /= 2;
    }
    Difference {
        seed: script.seed,
        prefix: prefix.to_vec(),
        enough,
        how,
    }
}

impl fmt::Display for Difference {
    fn fmt(&self, f: &mut fmt::Formatter) -> fmt::Result {
        writeln!(f, "seed {}: {}", self.seed, self.how)?;
        writeln!(f, "the shortest prefix has {} calls:", self.prefix.len())?;
        for call in &self.prefix {
            writeln!(f, "  {call:02X?}")?;
        }
        writeln!(f, "of these, {} are enough to differ:", self.enough.len())?;
        for call in &self.enough {
            writeln!(f, "  {call:02X?}")?;
        }
        Ok(())
    }
}

impl fmt::Display for Tally {
    fn fmt(&self, f: &mut fmt::Formatter) -> fmt::Result {
        writeln!(f, "{} calls in {} scripts", self.calls, self.scripts)?;
        for (name, answers) in Call::NAMES.iter().zip(&self.answers) {
            write!(f, "{name:12}")?;
            for (number, times) in answers.iter().enumerate() {
                if *times != 0 {
                    write!(f, "  {number}: {times}")?;
                }
            }
            writeln!(f)?;
        }
        let (held, filled, dropped) = (self.held, self.filled, self.dropped);
        writeln!(f, "a table held at {held} calls")?;
        writeln!(
            f,
            "a record was filled {filled} times and dropped {dropped} writes"
        )?;
        let [off, on, psg_write] = self.loads;
        writeln!(
            f,
            "LOADs met the processor off the 8255 {off} times, on it {on}, in a PSG write {psg_write}"
        )?;
        let [muted, beside] = self.muted;
        writeln!(
            f,
            "{muted} LOADs were a muted channel's, {beside} of them beside one of the same register"
        )?;
        let [address, mark, word] = self.in_use;
        writeln!(
            f,
            "a list was in use by an address {address} times, by a mark {mark}, by a word between {word}"
        )?;
        writeln!(f, "{} lists were placed below another", self.between)
    }
}
