//! Request L9's claim on random runs: two runs from one state that differ in one
//! editor's calls alone, and what the other editor sees of them.
//!
//! A [`Pair`] meets the claim's premises, or all but some. [`Pair::run`] makes both
//! of its runs side by side on a machine and says where the editor that watches can
//! tell one from the other.

mod pair;
mod view;

pub use pair::{Pair, Step};

use crate::compare::{Buffers, Call, Reply};
use crate::machine::Machine;
use plus::{Editor, List};
use view::View;

/// What the claim asks of two runs, beside that they differ in one editor's calls.
#[derive(Clone, Copy, Debug, PartialEq, Eq)]
pub struct Premises {
    /// IVR bit 0 is 1, so that an acknowledge leaves a channel's interrupt.
    pub ivr_bit_0: bool,
    /// The editor that watches reads what it owns and DCSR, and nothing else.
    pub own_reads: bool,
    /// A start gives the table that holds.
    pub one_table: bool,
    /// The host's removals of lists get the same answers in both.
    pub same_removals: bool,
}

impl Premises {
    /// All of them.
    pub const ALL: Premises = Premises {
        ivr_bit_0: true,
        own_reads: true,
        one_table: true,
        same_removals: true,
    };
}

/// What happened in pairs of runs in which nothing was felt.
#[derive(Clone, Copy, Debug, Default)]
pub struct Seen {
    /// How often a page write, a page read and an undo of the editor that watches
    /// gave each number.
    pub writes: [u64; 24],
    pub reads: [u64; 24],
    pub undos: [u64; 24],
    /// How often the host's placings and removals of lists did.
    pub places: [u64; 24],
    pub removals: [u64; 24],
    /// And its mutes.
    pub mutes: [u64; 24],
    /// Pairs that ended early, at a removal that was answered differently.
    pub ended: u64,
    /// Calls of the other one that were served in one of the runs.
    pub others: u64,
    /// Pairs whose runs ended in different states.
    pub apart: u64,
}

impl Seen {
    fn add(&mut self, call: Call, reply: Reply) {
        let row = match call {
            Call::PageWrite { .. } => &mut self.writes,
            Call::PageRead { .. } => &mut self.reads,
            Call::Undo { .. } => &mut self.undos,
            Call::Place { .. } => &mut self.places,
            Call::Remove(_) => &mut self.removals,
            Call::Mute { .. } => &mut self.mutes,
            _ => return,
        };
        row[usize::from(reply.number())] += 1;
    }
}

/// One of the two runs.
struct Run<M> {
    machine: M,
    lent: Buffers,
}

impl<M: Machine> Run<M> {
    /// From reset, after the calls that both begin with.
    fn new(pair: &Pair) -> Run<M> {
        let mut run = Run {
            machine: M::new(),
            lent: pair.lent.clone(),
        };
        for &call in &pair.before {
            run.make(call);
        }
        run
    }

    fn make(&mut self, call: Call) -> Reply {
        call.make(&mut self.machine, &mut self.lent)
    }
}

/// Who makes a call, if it is an editor's.
fn maker(call: Call) -> Option<Editor> {
    match call {
        Call::PageRead { editor, .. }
        | Call::PageWrite { editor, .. }
        | Call::Undo { editor, .. } => Some(editor),
        _ => None,
    }
}

/// The area for lists, those in it, and RAM.
type Room<'a> = (Option<(u32, u32)>, Vec<List>, &'a [u8]);

impl<M: Machine> Run<M> {
    /// Which channels are muted.
    fn mutes(&self) -> [bool; 3] {
        let channels = self.machine.state().sound.channels;
        channels.map(|channel| channel.muted)
    }

    fn room(&self) -> Room<'_> {
        let machine = &self.machine;
        (machine.bounds(), machine.lists(), &self.lent.ram)
    }
}

impl Pair {
    /// Both runs: an answer of the watching editor's that differs, or a part of what
    /// it owns or of its record, or a mute mark, after any call. Where a removal has to get the same
    /// answer and doesn't, the runs end before it.
    pub fn run<M: Machine>(&self, seen: &mut Seen) -> Result<(), String> {
        let mut runs = [Run::<M>::new(self), Run::<M>::new(self)];
        let ivr = runs[0].machine.state().interrupts.ivr;
        for (n, step) in self.steps.iter().enumerate() {
            let differs = |how: String| format!("seed {}, step {n}, {step:02X?}: {how}", self.seed);
            match step {
                Step::Both(call) => {
                    let [one, two] = runs.each_mut().map(|run| run.make(*call));
                    if one != two && self.is_no_pair(*call) {
                        seen.ended += 1;
                        break;
                    }
                    if maker(*call).is_none_or(|editor| editor == self.watching) {
                        seen.add(*call, one);
                    }
                    if one != two && self.has_to_be_same(*call) {
                        return Err(differs(format!("{one:02X?}, and {two:02X?}")));
                    }
                    if self.changes_room(*call) && runs[0].room() != runs[1].room() {
                        return Err(differs(String::from("the lists or RAM differ")));
                    }
                }
                Step::Apart(calls) => {
                    for (run, calls) in runs.iter_mut().zip(calls) {
                        for &call in calls {
                            seen.others += u64::from(run.make(call).number() == 0);
                        }
                    }
                }
            }
            let views = runs.each_ref().map(|run| self.view(run));
            views[0].differs(&views[1]).map_err(differs)?;
            if runs[0].mutes() != runs[1].mutes() {
                return Err(differs(String::from("other channels are muted")));
            }
            if runs
                .iter()
                .any(|run| run.machine.state().interrupts.ivr != ivr)
            {
                return Err(differs(String::from("IVR is another")));
            }
        }
        let states = runs.map(|run| run.machine.state());
        seen.apart += u64::from(states[0] != states[1]);
        Ok(())
    }

    /// Whether runs in which a call is answered differently are none of the claim's.
    fn is_no_pair(&self, call: Call) -> bool {
        self.premises.same_removals && matches!(call, Call::Remove(_))
    }

    /// Whether a call of both has to be answered in the same way: the watching editor's,
    /// and with the premise on removals those on lists.
    fn has_to_be_same(&self, call: Call) -> bool {
        maker(call) == Some(self.watching) || self.changes_room(call)
    }

    /// Whether a call is on lists, and these have to be the same.
    fn changes_room(&self, call: Call) -> bool {
        let on_lists = matches!(
            call,
            Call::Area { .. } | Call::Place { .. } | Call::Remove(_)
        );
        self.premises.same_removals && on_lists
    }

    fn view<'a, M: Machine>(&self, run: &'a Run<M>) -> View<'a> {
        View::of(&run.machine, &run.lent, self.watching)
    }
}
