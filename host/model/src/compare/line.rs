//! The line's call on the core and on another machine, with each buffer of every
//! length near its own and below, in each mode, and with several of other lengths at
//! once. Where it is refused, both have to be as they were.

use super::call::{Call, Reply, SPARE};
use super::script::buffers;
use super::Two;
use crate::machine::Machine;
use crate::random::{any_accesses, any_state, Random};
use crate::under_test::IDLE;
use plus::{Answer, LINE, RAM, STORE};

/// The right lengths of RAM, pixel store and line.
const RIGHT: [usize; 3] = [RAM, STORE, LINE];

/// How often each number was answered, and how often 1 was in mode 3.
#[derive(Clone, Copy, Debug, Default)]
pub struct Tally {
    pub answers: [u64; 16],
    pub both: u64,
}

/// Every other length of each buffer alone, and some lengths of all three together,
/// in each mode.
pub fn refusals<M: Machine>() -> Result<Tally, String> {
    let mut lines = Lines::<M>::new(Random(83));
    let mut tally = Tally::default();
    for mode in 0..4 {
        for (which, right) in RIGHT.into_iter().enumerate() {
            for length in 0..=right + SPARE {
                let mut lengths = RIGHT;
                lengths[which] = length;
                tally.add(&mut lines, mode, lengths)?;
            }
        }
        for case in 0..5 * 5 * 5 {
            let [ram, store, line] = RIGHT;
            let lengths = [(ram, case % 5), (store, case / 5 % 5), (line, case / 25)];
            tally.add(&mut lines, mode, lengths.map(|(right, n)| near(right, n)))?;
        }
    }
    Ok(tally)
}

/// A length: the right one, one below or above it, none, or some other.
fn near(right: usize, n: usize) -> usize {
    match n {
        0 => right,
        1 => right - 1,
        2 => right + 1,
        3 => 0,
        _ if right == LINE => LINE - SPARE,
        _ => LINE,
    }
}

impl Tally {
    /// A call on both, with these lengths, and its answer counted.
    fn add<M: Machine>(
        &mut self,
        lines: &mut Lines<M>,
        mode: u8,
        lengths: [usize; 3],
    ) -> Result<(), String> {
        let differs = |how| format!("lengths {lengths:?} in mode {mode}: {how}");
        let answer = lines.call(mode, lengths).map_err(differs)?;
        self.answers[usize::from(answer.number())] += 1;
        self.both += u64::from(answer == Answer::WrongLength && mode == 3);
        Ok(())
    }
}

/// Lines on both.
struct Lines<M> {
    random: Random,
    two: Two<M>,
}

impl<M: Machine> Lines<M> {
    fn new(mut random: Random) -> Lines<M> {
        let two = Two::new(&buffers(&mut random));
        Lines { random, two }
    }

    /// A call on both in any state of a mode, in which all channels execute a word:
    /// what both have answered, or how they differ or have changed though they
    /// refused.
    fn call(&mut self, mode: u8, [ram, store, line]: [usize; 3]) -> Result<Answer, String> {
        let mut state = any_state(&mut self.random);
        state.gate.mode = mode;
        for channel in &mut state.sound.channels {
            (channel.enabled, channel.pause) = (true, 0);
        }
        let call = Call::Line {
            ram,
            store,
            line,
            accesses: any_accesses(&mut self.random),
        };
        let two = &mut self.two;
        let before = two.core_lent.line.clone();
        two.put(state);
        let reply = two.make(call)?;
        if two.core_lent.line != two.other_lent.line {
            return Err(two.first_byte());
        }
        let Reply::Line(answer, report) = reply else {
            return Err(format!("core answers {reply:02X?}"));
        };
        let kept = two.core.state() == state && two.core_lent.line == before && report == IDLE;
        if answer != Answer::Done && !kept {
            return Err(format!("refused with {answer}, and not as it was"));
        }
        Ok(answer)
    }
}
