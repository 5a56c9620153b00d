//! The calls on lists, on the core and on another machine: each set of reasons to refuse
//! one, and every run of a few calls in an area of a few words.

use super::call::{Buffers, Call, Reply, SPARE};
use super::script::buffers;
use super::Two;
use crate::machine::Machine;
use crate::random::Random;
use plus::{Channel, Chip, List, State, LISTS, RAM};

/// How often each number was answered.
#[derive(Clone, Copy, Debug, Default)]
pub struct Tally {
    pub area: [u64; 24],
    pub place: [u64; 24],
    pub remove: [u64; 24],
}

/// What a refused call has to leave: the state, the area, its lists, and RAM.
type Kept = (State, Option<(u32, u32)>, Vec<List>, Vec<u8>);

impl<M: Machine> Two<M> {
    fn kept(&self) -> Kept {
        let core = &self.core;
        let lists = Chip::lists(core).collect();
        (
            core.state(),
            core.bounds(),
            lists,
            self.core_lent.ram.clone(),
        )
    }

    /// A call on both, which leaves everything as it was if it is refused: its number.
    fn asked(&mut self, call: Call) -> Result<usize, String> {
        let differs = |how| format!("{call:04X?}: {how}");
        let before = self.kept();
        let reply = self.make_whole(call).map_err(differs)?;
        let number = usize::from(reply.number());
        if number != 0 && self.kept() != before {
            return Err(differs(format!("refused with {number}, and not as it was")));
        }
        if let Reply::Placed(_, placed) = reply {
            if number != 0 && (placed.address, placed.handle) != (0, 0) {
                return Err(differs(format!("refused with {number}, and {placed:?}")));
            }
        }
        Ok(number)
    }

    /// Both with an area and lists of as many bytes.
    fn with_lists(
        lent: &Buffers,
        area: Option<(u32, u32)>,
        lists: &[usize],
    ) -> Result<Two<M>, String> {
        let mut two = Two::new(lent);
        if let Some((from, upto)) = area {
            two.asked(Call::Area { from, upto })?;
        }
        for (at, &list) in lists.iter().enumerate() {
            two.asked(placing(RAM, at, list))?;
        }
        Ok(two)
    }
}

fn placing(ram: usize, at: usize, list: usize) -> Call {
    Call::Place { ram, at, list }
}

/// All sets of reasons to refuse a call, by areas, lengths, handles and channels.
pub fn refusals<M: Machine>() -> Result<Tally, String> {
    let lent = buffers(&mut Random(89));
    let mut tally = Tally::default();
    tally.areas::<M>(&lent)?;
    tally.places::<M>(&lent)?;
    tally.removals::<M>(&lent)?;
    Ok(tally)
}

/// Bounds near the edges of what an area can have, and beyond.
const BOUNDS: [u32; 15] = [
    0,
    1,
    2,
    3,
    0x7FFE,
    0x8000,
    0xFFFE,
    0xFFFF,
    0x1_0000,
    0x1_0001,
    0x1_0002,
    0x1_FFFE,
    0x2_0000,
    u32::MAX - 1,
    u32::MAX,
];

/// Areas, with the lists in them: none; an empty one; one with a handle left and a gap
/// of a word; one with no handle left; one with neither.
const PLACED: [(Option<(u32, u32)>, usize); 5] = [
    (None, 0),
    (Some((0x100, 0x1C0)), 0),
    (Some((0x100, 0x180)), LISTS - 1),
    (Some((0x100, 0x1C0)), LISTS),
    (Some((0x100, 0x180)), LISTS),
];

/// Lengths of RAM, and of a list.
const RAMS: [usize; 4] = [RAM, RAM - 1, RAM + SPARE, 0];
const LENGTHS: [usize; 13] = [0, 1, 2, 3, 4, 128, 129, 130, 192, 193, 194, RAM, RAM + 1];

/// Handles, of which the first four have lists.
const HANDLES: [u32; 12] = [0, 1, 2, 3, 4, 63, 64, 65, 128, 256, 1 << 16, u32::MAX];

/// Channels beside lists of 8 bytes at 100h, 108h, 110h and 118h: none plays; one in the
/// second; one whose mark is there, above its address; one from the first to the third;
/// one that is off; and one with no pass left.
const CHANNELS: [Channel; 6] = [
    playing(0x2000, 0x2000, 5),
    playing(0x108, 0x2000, 0),
    playing(0x20, 0x10E, 1),
    playing(0x110, 0x106, 0xFFFF),
    Channel {
        enabled: false,
        ..playing(0x108, 0x108, 5)
    },
    playing(0x2000, 0x108, 0),
];

const fn playing(address: u16, mark: u16, counter: u16) -> Channel {
    Channel {
        enabled: true,
        interrupt: false,
        prescale: 0,
        count: 0,
        address,
        pause: 0,
        counter,
        mark,
        muted: false,
    }
}

impl Tally {
    /// Any two bounds, before an area was given and after.
    fn areas<M: Machine>(&mut self, lent: &Buffers) -> Result<(), String> {
        for standing in [None, Some((2, 4))] {
            for (from, upto) in BOUNDS.into_iter().flat_map(|a| BOUNDS.map(|b| (a, b))) {
                let mut two = Two::<M>::with_lists(lent, standing, &[])?;
                self.area[two.asked(Call::Area { from, upto })?] += 1;
            }
        }
        Ok(())
    }

    fn places<M: Machine>(&mut self, lent: &Buffers) -> Result<(), String> {
        for (area, lists) in PLACED {
            for (ram, list) in RAMS.into_iter().flat_map(|a| LENGTHS.map(|b| (a, b))) {
                let mut two = Two::<M>::with_lists(lent, area, &[2; LISTS][..lists])?;
                self.place[two.asked(placing(ram, 7, list))?] += 1;
            }
        }
        Ok(())
    }

    /// Each channel beside the others, which play nothing there.
    fn removals<M: Machine>(&mut self, lent: &Buffers) -> Result<(), String> {
        for area in [None, Some((0x100, 0x180))] {
            for (n, channel) in (0..3).flat_map(|n| CHANNELS.map(|channel| (n, channel))) {
                for handle in HANDLES {
                    let mut two = Two::<M>::with_lists(lent, area, &[8; 4])?;
                    let mut state = two.core.state();
                    state.sound.channels[n] = channel;
                    two.put(state);
                    self.remove[two.asked(Call::Remove(handle))?] += 1;
                }
            }
        }
        Ok(())
    }
}

/// Every run of so many calls on lists in a small area: each places a list of one to
/// four words, or removes one of the first four handles.
pub fn small<M: Machine>((from, upto): (u32, u32), calls: u32) -> Result<Tally, String> {
    let lent = buffers(&mut Random(97));
    let (mut two, mut tally) = (Two::<M>::new(&lent), Tally::default());
    // RAM is looked at near the area, and all of it in the end.
    let near = from.saturating_sub(SPARE as u32) as usize..upto as usize + SPARE;
    for run in 0..8_usize.pow(calls) {
        two.make(Call::Reset)?;
        two.make(Call::Area { from, upto })?;
        for n in 0..calls {
            let call = match run >> (3 * n) & 7 {
                words @ 0..4 => placing(RAM, run % SPARE + n as usize, 2 * (words + 1)),
                handle => Call::Remove(handle as u32 - 4),
            };
            let differs = |how| format!("run {run:o}, call {n}: {how}");
            let reply = two.make(call).map_err(differs)?;
            if two.core_lent.ram[near.clone()] != two.other_lent.ram[near.clone()] {
                return Err(differs(two.first_byte()));
            }
            let answers = match call {
                Call::Remove(_) => &mut tally.remove,
                _ => &mut tally.place,
            };
            answers[usize::from(reply.number())] += 1;
        }
    }
    match two.core_lent == two.other_lent {
        true => Ok(tally),
        false => Err(two.first_byte()),
    }
}
