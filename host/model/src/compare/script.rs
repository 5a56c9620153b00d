//! Scripts of calls, each made from a seed alone.

use super::call::{Buffers, Call, LISTS, SPARE};
use super::phrases::Writer;
use crate::random::{any_state, any_table, held, put_any_words, Random};
use plus::{State, EXPORT, LINE, RAM, STORE};
use std::rc::Rc;

/// A state to start from, what is lent, and the calls.
pub struct Script {
    pub seed: u64,
    /// None: each machine starts from its own reset.
    pub start: Option<State>,
    pub lent: Buffers,
    pub calls: Vec<Call>,
}

impl Script {
    pub fn new(seed: u64) -> Script {
        let mut random = Random::new(seed);
        let lent = buffers(&mut random);
        let start = match random.chance(2) {
            true => None,
            false => Some(any_start(&mut random)),
        };
        let mut writer = Writer::new(random);
        if start.is_none() {
            writer.opening();
        }
        while writer.calls.len() < 500 {
            writer.phrase();
        }
        Script {
            seed,
            start,
            lent,
            calls: writer.calls,
        }
    }
}

/// Any state of the widths that document 01 gives, with a table half of the times,
/// and half of the times whole words and bytes where the document leaves the width
/// open or nothing but a comparison reads it. Beyond its width the rest means
/// nothing there: mode, R5, R12, VC, RC, screen addresses, the split's high byte,
/// coordinates, green.
fn any_start(random: &mut Random) -> State {
    let mut state = any_state(random);
    if random.chance(2) {
        state.editing.table = held(any_table(random));
    }
    if random.chance(2) {
        return state;
    }
    state.crtc.selected = random.byte();
    state.crtc.registers.r4 = random.byte();
    state.crtc.registers.r6 = random.byte();
    state.crtc.registers.r9 = random.byte();
    for channel in &mut state.sound.channels {
        channel.address = random.word();
        channel.pause = random.word();
        channel.counter = random.word();
        channel.mark = random.word();
    }
    if state.editing.table.held {
        state.editing.table.channels = random.byte();
    }
    state
}

/// What lists are cut from: words without a STOP, and then any bytes.
pub(super) fn lists(r: &mut Random) -> Rc<[u8]> {
    let mut lists = vec![0; LISTS + RAM + SPARE];
    let (words, rest) = lists.split_at_mut(2 * LISTS);
    put_any_words(r, words);
    r.fill(rest);
    lists.into()
}

/// RAM of zeros, of words without a STOP, or of any bytes.
pub(super) fn buffers(r: &mut Random) -> Buffers {
    let mut lent = Buffers {
        ram: vec![0; RAM + SPARE],
        store: vec![0; STORE + SPARE],
        line: vec![0; LINE + SPARE],
        export: vec![0; EXPORT + SPARE],
        lists: lists(r),
    };
    match r.below(4) {
        0 => {}
        1 => put_any_words(r, &mut lent.ram),
        _ => r.fill(&mut lent.ram),
    }
    r.fill(&mut lent.store);
    r.fill(&mut lent.line);
    r.fill(&mut lent.export);
    lent
}
