//! Document 02, L11: the current line drawn and stepped by one call.

use crate::played::off;
use model::random::{any_accesses, any_state, Random};
use model::under_test::{ram_with, UnderTest, IDLE};
use model::{held, Machine};
use plus::{kind, Answer, Report, State, LINE, RAM, STORE};

/// Any state of a mode in which all channels execute a word.
fn playing(random: &mut Random, mode: u8) -> State {
    let mut state = any_state(random);
    state.gate.mode = mode;
    for channel in &mut state.sound.channels {
        (channel.enabled, channel.pause) = (true, 0);
    }
    state
}

/// Calls with these lengths in each mode, where none of them is served: 1 if a length
/// is another one, and else 4.
fn is_refused<M: Machine>(random: &mut Random, [ram, store, length]: [usize; 3]) {
    let right = [ram, store, length] == [RAM, STORE, LINE];
    for mode in 0..4 {
        if right && mode != 3 {
            continue;
        }
        let mut chip = M::new();
        let before = playing(random, mode);
        chip.put(before);
        let mut line = vec![0xEE; length];
        let accesses = any_accesses(random);
        let told = chip.line(&vec![0; ram], &vec![0; store], &mut line, accesses);
        let answer = match right {
            true => Answer::ModeThree,
            false => Answer::WrongLength,
        };
        assert_eq!(told, (answer, IDLE), "{ram} {store} {length}, mode {mode}");
        assert_eq!(chip.state(), before);
        assert_eq!(line, vec![0xEE; length]);
    }
}

held!(a_length_is_refused_before_mode_3,
    fails_with ModeBeforeLengths, SteppedThoughRefused, SteppedWithOtherStore,
        SteppedWithOtherLine, SteppedInModeThree, DrawnThoughRefused, ModeThreeDrawn,
        CyclesThoughRefused);
fn a_length_is_refused_before_mode_3<M: Machine>() {
    let mut random = Random(61);
    let near = |right: usize| [right, right - 1, right + 1, 0, right / 2, 2 * right];
    for ram in near(RAM) {
        for store in near(STORE) {
            for line in near(LINE) {
                is_refused::<M>(&mut random, [ram, store, line]);
            }
        }
    }
    // The lengths of the buffers beside it.
    is_refused::<M>(&mut random, [STORE, RAM, LINE]);
    is_refused::<M>(&mut random, [RAM, LINE, STORE]);
    is_refused::<M>(&mut random, [LINE, STORE, RAM]);
}

// Line k of the screen has pen 1 at position k: what is drawn is the line before the
// step, and what is stepped to comes with the next call.
held!(the_line_before_the_step_is_drawn, fails_with SteppedBeforeDrawn);
fn the_line_before_the_step_is_drawn<M: Machine>() {
    let mut ram = vec![0; RAM];
    for k in 0..8 {
        ram[0xC000 + 2048 * k] = 0x80 >> k;
    }
    let mut chip = M::framed(38, 0);
    assert_eq!(chip.write_7f(0x82), 0);
    for k in 0..8 {
        assert_eq!(chip.state().crtc.counters.rc, k);
        let line = chip.drawn_and_stepped(&ram, &[0; STORE]);
        let ones: Vec<u8> = (0..)
            .zip(&line)
            .filter_map(|(x, &e)| (e == 1).then_some(x))
            .collect();
        assert_eq!(ones, [k]);
    }
    // A split captured on line 8 is the next line's address, and not this one's.
    for (address, byte) in [(0x6801, 8), (0x6802, 0x10), (0x6803, 0x00)] {
        chip.poke(address, byte);
    }
    ram[0xC050] = 0x80;
    ram[0x4800] = 0x40;
    let shown = [(), ()].map(|()| chip.drawn_and_stepped(&ram, &[0; STORE])[..3].to_vec());
    assert_eq!(shown, [[1, 0, 0], [0, 1, 0]]);
}

// The three channels' words are told with the line's cycles: LOAD, PAUSE and one that
// does nothing, 1 + 3 + 8 + 1 + 1, and a cycle more where the processor is on the 8255.
held!(a_served_line_is_told, fails_with ReportLost, AccessesIgnored);
fn a_served_line_is_told<M: Machine>() {
    let ram = ram_with(0x8000, &[0x0A55, 0x1007, 0x3ABC]);
    let mut chip = M::framed(38, 0);
    for n in 0..3 {
        chip.play(n, 0x8000 + 2 * n as u16, 0);
    }
    let before = chip.state();
    for (access, cycles) in [(0, 14), (1, 15), (2, 16)] {
        chip.put(before);
        let accesses = [plus::Access::from(access); 3];
        let mut line = [0xEE; LINE];
        let told = chip.line(&ram, &[0; STORE], &mut line, accesses);
        let report = Report {
            cycles,
            kinds: [kind::LOAD, kind::PAUSE, kind::NOTHING],
            lows: [0xA55, 0x007, 0xABC],
        };
        assert_eq!(told, (Answer::Done, report));
        assert_eq!(line, [0; LINE]);
        let after = chip.state();
        assert_eq!(
            (after.sound.psg[10], after.sound.channels[1].pause),
            (0x55, 7)
        );
        assert_eq!(after.crtc.counters.rc, 1);
    }
}

// LOAD, PAUSE 2, STOP take 4 lines. Refused calls among them, of each sort, pass none,
// and the frame goes on where it was.
held!(lines_are_the_served_calls,
    fails_with SteppedThoughRefused, SteppedWithOtherStore, SteppedWithOtherLine,
        SteppedInModeThree, ModeThreeDrawn);
fn lines_are_the_served_calls<M: Machine>() {
    let ram = ram_with(0x8000, &[0x0738, 0x1002, 0x4020]);
    let told = M::forecast(&ram, 0x8000, 0);
    assert_eq!((told.answer, told.lines), (Answer::Done, 4));
    let mut chip = M::framed(38, 0);
    chip.play(0, 0x8000, 0);
    for passed in 0..4 {
        assert!(chip.state().sound.channels[0].enabled);
        assert_eq!(chip.state().crtc.counters.rc, passed);
        let [store, line] = [[0; STORE], [0; STORE]];
        for (store, line) in [
            (&store[1..], &line[..LINE]),
            (&store[..], &line[..LINE - 1]),
        ] {
            assert_eq!(chip.line(&ram, store, &mut line.to_vec(), off()).0, 1);
        }
        assert_eq!(chip.plain_step(&ram[1..]).0, 1);
        assert_eq!(chip.write_7f(0x83), 0);
        assert_eq!(chip.plain_step(&ram).0, 4);
        assert_eq!(chip.write_7f(0x80 | (passed % 3)), 0);
        assert_eq!(chip.plain_step(&ram).0, 0);
    }
    assert!(!chip.state().sound.channels[0].enabled);
    assert_eq!(chip.state().crtc.counters.rc, 4);
}

// What a step leaves and tells doesn't hang on the pixels, nor on the sprites, nor on
// which of the three modes it is; and what is drawn not on the processor.
held!(drawing_and_stepping_know_nothing_of_each_other, fails_with ReportLost);
fn drawing_and_stepping_know_nothing_of_each_other<M: Machine>() {
    let mut random = Random(67);
    let mut ram = vec![0; RAM];
    random.fill(&mut ram);
    let mut chip = M::new();
    for _ in 0..500 {
        let state = playing(&mut random, 0);
        let (mut pixels, mut lines, mut told) = ([0; STORE], vec![], vec![]);
        let accesses = any_accesses(&mut random);
        for mode in [0, 1, 2] {
            let mut drawn = state;
            drawn.gate.mode = mode;
            drawn.sprites = any_state(&mut random).sprites;
            random.fill(&mut pixels);
            let mut line = [0xEE; LINE];
            chip.put(drawn);
            let (answer, report) = chip.line(&ram, &pixels, &mut line, accesses);
            assert!(report.cycles >= 1);
            let mut after = chip.state();
            (after.gate.mode, after.sprites) = (0, state.sprites);
            told.push((answer, report, after));
            chip.put(drawn);
            let mut again = [0x11; LINE];
            let _ = chip.line(&ram, &pixels, &mut again, off());
            lines.push((line, again));
        }
        assert!(told.iter().all(|one| *one == told[0]));
        assert!(lines.iter().all(|(line, again)| line == again));
    }
}
