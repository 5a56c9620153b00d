//! Request L13: a channel muted, which plays on and leaves the PSG.

use crate::kept::addresses;
use crate::played::{off, taken, Played};
use model::random::{any_accesses, any_state, drawable_state, put_any_words, Random};
use model::under_test::{put_words, ram_with, UnderTest};
use model::{held, Machine};
use plus::mend::CHANGE;
use plus::take::{kind as take_kind, Record, TRAILER};
use plus::Editor::{Picture, Song};
use plus::{kind, Access, Answer, Report, Sound, State, Table, EXPORT, RAM, STORE};

/// Which channels are muted.
fn marks<M: Machine>(chip: &M) -> [bool; 3] {
    chip.state().sound.channels.map(|channel| channel.muted)
}

/// Mutes those that a set has, and lets the others be heard.
fn mute_all<M: Machine>(chip: &mut M, marks: [bool; 3]) {
    for (n, on) in (0..).zip(marks) {
        assert_eq!(chip.mute(n, on), Answer::Done);
    }
}

/// Every set of channels.
fn sets() -> [[bool; 3]; 8] {
    [0, 1, 2, 3, 4, 5, 6, 7].map(|set| [1, 2, 4].map(|bit| set & bit != 0))
}

/// A state with the channels of a set muted, and no other.
fn with_marks(mut state: State, marks: [bool; 3]) -> State {
    for (channel, muted) in state.sound.channels.iter_mut().zip(marks) {
        channel.muted = muted;
    }
    state
}

/// The same with no channel muted and a PSG of zeros: all that a mute may not touch.
fn rest(state: State) -> State {
    let mut state = with_marks(state, [false; 3]);
    state.sound.psg = [0; 16];
    state
}

/// The PSG after a line, from what it was before: what the reported LOADs of the
/// channels that are heard make of it, in their order.
fn psg_after(before: &Sound, report: &Report) -> [u8; 16] {
    let mut psg = before.psg;
    for n in 0..3 {
        if report.kinds[n] == kind::LOAD && !before.channels[n].muted {
            let [data, register] = report.lows[n].to_le_bytes();
            psg[usize::from(register)] = data;
        }
    }
    psg
}

held!(no_channel_is_muted_after_reset, fails_with MutedAtReset, MuteThroughReset);
fn no_channel_is_muted_after_reset<M: Machine>() {
    for set in sets() {
        let mut chip = M::new();
        assert_eq!(marks(&chip), [false; 3]);
        mute_all(&mut chip, set);
        chip.reset();
        assert_eq!(marks(&chip), [false; 3]);
        assert_eq!(chip.state(), M::new().state());
    }
}

held!(a_mute_sets_its_mark_and_nothing_else,
    fails_with PauseEndedByMute, OffByMute, VolumeByMute, MuteTurns, NeverHeardAgain);
fn a_mute_sets_its_mark_and_nothing_else<M: Machine>() {
    let mut random = Random(101);
    let mut chip = M::open();
    chip.poke(0x6400, 5);
    chip.poke_by(Picture, 0x6400, 6);
    for _ in 0..2_000 {
        let state = any_state(&mut random);
        chip.put(state);
        let (n, on) = (random.below(3) as usize, random.chance(2));
        let mut expected = state;
        expected.sound.channels[n].muted = on;
        // Twice is once.
        for _ in 0..2 {
            assert_eq!(chip.mute(n as u16, on), 0);
            assert_eq!(chip.state(), expected);
        }
    }
    assert_eq!(chip.record(Song), [(0x6400, 0)]);
    assert_eq!(chip.record(Picture), [(0x6400, 5)]);
}

// All 16 bits count: 256 has the low byte of channel 0, and is none.
held!(no_other_channel_can_be_muted, fails_with Channel3Served, ChannelBy8Bits, MutedThoughRefused);
fn no_other_channel_can_be_muted<M: Machine>() {
    let mut chip = M::open();
    for set in [[false; 3], [true; 3], [true, false, true]] {
        mute_all(&mut chip, set);
        let before = chip.state();
        for channel in 3..=0xFFFF {
            for on in [true, false] {
                assert_eq!(chip.mute(channel, on), 3, "{channel}");
            }
        }
        assert_eq!(chip.state(), before);
    }
}

// LOADs one after the other, with what the processor does: 9 cycles and what it takes,
// beside the dead one. The register is the document's 4 bits, the data its 8.
held!(a_muted_load_is_all_but_heard,
    fails_with MutedLoadHeard, MutedLoadFree, MutedLoadSitsOut, MutedLoadWithoutBits, MutedNotMoved);
fn a_muted_load_is_all_but_heard<M: Machine>() {
    let loads: Vec<u16> = (0..16).map(|register| register << 8 | 0x5A).collect();
    let ram = ram_with(0x8000, &loads);
    for (n, access) in [0, 1, 2]
        .into_iter()
        .zip([Access::Off, Access::On, Access::PsgWrite])
    {
        let mut chip = M::open();
        chip.play(n, 0x8000, 0);
        chip.change(|state| state.sound.psg = [0x77; 16]);
        assert_eq!(chip.mute(n as u16, true), 0);
        for (place, &word) in (0..).zip(&loads) {
            let (answer, report) = chip.step(&ram, [access; 3]);
            let mut expected = Report {
                cycles: 1 + 9 + taken(access),
                kinds: [kind::SAT_OUT; 3],
                lows: [0; 3],
            };
            (expected.kinds[n], expected.lows[n]) = (kind::LOAD, word);
            assert_eq!((answer, report), (Answer::Done, expected));
            let sound = chip.state().sound;
            assert_eq!(sound.channels[n].address, 0x8002 + 2 * place);
            assert_eq!(sound.psg, [0x77; 16]);
        }
    }
}

// Every word on a channel that is muted beside the same on one that is not.
held!(every_word_does_what_it_does,
    fails_with MutedLoadHeard, MutedLoadFree, MutedLoadSitsOut, MutedLoadWithoutBits, MutedNotMoved);
fn every_word_does_what_it_does<M: Machine>() {
    let mut random = Random(103);
    let (mut chip, mut ram) = (M::new(), vec![0; RAM]);
    for word in 0..=0xFFFFu16 {
        let n = random.below(3) as usize;
        let mut state = drawable_state(&mut random);
        let channel = &mut state.sound.channels[n];
        (channel.enabled, channel.pause) = (true, 0);
        put_words(&mut ram, channel.address.into(), &[word]);
        let accesses = any_accesses(&mut random);
        let [heard, muted] = [false, true].map(|on| {
            state.sound.channels[n].muted = on;
            chip.put(state);
            let (answer, report) = chip.step(&ram, accesses);
            let after = chip.state();
            assert_eq!(
                after.sound.psg,
                psg_after(&state.sound, &report),
                "{word:04X}"
            );
            assert_eq!(after.sound.channels[n].muted, on);
            (answer, report, rest(after))
        });
        assert_eq!(heard, muted, "{word:04X}");
    }
}

// PAUSE 3 at prescale 1 is six lines, wherever the mute comes and goes.
held!(a_pause_goes_on, fails_with PauseEndedByMute, MutedPauseStands);
fn a_pause_goes_on<M: Machine>() {
    let ram = ram_with(0x8000, &[0x1003, 0x4020]);
    for (from, upto) in [(0, 7), (1, 7), (2, 4), (5, 6), (6, 7)] {
        let mut chip = M::open();
        chip.play(1, 0x8000, 1);
        for line in 0..7 {
            assert!(chip.state().sound.channels[1].enabled, "{from} {upto}");
            if line == from || line == upto {
                assert_eq!(chip.mute(1, line == from), 0);
            }
            chip.lines(1, &ram);
        }
        assert!(!chip.state().sound.channels[1].enabled, "{from} {upto}");
    }
}

// Three LOADs of one register, in every set of channels that are on and of those that
// are muted: the last that is heard stays.
held!(another_channel_sets_the_register,
    fails_with MutedLoadHeard, MarkOfChannel0, AllMutedByOne);
fn another_channel_sets_the_register<M: Machine>() {
    for register in 0..16u16 {
        let loads = [1, 2, 3].map(|data| register << 8 | data);
        let ram = ram_with(0x8000, &loads);
        for (muted, enabled) in sets()
            .into_iter()
            .flat_map(|set| sets().map(|on| (set, on)))
        {
            let mut chip = M::open();
            for n in 0..3 {
                chip.play(n, 0x8000 + 2 * n as u16, 0);
            }
            chip.change(|state| {
                state.sound.psg = [9; 16];
                for (channel, on) in state.sound.channels.iter_mut().zip(enabled) {
                    channel.enabled = on;
                }
            });
            mute_all(&mut chip, muted);
            chip.lines(1, &ram);
            let last = (0..3).rev().find(|&n| enabled[n] && !muted[n]);
            let mut psg = [9; 16];
            psg[usize::from(register)] = last.map_or(9, |n| n as u8 + 1);
            assert_eq!(chip.state().sound.psg, psg, "{muted:?} {enabled:?}");
        }
    }
}

// LOADs of one register, with a mute before the third and its end before the fifth.
held!(a_channel_is_heard_again, fails_with MutedLoadHeard, NeverHeardAgain);
fn a_channel_is_heard_again<M: Machine>() {
    let loads: Vec<u16> = (1..=6).map(|data| 0x0800 | data).collect();
    let ram = ram_with(0x8000, &loads);
    for n in 0..3 {
        let mut chip = M::open();
        chip.play(n, 0x8000, 0);
        let volumes = [1, 2, 3, 4, 5, 6].map(|line| {
            if line == 3 || line == 5 {
                assert_eq!(chip.mute(n as u16, line == 3), 0);
            }
            chip.lines(1, &ram);
            chip.state().sound.psg[8]
        });
        assert_eq!(volumes, [1, 2, 2, 2, 5, 6]);
    }
}

// Two chips of one state, in which a channel is muted on the one and heard on the
// other, and the others' marks are any. Line by line they tell and are the same, but for
// that mark and the PSG, and the PSG of each is what its own heard LOADs make of it.
held!(muting_one_moves_no_other,
    fails_with MutedLoadHeard, MarkOfChannel0, AllMutedByOne, MutedLoadFree, MutedLoadSitsOut,
        MutedLoadWithoutBits, MutedNotMoved, MutedPauseStands);
fn muting_one_moves_no_other<M: Machine>() {
    let mut random = Random(107);
    let mut ram = vec![0; RAM];
    put_any_words(&mut random, &mut ram);
    let mut unlike = 0;
    for _ in 0..300 {
        let (n, state) = (random.below(3) as u16, drawable_state(&mut random));
        let mut chips = [M::new(), M::new()];
        for (chip, on) in chips.iter_mut().zip([true, false]) {
            chip.put(state);
            chip.change(|state| {
                for channel in &mut state.sound.channels {
                    (channel.enabled, channel.prescale) = (true, 0);
                    channel.pause %= 4;
                }
            });
            assert_eq!(chip.mute(n, on), 0);
        }
        for _ in 0..60 {
            let accesses = any_accesses(&mut random);
            let [muted, heard] = chips.each_mut().map(|chip| {
                let before = chip.state().sound;
                let (answer, report) = chip.step(&ram, accesses);
                let after = chip.state();
                assert_eq!(after.sound.psg, psg_after(&before, &report));
                (answer, report, rest(after))
            });
            assert_eq!(muted, heard);
        }
        let [muted, heard] = chips.map(|chip| chip.state().sound.psg);
        unlike += u64::from(muted != heard);
    }
    // Most of the time there was something to hear.
    assert!(unlike >= 200, "{unlike}");
}

// Every page write of either editor, every undo, a start, an acknowledge and the ports:
// all but a mute and a reset.
held!(no_other_call_sets_a_mark, fails_with HeardByDcsr, HeardByStart, HeardByUndo);
fn no_other_call_sets_a_mark<M: Machine>() {
    for set in sets() {
        let mut chip = M::open();
        mute_all(&mut chip, set);
        for byte in 0..=255 {
            chip.poke(0x6C0F, byte);
            chip.poke_by(Picture, 0x6C0F, !byte);
        }
        assert_eq!(marks(&chip), set);
        for address in addresses() {
            chip.poke(address, 0xFF);
            chip.poke_by(Picture, address, 0x00);
            chip.take_back();
            assert_eq!(chip.undo(Picture, &mut [0; STORE]), 0);
            assert_eq!(marks(&chip), set, "{address:04X}");
        }
        // A mute is the host's: no table is in its way.
        for channels in [0, 7] {
            chip.start(Table {
                channels,
                ..Table::default()
            });
            assert_eq!(marks(&chip), set);
            mute_all(&mut chip, set);
        }
        let _ = chip.acknowledge();
        for byte in 0..=255 {
            chip.feed(&[byte]);
            let _ = chip.write_bd(byte);
            let _ = chip.write_7f(byte);
        }
        assert_eq!(marks(&chip), set);
    }
}

// No address of the page shows it, and the export has the same 477 bytes.
held!(it_is_no_register);
fn it_is_no_register<M: Machine>() {
    let shown = [[false; 3], [true; 3]].map(|set| {
        let mut chip = M::open();
        chip.play(1, 0x8000, 3);
        mute_all(&mut chip, set);
        let read: Vec<u8> = (0x4000..0x8000)
            .map(|address| chip.peek(address, 0xA5))
            .collect();
        assert_eq!(chip.export(&mut [0; EXPORT + 1]), 1);
        (read, chip.exported())
    });
    assert_eq!(EXPORT, 477);
    assert_eq!(shown[0], shown[1]);
}

/// Rows of document 01's table of forecasts with a LOAD: words, prescale, lines and
/// cycles.
const FORECASTS: [(&[u16], u8, u64, u64); 3] = [
    (&[0x0738, 0x1002, 0x4020], 0, 4, 13),
    (&[0x0738, 0x1002, 0x4020], 2, 8, 13),
    (&[0x2003, 0x080F, 0x4001, 0x4020], 0, 10, 48),
];

held!(a_muted_list_takes_its_lines_and_cycles,
    fails_with MutedLoadFree, MutedPauseStands, OffByMute);
fn a_muted_list_takes_its_lines_and_cycles<M: Machine>() {
    for (words, prescale, lines, cycles) in FORECASTS {
        for n in 0..3 {
            let ram = ram_with(0x8000, words);
            let mut chip = M::open();
            chip.play(n, 0x8000, prescale);
            assert_eq!(chip.mute(n as u16, true), 0);
            let told = M::forecast(&ram, 0x8000, prescale);
            let played = Played::of(&mut chip, &ram, n, off);
            assert_eq!((played.lines, played.cycles), (lines, cycles));
            assert_eq!((told.lines, told.cycles), (lines, cycles));
            assert_eq!(chip.state().sound.psg, [0; 16]);
        }
    }
}

/// What a list does line by line from a fresh channel 0, muted or heard: the state but
/// for mark and PSG with the cycles, and the PSG.
fn lines_of<M: Machine>(words: &[u16], muted: bool) -> (Vec<(State, u8)>, Vec<[u8; 16]>) {
    let ram = ram_with(0x8000, words);
    let mut chip = M::open();
    chip.play(0, 0x8000, 0);
    assert_eq!(chip.mute(0, muted), 0);
    let line = |_| {
        let (answer, report) = chip.plain_step(&ram);
        assert_eq!(answer, 0);
        let state = chip.state();
        ((rest(state), report.cycles), state.sound.psg)
    };
    (0..8).map(line).unzip()
}

// L10's sameness is for a channel that is not muted. An old list beside what it is
// mended to: with both heard, or both muted, the PSG is the same; where only one of them
// is muted it isn't, and nothing else is another.
held!(an_old_list_and_the_mended_one, fails_with MutedLoadHeard, MutedLoadFree);
fn an_old_list_and_the_mended_one<M: Machine>() {
    // LOAD 7 38, a reserved code, LOAD 8 0F, PAUSE 0, STOP with stray bits.
    let old = [0x0738, 0x3ABC, 0x080F, 0x1000, 0x4FEE];
    let mut mended = old;
    let given = M::mend(&mut mended, old.len(), &mut [0; CHANGE * 6]);
    assert_eq!(
        (given.answer.number(), given.used, given.changes),
        (0, 5, 3)
    );
    assert_eq!(mended, [0x0738, 0x4000, 0x080F, 0x4000, 0x4020]);
    for (first, second) in [(false, false), (true, true), (true, false), (false, true)] {
        let (one, one_psg) = lines_of::<M>(&old, first);
        let (two, two_psg) = lines_of::<M>(&mended, second);
        assert_eq!(one, two);
        assert_eq!(one_psg == two_psg, first == second);
        let mut last = [0; 16];
        (last[7], last[8]) = (0x38, 0x0F);
        for (psg, muted) in [(one_psg, first), (two_psg, second)] {
            assert_eq!(psg[7], if muted { [0; 16] } else { last });
        }
    }
}

// Kind 10 has any channel, and 1 or 0. Playing it is the test of kind 10 in L8's file.
held!(kind_10_has_a_channel_and_0_or_1, fails_with MuteWithValue2, MuteOfChannel3Bad);
fn kind_10_has_a_channel_and_0_or_1<M: Machine>() {
    assert_eq!(take_kind::MUTE, 10);
    let written = |address: u16, value: u8| {
        let record = Record {
            line: 5,
            kind: 10,
            address,
            value,
        };
        let mut file = [0; 8 + TRAILER];
        let written = M::take_write(b"", &[M::take_pack(record)], &mut file);
        (written.answer.number(), written.bad, file)
    };
    for value in 0..=255 {
        for address in [0, 1, 2, 3, 255, 256, 0xFFFF] {
            let (answer, bad, file) = written(address, value);
            let good = value <= 1;
            assert_eq!((answer, bad), if good { (0, 0) } else { (13, 1) });
            // The same record, in a file that was written by hand.
            let [low, high] = address.to_le_bytes();
            let mut by_hand = [5, 0, 0, 0, 10, low, high, value].to_vec();
            by_hand.extend([1, 0, 0, 0, 0, 0, 0, 0, b'P', b'L', b'T', b'K']);
            assert!(!good || file[..] == by_hand[..]);
            let opened = M::take_open(&by_hand);
            assert_eq!((opened.answer.number(), opened.bad), (answer, bad));
        }
    }
}
