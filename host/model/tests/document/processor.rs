//! Document 02, L6: what the processor at the 8255 takes from the LOADs of a line.

use crate::played::taken;
use model::random::{any_accesses, any_word, drawable_state, Random};
use model::under_test::{put_words, ram_with, UnderTest};
use model::{held, Machine};
use plus::{kind, Access, Answer, Report, RAM};

/// What it can do while a channel has its turn.
const ACCESSES: [Access; 3] = [Access::Off, Access::On, Access::PsgWrite];

/// All that it can do on a line.
fn cases() -> impl Iterator<Item = [Access; 3]> {
    (0..27).map(|case| [case % 3, case / 3 % 3, case / 9].map(|n| ACCESSES[n]))
}

/// A chip whose channels stand at the three words from 8000h on, some enabled.
fn at_three_words<M: Machine>(enables: u8) -> M {
    let mut chip = M::open();
    for n in 0..3 {
        chip.play(n, 0x8000 + 2 * n as u16, 0);
    }
    chip.poke(0x6C0F, enables);
    chip
}

// To each register, on each channel alone: the dead cycle, the fetch, and 8, 9
// or 10.
held!(a_load_takes_8_9_or_10, fails_with AccessesIgnored, OnTakesTwo, AccessOfChannel1);
fn a_load_takes_8_9_or_10<M: Machine>() {
    for n in 0..3 {
        let mut chip = at_three_words::<M>(1 << n);
        let before = chip.state();
        for register in 0..16 {
            let ram = ram_with(0x8000, &[register << 8 | 0x5A; 3]);
            for accesses in cases() {
                chip.put(before);
                let (answer, report) = chip.step(&ram, accesses);
                assert_eq!((answer, report.kinds[n]), (Answer::Done, kind::LOAD));
                let expected = 1 + 1 + 8 + taken(accesses[n]);
                assert_eq!(report.cycles, expected, "{accesses:?}");
            }
        }
    }
}

// Every word that is no LOAD: the dead cycle, the fetch and 1, in each case.
held!(no_other_word_is_disturbed, fails_with PauseDisturbed, OthersDisturbed);
fn no_other_word_is_disturbed<M: Machine>() {
    let mut random = Random(53);
    let mut ram = vec![0; RAM];
    let mut chip = M::new();
    let alone = [1, 2, 4].map(|enables| at_three_words::<M>(enables).state());
    for word in 0x1000..=0xFFFF {
        put_words(&mut ram, 0x8000, &[word; 3]);
        for access in ACCESSES {
            let n = random.below(3) as usize;
            let mut accesses = any_accesses(&mut random);
            accesses[n] = access;
            chip.put(alone[n]);
            let (answer, report) = chip.step(&ram, accesses);
            assert_eq!(
                (answer, report.cycles),
                (Answer::Done, 3),
                "{word:04X} {accesses:?}"
            );
        }
    }
}

// In a pause, or off: the dead cycle alone, in each case.
held!(a_channel_that_sits_out_pays_nothing, fails_with SatOutDisturbed);
fn a_channel_that_sits_out_pays_nothing<M: Machine>() {
    let loads = vec![0; RAM];
    let sat_out = Report {
        cycles: 1,
        kinds: [kind::SAT_OUT; 3],
        lows: [0; 3],
    };
    for enables in 0..8 {
        let mut chip = at_three_words::<M>(enables);
        chip.change(|state| {
            for channel in &mut state.sound.channels {
                channel.pause = 100;
            }
        });
        for accesses in cases() {
            assert_eq!(
                chip.step(&loads, accesses),
                (Answer::Done, sat_out),
                "{accesses:?}"
            );
        }
    }
}

// LOADs on all channels, whichever of them are enabled: each of these pays for
// its own access.
held!(a_load_meets_its_own_channels_access, fails_with AccessOfChannel1, AccessesIgnored);
fn a_load_meets_its_own_channels_access<M: Machine>() {
    let loads = vec![0; RAM];
    for enables in 0..8 {
        let mut chip = at_three_words::<M>(enables);
        for accesses in cases() {
            let enabled = (0..3).filter(|n| enables >> n & 1 == 1);
            let own = enabled.map(|n| 1 + 8 + taken(accesses[n]));
            let expected = 1 + own.sum::<u8>();
            let (_, report) = chip.step(&loads, accesses);
            assert_eq!(report.cycles, expected, "{enables} {accesses:?}");
        }
    }
}

// One LOAD beside words of two other kinds, which cost 2 each: the processor takes
// nothing from them.
held!(a_load_among_other_words, fails_with AccessOfChannel1, PauseDisturbed, OthersDisturbed);
fn a_load_among_other_words<M: Machine>() {
    for others in [[0x1001, 0x4000], [0x2001, 0x3000], [0x4020, 0x1000]] {
        for n in 0..3 {
            let mut words = others.to_vec();
            words.insert(n, 0x0701);
            let ram = ram_with(0x8000, &words);
            for accesses in cases() {
                let (_, report) = at_three_words::<M>(7).step(&ram, accesses);
                let expected = 1 + (1 + 8 + taken(accesses[n])) + 2 * 2;
                assert_eq!(report.cycles, expected, "{words:04X?} {accesses:?}");
            }
        }
    }
}

// Three LOADs: 28, 31 or 34, and nothing above that.
held!(three_loads_make_34, fails_with AccessesIgnored, OnTakesTwo);
fn three_loads_make_34<M: Machine>() {
    let loads = vec![0; RAM];
    let mut chip = at_three_words::<M>(7);
    for (access, cycles) in ACCESSES.into_iter().zip([28, 31, 34]) {
        assert_eq!(chip.step(&loads, [access; 3]).1.cycles, cycles);
    }
    for accesses in cases() {
        let (_, report) = chip.step(&loads, accesses);
        assert!(report.cycles <= 34, "{accesses:?}");
        assert_eq!(report.cycles == 34, accesses == [Access::PsgWrite; 3]);
    }
}

// A chip in any state over any words: the cycles alone differ, and by what is
// taken from the LOADs.
held!(all_else_is_the_same_in_every_case, fails_with LoadLost, PauseDisturbed, SatOutDisturbed);
fn all_else_is_the_same_in_every_case<M: Machine>() {
    let mut random = Random(59);
    let mut ram = vec![0; RAM];
    for place in ram.chunks_exact_mut(2) {
        place.copy_from_slice(&any_word(&mut random).to_le_bytes());
    }
    let mut chip = M::new();
    for _ in 0..1000 {
        let state = drawable_state(&mut random);
        chip.put(state);
        let (_, plain) = chip.plain_step(&ram);
        let after = chip.state();
        for accesses in cases() {
            let loads = (0..3).filter(|&n| plain.kinds[n] == kind::LOAD);
            let more: u8 = loads.map(|n| taken(accesses[n])).sum();
            let expected = Report {
                cycles: plain.cycles + more,
                ..plain
            };
            chip.put(state);
            assert_eq!(
                chip.step(&ram, accesses),
                (Answer::Done, expected),
                "{accesses:?}"
            );
            assert_eq!(chip.state(), after, "{accesses:?}");
        }
    }
}
