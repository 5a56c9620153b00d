//! Document 01, "Sound", and document 02, L6: the forecast, held to its numbers
//! and to lists that are really played.

use crate::played::{off, taken, Played};
use model::random::{any_accesses, any_list, drawable_state, Random};
use model::under_test::{put_words, ram_with, UnderTest};
use model::{held, Machine};
use plus::{Access, Answer, Length, RAM};
use std::ops::RangeInclusive;

/// A served forecast of a list that begins at an even place, with its least and
/// its most cycles.
fn served(lines: u64, cycles: RangeInclusive<u64>, start: usize, words: usize) -> Length {
    Length {
        answer: Answer::Done,
        lines,
        cycles: *cycles.start(),
        most: *cycles.end(),
        offset: start as u32,
        length: 2 * words as u32,
    }
}

fn refused(number: u8) -> Length {
    Length {
        answer: Answer::try_from(number).unwrap(),
        lines: 0,
        cycles: 0,
        most: 0,
        offset: 0,
        length: 0,
    }
}

/// What it has to say of a list that was played.
fn foretold(played: Played, start: usize, words: usize) -> Length {
    let least = played.cycles - played.taken;
    let most = least + 2 * played.loads;
    served(played.lines, least..=most, start, words)
}

/// A list at 8000h has these lines and from the least to the most cycles, by the
/// forecast and played.
fn takes<M: Machine>(words: &[u16], prescale: u8, lines: u64, cycles: RangeInclusive<u64>) {
    let ram = ram_with(0x8000, words);
    // Each pass of a LOAD can take two more.
    let loads = (cycles.end() - cycles.start()) / 2;
    let expected = served(lines, cycles, 0x8000, words.len());
    for start in [0x8000, 0x8001] {
        let told = M::forecast(&ram, start, prescale);
        assert_eq!(told, expected, "{words:04X?}");
        assert_eq!(told.list(&ram), &ram[0x8000..0x8000 + 2 * words.len()]);
    }
    for case in 0..9 {
        let (n, access) = (case / 3, Access::from(case as u8 % 3));
        let mut chip = M::open();
        chip.play(n, 0x8000, prescale);
        let played = Played::of(&mut chip, &ram, n, || [access; 3]);
        let cycles = expected.cycles + loads * u64::from(taken(access));
        assert_eq!(
            (played.lines, played.cycles),
            (lines, cycles),
            "{words:04X?}"
        );
    }
}

// The most is two above the document's cycles for each pass of a LOAD: one in the
// second list, at either prescale, and four in the third.
held!(the_table, fails_with LoopInStopWord, ListWithoutStop, RepeatKTimes, MostOnce, MostIsLeast,
    LeastIsMost, AccessesIgnored, PauseDisturbed);
fn the_table<M: Machine>() {
    takes::<M>(&[0x4020], 0, 1, 2..=2);
    takes::<M>(&[0x0738, 0x1002, 0x4020], 0, 4, 13..=15);
    takes::<M>(&[0x0738, 0x1002, 0x4020], 2, 8, 13..=15);
    takes::<M>(&[0x2003, 0x080F, 0x4001, 0x4020], 0, 10, 48..=56);
    takes::<M>(&[0x2001, 0x1003, 0x4001, 0x4001, 0x4020], 1, 17, 14..=14);
    takes::<M>(&[0x1000, 0x4020], 5, 2, 4..=4);
    takes::<M>(&[0x2005, 0x4031], 0, 2, 4..=4);
}

held!(a_stop_at_the_top_of_ram);
fn a_stop_at_the_top_of_ram<M: Machine>() {
    let ram = ram_with(0xFFFE, &[0x4020]);
    for start in [0xFFFE, 0xFFFF] {
        assert_eq!(M::forecast(&ram, start, 0), served(1, 2..=2, 0xFFFE, 1));
    }
}

held!(ram_of_zeros_has_no_stop, fails_with MostThoughRefused);
fn ram_of_zeros_has_no_stop<M: Machine>() {
    let ram = vec![0; RAM];
    for start in [0x0000, 0x0001, 0x8000, 0xFFFE, 0xFFFF] {
        let told = M::forecast(&ram, start, 0);
        assert_eq!(told, refused(6));
        assert!(told.list(&ram).is_empty());
    }
}

// Three passes of REPEAT 2, and one of REPEAT 0.
held!(repeat_k_passes_k_plus_1_times, fails_with RepeatKTimes, MostOnce);
fn repeat_k_passes_k_plus_1_times<M: Machine>() {
    let words = [0x2002, 0x0101, 0x4001, 0x4020];
    let cycles = [9, 11].map(|load| 2 + 3 * (load + 2) + 2);
    takes::<M>(&words, 0, 1 + 3 * 2 + 1, cycles[0]..=cycles[1]);
    let words = [0x2000, 0x0101, 0x4001, 0x4020];
    takes::<M>(&words, 0, 4, 2 + 9 + 2 + 2..=2 + 11 + 2 + 2);
}

held!(an_inner_repeat_drops_the_outer_count, fails_with OuterCountKept, MostOnce);
fn an_inner_repeat_drops_the_outer_count<M: Machine>() {
    // REPEAT 3, LOAD, then three times LOAD and LOOP, STOP.
    let words = [0x2003, 0x0001, 0x2002, 0x0002, 0x4001, 0x4020];
    let cycles = [9, 11].map(|load| 2 + load + 2 + 3 * (load + 2) + 2);
    takes::<M>(&words, 0, 3 + 3 * 2 + 1, cycles[0]..=cycles[1]);
    // The same with a LOOP more, which has no count left.
    let words = [0x2005, 0x0101, 0x2001, 0x0202, 0x4001, 0x4001, 0x4020];
    let cycles = [9, 11].map(|load| 2 + load + 2 + 2 * (load + 2) + 2 + 2);
    takes::<M>(&words, 0, 3 + 2 * 2 + 1 + 1, cycles[0]..=cycles[1]);
}

// A LOOP after the STOP, or in its word, repeats nothing.
held!(nothing_after_the_first_stop_counts, fails_with LoopInStopWord);
fn nothing_after_the_first_stop_counts<M: Machine>() {
    let ram = ram_with(0x8000, &[0x2007, 0x0101, 0x4020, 0x1FFF, 0x4001, 0x4020]);
    let told = M::forecast(&ram, 0x8000, 9);
    assert_eq!(told, served(3, 2 + 9 + 2..=2 + 11 + 2, 0x8000, 3));
    takes::<M>(&[0x2007, 0x0101, 0x4021], 3, 3, 2 + 9 + 2..=2 + 11 + 2);
}

held!(another_length_is_refused_first, fails_with MostThoughRefused);
fn another_length_is_refused_first<M: Machine>() {
    let ram = ram_with(0x8000, &[0x4020]);
    let long = [&ram[..], &[0x40]].concat();
    for image in [&ram[..RAM - 1], &long, &ram[..0], &ram[..0x8002]] {
        for start in [0x8000, 0x8002] {
            assert_eq!(M::forecast(image, start, 0), refused(1));
        }
    }
    assert_eq!(M::forecast(&ram, 0x8000, 9), served(1, 2..=2, 0x8000, 1));
    // One word too late.
    assert_eq!(M::forecast(&ram, 0x8002, 9), refused(6));
    // From the start of RAM: all LOADs up to the STOP.
    let cycles = 9 * 0x4000 + 2..=11 * 0x4000 + 2;
    let expected = served(0x4001, cycles, 0, 0x4001);
    assert_eq!(M::forecast(&ram, 0x0000, 9), expected);
}

/// RAM with REPEAT 4095, then one word over and over, LOOP and STOP.
fn full_of(word: u16) -> Vec<u8> {
    let mut words = vec![word; 32_768];
    words[0] = 0x2FFF;
    words[32_766] = 0x4001;
    words[32_767] = 0x4020;
    ram_with(0, &words)
}

// Of PAUSE 4095 at prescale 255.
held!(the_longest_list);
fn the_longest_list<M: Machine>() {
    let lines = 1 + 4096 * (32_765u64 * 4095 * 256 + 1) + 1;
    let cycles = 2 + 4096 * 32_766 * 2 + 2;
    let told = M::forecast(&full_of(0x1FFF), 0, 255);
    assert_eq!(told, served(lines, cycles..=cycles, 0, 32_768));
}

// Of LOADs.
held!(the_dearest_list, fails_with MostOnce);
fn the_dearest_list<M: Machine>() {
    let lines = 1 + 4096 * 32_766 + 1;
    let cycles = [9, 11].map(|load| 2 + 4096 * (32_765 * load + 2) + 2);
    let told = M::forecast(&full_of(0x0FFF), 0, 255);
    assert_eq!(told, served(lines, cycles[0]..=cycles[1], 0, 32_768));
}

held!(random_lists_alone);
fn random_lists_alone<M: Machine>() {
    let mut random = Random(29);
    let mut ram = vec![0; RAM];
    let mut looped = 0;
    let open = M::open().state();
    let mut chip = M::new();
    for _ in 0..30_000 {
        let words = any_list(&mut random);
        let room = (RAM - 2 * words.len()) as u64;
        // Often right at the top of RAM.
        let start = match random.chance(4) {
            true => room,
            false => random.below(room) & !1,
        } as usize;
        put_words(&mut ram, start, &words);
        let (n, prescale) = (random.below(3) as usize, random.below(4) as u8);
        chip.put(open);
        chip.play(n, start as u16, prescale);
        let played = Played::of(&mut chip, &ram, n, off);
        let odd = random.below(2) as u16;
        let told = M::forecast(&ram, start as u16 | odd, prescale);
        assert_eq!(told, foretold(played, start, words.len()), "{words:04X?}");
        looped += u32::from(played.cycles > 9 * words.len() as u64);
    }
    assert!(looped > 500, "{looped}");
}

/// A list that a channel is about to play.
struct Ready {
    start: usize,
    words: usize,
    n: usize,
    prescale: u8,
}

/// Any list, put somewhere into RAM, and any channel of a chip in any state but mode
/// 3.
fn ready<M: Machine>(chip: &mut M, ram: &mut [u8], random: &mut Random) -> Ready {
    let words = any_list(random);
    let start = random.below((RAM - 2 * words.len()) as u64) as usize & !1;
    put_words(ram, start, &words);
    let (n, prescale) = (random.below(3) as usize, random.below(4) as u8);
    let mut state = drawable_state(random);
    let channel = &mut state.sound.channels[n];
    channel.enabled = true;
    channel.address = start as u16;
    channel.prescale = prescale;
    channel.pause = 0;
    channel.counter = 0;
    chip.put(state);
    Ready {
        start,
        words: words.len(),
        n,
        prescale,
    }
}

// The other channels do what they like.
held!(random_lists_among_others);
fn random_lists_among_others<M: Machine>() {
    let mut random = Random(31);
    let mut ram = vec![0; RAM];
    random.fill(&mut ram);
    let mut chip = M::new();
    for _ in 0..20_000 {
        let list = ready(&mut chip, &mut ram, &mut random);
        let played = Played::of(&mut chip, &ram, list.n, off);
        let told = M::forecast(&ram, list.start as u16, list.prescale);
        let words = told.list(&ram);
        assert_eq!(
            told,
            foretold(played, list.start, list.words),
            "{words:02X?}"
        );
    }
}

// So does the processor, and for the channel itself it does so in every third run;
// in the others it stays off the 8255 there, or meets each LOAD with a PSG write.
held!(random_lists_beside_the_processor, fails_with PauseDisturbed, OthersDisturbed,
    SatOutDisturbed, OnTakesTwo, AccessOfChannel1, AccessesIgnored, MostOnce, MostIsLeast,
    LeastIsMost);
fn random_lists_beside_the_processor<M: Machine>() {
    let mut random = Random(61);
    let mut ram = vec![0; RAM];
    random.fill(&mut ram);
    let mut chip = M::new();
    for run in 0..20_000 {
        let list = ready(&mut chip, &mut ram, &mut random);
        let always = [Some(Access::Off), Some(Access::PsgWrite), None][run % 3];
        let played = Played::of(&mut chip, &ram, list.n, || {
            let mut accesses = any_accesses(&mut random);
            accesses[list.n] = always.unwrap_or(accesses[list.n]);
            accesses
        });
        let told = M::forecast(&ram, list.start as u16, list.prescale);
        assert_eq!(played.lines, told.lines);
        assert_eq!(played.cycles, told.cycles + played.taken);
        assert!((told.cycles..=told.most).contains(&played.cycles));
        assert_eq!(played.cycles == told.cycles, played.disturbed == 0);
        if always == Some(Access::PsgWrite) {
            assert_eq!(played.cycles, told.most);
        }
    }
}

// Long pauses and loops at large prescales, fewer of them.
held!(random_lists_of_long_pauses);
fn random_lists_of_long_pauses<M: Machine>() {
    let mut random = Random(37);
    for _ in 0..100 {
        let words = [
            0x1000 | random.below(400) as u16,
            0x2000 | random.below(60) as u16,
            0x1000 | random.below(30) as u16,
            random.below(0x1000) as u16,
            0x4001,
            0x4020,
        ];
        let ram = ram_with(0x1234, &words);
        let prescale = random.byte();
        let mut chip = M::open();
        chip.play(2, 0x1234, prescale);
        let played = Played::of(&mut chip, &ram, 2, off);
        let told = M::forecast(&ram, 0x1234, prescale);
        assert_eq!(told, foretold(played, 0x1234, words.len()));
    }
}

// Random RAM: the list ends at the first STOP, wherever that is.
held!(the_first_stop_ends_the_list, fails_with ListWithoutStop);
fn the_first_stop_ends_the_list<M: Machine>() {
    let mut random = Random(41);
    let mut ram = vec![0; RAM];
    random.fill(&mut ram);
    for start in (0..=0xFFFFu16).step_by(7) {
        let even = usize::from(start) & !1;
        let stop = (even..RAM)
            .step_by(2)
            .find(|&at| ram[at + 1] >> 4 == 4 && ram[at] & 0x20 != 0);
        let told = M::forecast(&ram, start, 3);
        match stop {
            Some(at) => {
                assert_eq!(told.answer, 0);
                assert_eq!(told.list(&ram), &ram[even..at + 2]);
            }
            None => assert_eq!(told, refused(6)),
        }
    }
}
