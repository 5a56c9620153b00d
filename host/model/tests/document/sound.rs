//! Document 01, "Sound": the three channels on a line.

use model::random::{drawable_state, Random};
use model::under_test::{put_words, ram_with, UnderTest};
use model::{held, Machine};
use plus::{kind, Answer, Channel, Report, Sound, RAM};

/// What a line reports where one channel alone executed a word.
fn alone(channel: usize, kind: u8, low: u16) -> Report {
    let mut report = SAT_OUT;
    report.cycles += if kind == kind::LOAD { 9 } else { 2 };
    report.kinds[channel] = kind;
    report.lows[channel] = low;
    report
}

/// What a line reports where nobody is active.
const SAT_OUT: Report = Report {
    cycles: 1,
    kinds: [kind::SAT_OUT; 3],
    lows: [0; 3],
};

fn channel<M: Machine>(chip: &M, n: usize) -> Channel {
    chip.state().sound.channels[n]
}

/// A word executed on a channel, by the document: what it does, and its kind.
fn executed(sound: &mut Sound, n: usize, word: u16) -> u8 {
    let low = word & 0x0FFF;
    let channel = &mut sound.channels[n];
    channel.address = channel.address.wrapping_add(2);
    match word >> 12 {
        0 => {
            if !channel.muted {
                sound.psg[usize::from(word >> 8)] = word as u8;
            }
            kind::LOAD
        }
        1 => {
            if low > 0 {
                (channel.pause, channel.count) = (low, 0);
            }
            kind::PAUSE
        }
        2 => {
            (channel.counter, channel.mark) = (low, channel.address);
            kind::REPEAT
        }
        4 => {
            if word & 0x01 != 0 && channel.counter != 0 {
                channel.counter -= 1;
                channel.address = channel.mark;
            }
            channel.interrupt |= word & 0x10 != 0;
            channel.enabled = word & 0x20 == 0;
            kind::CONTROL
        }
        _ => kind::NOTHING,
    }
}

// All 65,536 words, each on a channel of a chip in any state but mode 3, the others
// off.
held!(every_word, fails_with EightRegisters, ControlAsNothing, RepeatKTimes, OuterCountKept);
fn every_word<M: Machine>() {
    let mut random = Random(19);
    let mut ram = vec![0; RAM];
    let mut chip = M::new();
    for word in 0..=0xFFFFu16 {
        let n = random.below(3) as usize;
        let mut state = drawable_state(&mut random);
        for (other, channel) in state.sound.channels.iter_mut().enumerate() {
            channel.enabled = other == n;
        }
        state.sound.channels[n].pause = 0;
        if random.chance(3) {
            state.sound.channels[n].counter = 0;
        }
        put_words(&mut ram, state.sound.channels[n].address.into(), &[word]);
        chip.put(state);
        let (answer, report) = chip.plain_step(&ram);
        let kind = executed(&mut state.sound, n, word);
        assert_eq!(chip.state().sound, state.sound, "{word:04X}");
        assert_eq!(
            (answer, report),
            (Answer::Done, alone(n, kind, word & 0x0FFF)),
            "{word:04X}"
        );
    }
}

// Register R by LOAD RDD, one after the other: each goes where it should.
held!(a_load_to_each_of_16_registers, fails_with EightRegisters);
fn a_load_to_each_of_16_registers<M: Machine>() {
    let loads: Vec<u16> = (0..16).map(|r| r << 8 | 0xA0 | (15 - r)).collect();
    for n in 0..3 {
        let ram = ram_with(0x8000, &loads);
        let mut chip = M::open();
        chip.play(n, 0x8000, 0);
        let mut psg = [0; 16];
        for (register, &word) in loads.iter().enumerate() {
            assert_eq!(
                chip.plain_step(&ram),
                (Answer::Done, alone(n, kind::LOAD, word))
            );
            psg[register] = 0xA0 | (15 - register as u8);
            assert_eq!(chip.state().sound.psg, psg);
        }
    }
}

// The last of the LOADs to one register stays, in the order 0, 1, 2.
held!(channels_execute_in_order, fails_with HighestChannelFirst);
fn channels_execute_in_order<M: Machine>() {
    for register in 0..16u16 {
        let loads = [1, 2, 3].map(|data| register << 8 | data);
        let ram = ram_with(0x8000, &loads);
        for (enables, data) in [(1, 1), (2, 2), (3, 2), (4, 3), (5, 3), (6, 3), (7, 3)] {
            let mut chip = M::open();
            for n in 0..3 {
                chip.play(n, 0x8000 + 2 * n as u16, 0);
            }
            chip.poke(0x6C0F, enables);
            chip.lines(1, &ram);
            let mut psg = [0; 16];
            psg[usize::from(register)] = data;
            assert_eq!(chip.state().sound.psg, psg, "{enables}");
        }
    }
}

// Two numbers of the document, 28 and 5, and the cases around them.
held!(cycles_of_a_line);
fn cycles_of_a_line<M: Machine>() {
    let (load, pause, nop, reserved) = (0x0701, 0x1001, 0x4000, 0x3000);
    let cases = [
        ([load; 3], 0, 1),
        ([load; 3], 7, 1 + 3 * 9),
        ([load; 3], 3, 1 + 2 * 9),
        ([load; 3], 5, 1 + 2 * 9),
        ([nop; 3], 3, 1 + 2 * 2),
        ([nop; 3], 5, 1 + 2 * 2),
        ([nop; 3], 7, 1 + 3 * 2),
        ([load, pause, reserved], 7, 1 + 9 + 2 * 2),
    ];
    for (words, enables, cycles) in cases {
        let ram = ram_with(0x8000, &words);
        let mut chip = M::open();
        for n in 0..3 {
            chip.play(n, 0x8000 + 2 * n as u16, 0);
        }
        chip.poke(0x6C0F, enables);
        let (answer, report) = chip.plain_step(&ram);
        assert_eq!(
            (answer, report.cycles),
            (Answer::Done, cycles),
            "{words:04X?} {enables}"
        );
    }
}

// PAUSE M is over after M x (N + 1) lines, its own among them.
held!(a_pause_at_every_prescale);
fn a_pause_at_every_prescale<M: Machine>() {
    let ram = ram_with(0x8000, &[0x1002, 0x4020]);
    for prescale in 0..=255 {
        let mut chip = M::open();
        chip.play(1, 0x8000, prescale);
        assert_eq!(
            chip.plain_step(&ram),
            (Answer::Done, alone(1, kind::PAUSE, 2))
        );
        for _ in 1..2 * (u32::from(prescale) + 1) {
            assert_eq!(chip.plain_step(&ram), (Answer::Done, SAT_OUT));
        }
        assert_eq!(
            chip.plain_step(&ram),
            (Answer::Done, alone(1, kind::CONTROL, 0x20))
        );
    }
}

// A number of the document: 5 lines of PAUSE 10 at prescale 0, and then 5 x 2.
held!(a_prescale_changed_in_the_pause);
fn a_prescale_changed_in_the_pause<M: Machine>() {
    let ram = ram_with(0x8000, &[0x100A, 0x4020]);
    let mut chip = M::open();
    chip.play(0, 0x8000, 0);
    chip.lines(1 + 5, &ram);
    assert_eq!(channel(&chip, 0).pause, 5);
    chip.poke(0x6C02, 1);
    chip.lines(9, &ram);
    assert!(channel(&chip, 0).enabled);
    assert_eq!(
        chip.plain_step(&ram),
        (Answer::Done, alone(0, kind::CONTROL, 0x20))
    );
    assert!(!channel(&chip, 0).enabled);
}

// PAUSE 3 at prescale 1 has fallen once and counted one line.
held!(a_pause_stands_still_while_off, fails_with PauseRestartedByDisable);
fn a_pause_stands_still_while_off<M: Machine>() {
    let ram = ram_with(0x8000, &[0x1003, 0x4020]);
    let mut chip = M::open();
    chip.play(0, 0x8000, 1);
    chip.lines(4, &ram);
    let paused = channel(&chip, 0);
    assert_eq!((paused.pause, paused.count), (2, 1));
    chip.poke(0x6C0F, 0);
    let off = Channel {
        enabled: false,
        ..paused
    };
    for _ in 0..20 {
        assert_eq!(channel(&chip, 0), off);
        assert_eq!(chip.plain_step(&ram), (Answer::Done, SAT_OUT));
    }
    chip.poke(0x6C0F, 1);
    assert_eq!(channel(&chip, 0), paused);
    // One line to 1, two lines to 0.
    assert_eq!(chip.plain_step(&ram), (Answer::Done, SAT_OUT));
    assert_eq!(chip.plain_step(&ram), (Answer::Done, SAT_OUT));
    assert_eq!(
        chip.plain_step(&ram),
        (Answer::Done, alone(0, kind::CONTROL, 0x20))
    );
}

// PAUSE 3 at prescale 2 is 9 lines. On its third the channel is sent to 9000h,
// where a PAUSE of 0 stands: that comes when the 9 are over, and takes one line.
held!(a_start_address_written_in_a_pause, fails_with PauseEndedByStart);
fn a_start_address_written_in_a_pause<M: Machine>() {
    let mut ram = ram_with(0x8000, &[0x1003, 0x4020]);
    put_words(&mut ram, 0x9000, &[0x1000, 0x0123]);
    for n in 0..3 {
        let mut chip = M::open();
        chip.play(n, 0x8000, 2);
        chip.lines(3, &ram);
        let paused = channel(&chip, n);
        assert_eq!((paused.pause, paused.count), (3, 2));
        let base = 0x6C00 + 4 * n as u16;
        for (at, byte, address) in [(base + 1, 0x90, 0x9002), (base, 0x01, 0x9000)] {
            chip.poke(at, byte);
            assert_eq!(channel(&chip, n), Channel { address, ..paused });
        }
        for _ in 3..9 {
            assert_eq!(chip.plain_step(&ram), (Answer::Done, SAT_OUT));
        }
        assert_eq!(
            chip.plain_step(&ram),
            (Answer::Done, alone(n, kind::PAUSE, 0))
        );
        let passed = Channel {
            address: 0x9002,
            pause: 0,
            count: 0,
            ..paused
        };
        assert_eq!(channel(&chip, n), passed);
        assert_eq!(
            chip.plain_step(&ram),
            (Answer::Done, alone(n, kind::LOAD, 0x123))
        );
    }
}

// No run from reset has lines counted without a pause, but a state put in may.
held!(a_pause_of_0_leaves_the_line_count, fails_with PauseOf0Counts);
fn a_pause_of_0_leaves_the_line_count<M: Machine>() {
    let ram = ram_with(0x8000, &[0x1000, 0x1001]);
    let mut chip = M::open();
    chip.play(2, 0x8000, 5);
    chip.change(|state| state.sound.channels[2].count = 3);
    let before = channel(&chip, 2);
    chip.lines(1, &ram);
    let passed = Channel {
        address: 0x8002,
        ..before
    };
    assert_eq!(channel(&chip, 2), passed);
    // A pause above 0 sets it to 0.
    chip.lines(1, &ram);
    let paused = Channel {
        address: 0x8004,
        pause: 1,
        count: 0,
        ..before
    };
    assert_eq!(channel(&chip, 2), paused);
}

// REPEAT 5 and LOOP, INT, STOP in one word.
held!(the_state_after_loop_and_stop, fails_with RepeatKTimes);
fn the_state_after_loop_and_stop<M: Machine>() {
    let ram = ram_with(0x8000, &[0x2005, 0x4031]);
    let mut chip = M::open();
    chip.play(0, 0x8000, 0);
    chip.lines(2, &ram);
    let expected = Channel {
        enabled: false,
        interrupt: true,
        address: 0x8002,
        counter: 4,
        mark: 0x8002,
        ..Channel::default()
    };
    assert_eq!(channel(&chip, 0), expected);
}

// STOP at FFFEh: the address is then 0000h. A word at FFFFh, which only a state
// put in can ask for, has its high byte at 0000h.
held!(the_address_wraps);
fn the_address_wraps<M: Machine>() {
    let mut ram = ram_with(0xFFFE, &[0x4020]);
    let mut chip = M::open();
    chip.play(0, 0xFFFE, 0);
    assert_eq!(
        chip.plain_step(&ram),
        (Answer::Done, alone(0, kind::CONTROL, 0x20))
    );
    assert_eq!(channel(&chip, 0), Channel::default());
    ram[0x0000] = 0x23;
    chip.change(|state| {
        state.sound.channels[0].enabled = true;
        state.sound.channels[0].address = 0xFFFF;
    });
    assert_eq!(
        chip.plain_step(&ram),
        (Answer::Done, alone(0, kind::REPEAT, 0x340))
    );
    assert_eq!(channel(&chip, 0).address, 0x0001);
}
