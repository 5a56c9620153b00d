//! Document 01, "One line": the counters and the screen address.

use model::random::{any_accesses, any_state, Random};
use model::under_test::{UnderTest, IDLE};
use model::{held, Machine};
use plus::{Answer, Counters, RAM, STORE};

/// VC, RC and adjust.
fn position<M: Machine>(chip: &M) -> (u8, u8, bool) {
    let counters = chip.state().crtc.counters;
    (counters.vc, counters.rc, counters.adjust)
}

fn address<M: Machine>(chip: &M) -> u16 {
    chip.state().crtc.counters.address
}

held!(a_step_refuses_other_lengths, fails_with SteppedThoughRefused, SatOutDisturbed);
fn a_step_refuses_other_lengths<M: Machine>() {
    let mut random = Random(5);
    for length in [0, 1, STORE, RAM - 1, RAM + 1] {
        let mut before = any_state(&mut random);
        for channel in &mut before.sound.channels {
            (channel.enabled, channel.pause) = (true, 0);
        }
        let mut chip = M::new();
        chip.put(before);
        let accesses = any_accesses(&mut random);
        assert_eq!(
            chip.step(&vec![0; length], accesses),
            (Answer::WrongLength, IDLE)
        );
        assert_eq!(chip.state(), before);
        // In mode 3 too; in another one a line passes on RAM of the right length.
        before.gate.mode = random.below(3) as u8;
        chip.put(before);
        assert_eq!(chip.plain_step(&[0; RAM]).0, 0);
        assert_ne!(chip.state(), before);
    }
}

held!(every_line_of_a_frame);
fn every_line_of_a_frame<M: Machine>() {
    let ram = vec![0; RAM];
    for (r4, r9, r5) in [
        (38u8, 7u8, 0u8),
        (38, 7, 1),
        (38, 7, 31),
        (1, 7, 4),
        (0, 0, 0),
        (0, 0, 5),
        (127, 0, 3),
        (127, 31, 0),
        (127, 31, 2),
    ] {
        let mut chip = M::new();
        chip.registers(&[(4, r4), (9, r9), (5, r5), (12, 0x12), (13, 0x34)]);
        let height = usize::from(r9) + 1;
        let rows = (usize::from(r4) + 1) * height;
        for _ in 0..2 {
            for line in 0..rows + usize::from(r5) {
                let expected = if line < rows {
                    ((line / height) as u8, (line % height) as u8, false)
                } else {
                    ((r4 + 1) % 128, (line - rows) as u8, true)
                };
                assert_eq!(position(&chip), expected, "line {line} of R4 {r4}, R9 {r9}");
                chip.lines(1, &ram);
            }
            assert_eq!(address(&chip), 0x1234);
        }
    }
}

// A frame ends once RC + 1 is R5 or more, however R5 came to be less.
held!(adjust_ends_at_r5_or_more);
fn adjust_ends_at_r5_or_more<M: Machine>() {
    let ram = vec![0; RAM];
    for (r5, ends) in [(4, false), (3, true), (1, true), (0, true)] {
        let mut chip = M::framed(1, 4);
        chip.lines(18, &ram);
        assert_eq!(position(&chip), (2, 2, true));
        chip.register(5, r5);
        chip.lines(1, &ram);
        let expected = if ends { (0, 0, false) } else { (2, 3, true) };
        assert_eq!(position(&chip), expected, "R5 {r5}");
        if ends {
            assert_eq!(address(&chip), 0x3000);
        }
    }
}

// R9 made less than RC: RC runs on to 31 and wraps, and no row ends.
held!(rc_wraps_at_32);
fn rc_wraps_at_32<M: Machine>() {
    let ram = vec![0; RAM];
    let mut chip = M::framed(38, 0);
    chip.lines(3, &ram);
    chip.register(9, 1);
    chip.lines(28, &ram);
    for expected in [(0, 31, false), (0, 0, false), (0, 1, false), (1, 0, false)] {
        assert_eq!(position(&chip), expected);
        chip.lines(1, &ram);
    }
}

// R4 made less than VC: VC runs on to 127 and wraps, which starts no frame. With
// R9 0 and R1 1 each line adds 1 to the address until a frame ends at VC 1.
held!(vc_wraps_at_128);
fn vc_wraps_at_128<M: Machine>() {
    let ram = vec![0; RAM];
    let mut chip = M::framed(5, 0);
    chip.registers(&[(1, 1), (9, 0)]);
    chip.lines(3, &ram);
    chip.register(4, 1);
    chip.lines(124, &ram);
    for (vc, expected) in [(127, 0x307F), (0, 0x3080), (1, 0x3081), (0, 0x3000)] {
        assert_eq!(position(&chip), (vc, 0, false));
        assert_eq!(address(&chip), expected);
        chip.lines(1, &ram);
    }
}

// The first lines of the next row and of the one after, from each soft scroll.
// Other bits of SSCR don't count.
held!(a_row_advances_by_rc_and_the_scroll, fails_with AdvanceByRcAlone);
fn a_row_advances_by_rc_and_the_scroll<M: Machine>() {
    let ram = vec![0; RAM];
    for other_bits in [0x00, 0x8F] {
        for scroll in 0..8u8 {
            let mut chip = M::framed(38, 0);
            chip.poke(0x6804, scroll << 4 | other_bits);
            for line in 0..312u16 {
                let (row, rc) = (line / 8, (line % 8) as u8);
                // One more row is behind us once RC + scroll has passed R9.
                let done = row + u16::from(rc + scroll > 7);
                assert_eq!(address(&chip), 0x3000 + 40 * done, "line {line}");
                chip.lines(1, &ram);
            }
            assert_eq!(address(&chip), 0x3000);
        }
    }
}

// For every R9, RC and scroll, the sum taken mod 32; in adjust as well.
held!(a_row_advances_at_every_r9, fails_with AdvanceByRcAlone);
fn a_row_advances_at_every_r9<M: Machine>() {
    let ram = vec![0; RAM];
    let mut chip = M::framed(38, 31);
    let first = chip.state();
    for case in 0..32 * 32 * 8u32 {
        let (r9, rc, scroll) = ((case / 256) as u8, (case / 8 % 32) as u8, (case % 8) as u8);
        // RC 30 and 31 would end the frame in adjust.
        for adjust in [false, true].into_iter().take(if rc < 30 { 2 } else { 1 }) {
            let mut state = first;
            state.crtc.registers.r9 = r9;
            state.crtc.counters.rc = rc;
            state.crtc.counters.adjust = adjust;
            state.video.sscr = scroll << 4;
            chip.put(state);
            chip.lines(1, &ram);
            let advance = if (rc + scroll) % 32 == r9 { 40 } else { 0 };
            assert_eq!(
                address(&chip),
                0x3000 + advance,
                "R9 {r9}, RC {rc}, {scroll}"
            );
        }
    }
}

// Mod 16,384: 3FFFh + 40 is 39.
held!(the_address_wraps);
fn the_address_wraps<M: Machine>() {
    let ram = vec![0; RAM];
    let mut chip = M::framed(38, 0);
    chip.change(|state| state.crtc.counters.address = 0x3FFF);
    chip.lines(7, &ram);
    assert_eq!(address(&chip), 0x3FFF);
    chip.lines(1, &ram);
    assert_eq!(address(&chip), 39);
}

// VC 127 and RC 7 with R4 38: a row ends, no frame does, and R1 is added.
held!(a_wrap_is_a_line_like_any_other);
fn a_wrap_is_a_line_like_any_other<M: Machine>() {
    let ram = vec![0; RAM];
    let mut chip = M::framed(38, 0);
    chip.change(|state| {
        state.crtc.counters = Counters {
            vc: 127,
            rc: 7,
            address: 0x0100,
            held: true,
            split: 0x0ABC,
            ..Counters::default()
        }
    });
    chip.lines(1, &ram);
    // The held split is spent, which a frame's first line would not do.
    let spent = Counters {
        address: 0x0ABC,
        ..Counters::default()
    };
    assert_eq!(chip.state().crtc.counters, spent);
    chip.change(|state| (state.crtc.counters.vc, state.crtc.counters.rc) = (127, 7));
    chip.lines(1, &ram);
    assert_eq!(position(&chip), (0, 0, false));
    assert_eq!(address(&chip), 0x0ABC + 40);
}
