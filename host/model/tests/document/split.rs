//! Document 01, "One line": the raster compare and the split.

use model::under_test::UnderTest;
use model::{held, Machine};
use plus::{State, RAM};

/// The split address that the tests write: neither the frame's nor 0.
const SPLIT: u16 = 0x1234;

/// A frame of rows of 8 lines, on its first line, with a split line written.
fn split_at<M: Machine>(r4: u8, r5: u8, line: u8) -> M {
    let mut chip = M::framed(r4, r5);
    chip.poke(0x6801, line);
    chip.poke(0x6802, 0x12);
    chip.poke(0x6803, 0x34);
    chip
}

/// The address on entering each of some lines.
fn addresses<M: Machine>(chip: &mut M, lines: usize) -> Vec<u16> {
    let ram = vec![0; RAM];
    let each = |_| {
        let address = chip.state().crtc.counters.address;
        chip.lines(1, &ram);
        address
    };
    (0..lines).map(each).collect()
}

/// Whether a split is held, the address that it would give, and the line's own.
fn held_and_address<M: Machine>(chip: &M) -> (bool, u16, u16) {
    let counters = chip.state().crtc.counters;
    (counters.held, counters.split, counters.address)
}

held!(raster_at_every_position, fails_with RasterInAdjust);
fn raster_at_every_position<M: Machine>() {
    let ram = vec![0; RAM];
    let mut chip = M::new();
    let reset: State = chip.state();
    for pri in 0..=255u8 {
        for vc in 0..128u8 {
            for rc in 0..32u8 {
                for adjust in [false, true] {
                    let mut state = reset;
                    state.video.pri = pri;
                    state.crtc.counters.vc = vc;
                    state.crtc.counters.rc = rc;
                    state.crtc.counters.adjust = adjust;
                    chip.put(state);
                    chip.plain_step(&ram);
                    let here = (u16::from(vc) % 64) * 8 + u16::from(rc) % 8;
                    let raised = pri != 0 && !adjust && here == u16::from(pri);
                    assert_eq!(chip.state().interrupts.raster, raised);
                }
            }
        }
    }
}

/// The lines, counted from a frame's first, after which the raster waits. It is
/// cleared by 7Fxx each time.
fn raised_on<M: Machine>(mut chip: M, lines: usize) -> Vec<usize> {
    let ram = vec![0; RAM];
    let mut raised = vec![];
    for line in 0..lines {
        chip.lines(1, &ram);
        if chip.state().interrupts.raster {
            raised.push(line);
            assert_eq!(chip.write_7f(0x90), 0);
        }
    }
    raised
}

// By the calls alone, through two frames of 312 lines, and more.
held!(raster_through_frames, fails_with RasterInAdjust);
fn raster_through_frames<M: Machine>() {
    let with_pri = |r4, r5, r9, pri| {
        let mut chip = M::framed(r4, r5);
        chip.register(9, r9);
        chip.poke(0x6800, pri);
        chip
    };
    assert_eq!(raised_on(with_pri(38, 0, 7, 0), 701), []);
    assert_eq!(raised_on(with_pri(38, 0, 7, 100), 624), [100, 412]);
    // VC counts mod 64 and not mod 32: no second time at line 311, VC 38.
    assert_eq!(raised_on(with_pri(38, 0, 7, 55), 624), [55, 367]);
    // VC 65 counts as 1.
    assert_eq!(raised_on(with_pri(127, 0, 7, 9), 1024), [9, 521]);
    // RC counts mod 8.
    assert_eq!(raised_on(with_pri(38, 0, 15, 1), 32), [1, 9]);
    // Adjust lines, from line 8 on with VC 1, raise none.
    assert_eq!(raised_on(with_pri(0, 20, 7, 10), 28), []);
}

// A number of the document.
held!(split_line_1_shows_two_lines_first);
fn split_line_1_shows_two_lines_first<M: Machine>() {
    let seen = addresses(&mut split_at::<M>(38, 0, 1), 9);
    assert_eq!(seen[..2], [0x3000; 2]);
    assert_eq!(seen[2..8], [SPLIT; 6]);
    assert_eq!(seen[8], SPLIT + 40);
}

held!(split_line_0_is_none);
fn split_line_0_is_none<M: Machine>() {
    // Row 32 would count as 0.
    let seen = addresses(&mut split_at::<M>(38, 0, 0), 624);
    for (line, address) in seen.into_iter().enumerate() {
        assert_eq!(address, 0x3000 + 40 * (line % 312 / 8) as u16);
    }
}

// A number of the document: captured on lines 55 and 311 of 312.
held!(split_55_is_captured_twice_a_frame, fails_with SplitOnFirstLine);
fn split_55_is_captured_twice_a_frame<M: Machine>() {
    let seen = addresses(&mut split_at::<M>(38, 0, 55), 624);
    assert_eq!(seen[0], 0x3000);
    assert_eq!(seen[55], 0x3000 + 6 * 40);
    assert_eq!(seen[56], SPLIT);
    // Row 7 begins on line 56, row 38 on line 304.
    assert_eq!(seen[311], SPLIT + 31 * 40);
    // The second frame: its first line by R12 and R13, then the split.
    assert_eq!(seen[312], 0x3000);
    assert_eq!(seen[313..320], [SPLIT; 7]);
    assert_eq!(seen[320], SPLIT + 40);
    assert_eq!(seen[312 + 55], SPLIT + 6 * 40);
    assert_eq!(seen[312 + 56], SPLIT);
    assert_eq!(seen[312 + 311], SPLIT + 31 * 40);
}

// A frame that ends without adjust, at VC 31, and with it: its last line captures.
held!(a_held_split_passes_over_the_first_line, fails_with SplitOnFirstLine);
fn a_held_split_passes_over_the_first_line<M: Machine>() {
    let ram = vec![0; RAM];
    for (r4, r5, line) in [(38, 0, 55), (31, 0, 255), (20, 3, 21 * 8 + 2)] {
        let mut chip = split_at::<M>(r4, r5, line);
        chip.lines((usize::from(r4) + 1) * 8 + usize::from(r5), &ram);
        let counters = chip.state().crtc.counters;
        assert_eq!((counters.vc, counters.rc, counters.adjust), (0, 0, false));
        assert_eq!(held_and_address(&chip), (true, SPLIT, 0x3000));
        // What waits is the address at its capture.
        chip.poke(0x6802, 0);
        chip.poke(0x6803, 0);
        chip.lines(1, &ram);
        assert_eq!(held_and_address(&chip), (false, 0, SPLIT));
    }
}

// Adjust begins on line 8 with VC 1, so the split lines 8 to 15 are its RC 0 to 7.
held!(split_on_the_first_8_adjust_lines);
fn split_on_the_first_8_adjust_lines<M: Machine>() {
    for rc in 0..8usize {
        let seen = addresses(&mut split_at::<M>(0, 20, 8 + rc as u8), 28);
        assert_eq!(seen[..8], [0x3000; 8]);
        assert_eq!(seen[8..=8 + rc], vec![0x3000 + 40; rc + 1], "RC {rc}");
        // Entering line 16 adds R1, as RC 7 is R9: but RC 7 captures instead.
        assert_eq!(seen[8 + rc + 1..16], vec![SPLIT; 7 - rc], "RC {rc}");
        let last = if rc == 7 { SPLIT } else { SPLIT + 40 };
        // RC 8 to 19 are 0 to 7 and 0 to 3 again, mod 8, and capture no more.
        assert_eq!(seen[16..28], [last; 12], "RC {rc}");
    }
}

// The split line written on the adjust line itself, so that no earlier one matched:
// RC 1 to 7 capture, 8, 9 and on don't.
held!(split_on_later_adjust_lines_never, fails_with SplitLateInAdjust);
fn split_on_later_adjust_lines_never<M: Machine>() {
    let ram = vec![0; RAM];
    for rc in 1..20u8 {
        let mut chip = split_at::<M>(0, 20, 0);
        chip.lines(8 + usize::from(rc), &ram);
        chip.poke(0x6801, 8 + rc % 8);
        let before = chip.state().crtc.counters;
        assert_eq!((before.vc, before.rc, before.adjust), (1, rc, true));
        chip.lines(1, &ram);
        let (held, _, address) = held_and_address(&chip);
        if rc == 19 {
            // The frame's end, with nothing held.
            assert_eq!((held, address), (false, 0x3000));
        } else {
            assert_eq!(address == SPLIT, rc < 8, "RC {rc}");
        }
    }
}

// R9 15 and 7 lines of scroll: the split counts RC mod 8, the row advance mod 32.
held!(split_outside_adjust_counts_rc_mod_8);
fn split_outside_adjust_counts_rc_mod_8<M: Machine>() {
    let mut chip = split_at::<M>(38, 0, 1);
    chip.register(9, 15);
    chip.poke(0x6804, 0x70);
    let seen = addresses(&mut chip, 12);
    assert_eq!(seen[..2], [0x3000; 2]);
    assert_eq!(seen[2..9], [SPLIT; 7]);
    // RC 8 + 7 is R9; then RC 9 is 1, mod 8.
    assert_eq!(seen[9..12], [SPLIT + 40, SPLIT, SPLIT]);
}

// With one line a frame nothing spends a held split, with two a capture on the
// last replaces it.
held!(a_later_capture_replaces_what_is_held);
fn a_later_capture_replaces_what_is_held<M: Machine>() {
    let ram = vec![0; RAM];
    let mut chip = split_at::<M>(0, 0, 0);
    chip.register(9, 0);
    chip.change(|state| (state.crtc.counters.held, state.crtc.counters.split) = (true, 0x0ABC));
    chip.lines(1, &ram);
    assert_eq!(held_and_address(&chip), (true, 0x0ABC, 0x3000));
    chip.register(9, 1);
    chip.change(|state| state.crtc.counters.rc = 1);
    chip.poke(0x6801, 1);
    chip.lines(1, &ram);
    assert_eq!(held_and_address(&chip), (true, SPLIT, 0x3000));
    chip.lines(1, &ram);
    assert_eq!(held_and_address(&chip), (false, 0, SPLIT));
}
