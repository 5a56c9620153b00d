//! Faults of the raster, the split and the counters, and of a line that is refused.

use crate::under_test::IDLE;
use plus::{Answer, LINE, RAM, STORE};

lines! {
    /// A line that is refused is stepped all the same.
    SteppedThoughRefused: |chip, lent| {
        let called = lent.call(chip);
        if called.0 != Answer::Done {
            lent.stepped(chip);
        }
        called
    };

    /// It is stepped if the pixel store alone has another length.
    SteppedWithOtherStore: |chip, lent| {
        let called = lent.call(chip);
        if lent.store.len() != STORE && lent.ram.len() == RAM {
            lent.stepped(chip);
        }
        called
    };

    /// It is stepped if the line alone has another length.
    SteppedWithOtherLine: |chip, lent| {
        let called = lent.call(chip);
        if lent.line.len() != LINE && lent.ram.len() == RAM {
            lent.stepped(chip);
        }
        called
    };

    /// It is stepped in mode 3.
    SteppedInModeThree: |chip, lent| {
        let called = lent.call(chip);
        if called.0 == Answer::ModeThree {
            lent.stepped(chip);
        }
        called
    };

    /// Mode 3 is tested before the lengths.
    ModeBeforeLengths: |chip, lent| {
        if chip.gate.mode == 3 {
            return (Answer::ModeThree, IDLE);
        }
        lent.call(chip)
    };

    /// A line that is refused is told with its cycles.
    CyclesThoughRefused: |chip, lent| {
        let (answer, mut report) = lent.call(chip);
        if answer != Answer::Done {
            report.cycles = lent.stepped(&mut chip.clone()).cycles;
        }
        (answer, report)
    };

    /// A line that is served is told as if all had sat out, at no cost.
    ReportLost: |chip, lent| {
        let (answer, _) = lent.call(chip);
        (answer, IDLE)
    };

    /// An adjust line raises the raster interrupt too.
    RasterInAdjust: |chip, lent| {
        let mut outside = chip.clone();
        outside.crtc.counters.adjust = false;
        let _ = lent.undrawn(&mut outside);
        let called = lent.call(chip);
        chip.interrupts.raster = outside.interrupts.raster;
        called
    };

    /// The split is captured on adjust lines with RC of 8 or more.
    SplitLateInAdjust: |chip, lent| {
        let (before, counters) = (**chip, chip.crtc.counters);
        let here = counters.vc % 32 * 8 + counters.rc % 8;
        if counters.adjust && chip.video.split_line != 0 && chip.video.split_line == here {
            let split = [chip.video.split_low, chip.video.split_high];
            chip.crtc.counters.held = true;
            chip.crtc.counters.split = u16::from_le_bytes(split);
        }
        let called = lent.call(chip);
        if called.0 != Answer::Done {
            **chip = before;
        }
        called
    };

    /// A held split address is used on a frame's first line.
    SplitOnFirstLine: |chip, lent| {
        let called = lent.call(chip);
        let counters = &mut chip.crtc.counters;
        if called.0 == Answer::Done && counters.held {
            counters.address = counters.split;
            (counters.held, counters.split) = (false, 0);
        }
        called
    };

    /// A row advances by RC alone, whatever the soft scroll.
    AdvanceByRcAlone: |chip, lent| {
        let mut unscrolled = chip.clone();
        unscrolled.video.sscr = 0;
        let _ = lent.undrawn(&mut unscrolled);
        let called = lent.call(chip);
        chip.crtc.counters.address = unscrolled.crtc.counters.address;
        called
    };
}
