//! Faults of the channels and of the forecast.

use super::lent::Lent;
use crate::machine::Fault;
use plus::{kind, Answer, Chip, Length, Report};

/// A line, and then the loop counter of each channel that met a REPEAT K made
/// anew, from its counter before and K.
fn recounted(
    chip: &mut Chip,
    lent: &mut Lent,
    counter: impl Fn(u16, u16) -> u16,
) -> (Answer, Report) {
    let before = chip.sound.channels;
    let (answer, report) = lent.call(chip);
    for (n, channel) in chip.sound.channels.iter_mut().enumerate() {
        if report.kinds[n] == kind::REPEAT {
            channel.counter = counter(before[n].counter, report.lows[n]);
        }
    }
    (answer, report)
}

lines! {
    /// The body of REPEAT K runs K times.
    RepeatKTimes: |chip, lent| recounted(chip, lent, |_, k| k.saturating_sub(1));

    /// An inner REPEAT leaves an outer one's count.
    OuterCountKept: |chip, lent| {
        recounted(chip, lent, |outer, k| if outer == 0 { k } else { outer })
    };

    /// The PSG has 8 registers.
    EightRegisters: |chip, lent| {
        let upper = chip.sound.psg;
        let called = lent.call(chip);
        chip.sound.psg[8..].copy_from_slice(&upper[8..]);
        called
    };

    /// Channels execute in the order 2, 1, 0.
    HighestChannelFirst: |chip, lent| {
        let (answer, report) = lent.call(chip);
        for n in (0..3).rev() {
            if report.kinds[n] == kind::LOAD {
                let [data, register] = report.lows[n].to_le_bytes();
                chip.sound.psg[register as usize] = data;
            }
        }
        (answer, report)
    };

    /// A PAUSE of 0 sets the line count back.
    PauseOf0Counts: |chip, lent| {
        let (answer, report) = lent.call(chip);
        for n in 0..3 {
            if report.kinds[n] == kind::PAUSE {
                chip.sound.channels[n].count = 0;
            }
        }
        (answer, report)
    };

    /// A control word is reported as one that does nothing.
    ControlAsNothing: |chip, lent| {
        let (answer, mut report) = lent.call(chip);
        for reported in &mut report.kinds {
            if *reported == kind::CONTROL {
                *reported = kind::NOTHING;
            }
        }
        (answer, report)
    };
}

/// A LOOP in the word of the STOP repeats something.
pub struct LoopInStopWord;

impl Fault for LoopInStopWord {
    fn forecast(ram: &[u8], start: u16, prescale: u8) -> Length {
        let mut told = plus::forecast(ram, start, prescale);
        if let [.., low, _] = told.list(ram) {
            told.lines += u64::from(low & 1);
        }
        told
    }
}

/// The list that is lent back ends before its STOP.
pub struct ListWithoutStop;

impl Fault for ListWithoutStop {
    fn forecast(ram: &[u8], start: u16, prescale: u8) -> Length {
        let mut told = plus::forecast(ram, start, prescale);
        told.length = told.length.saturating_sub(2);
        told
    }
}
