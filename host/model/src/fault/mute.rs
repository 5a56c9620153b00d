//! Faults of muting a channel, and of what a muted one does.

use super::lent::Lent;
use crate::machine::Fault;
use plus::{kind, Answer, Chip, Editor, Report, Table};

type Mute = fn(&mut Chip, u16, bool) -> Answer;

/// A fault of the mute: the call in its place.
macro_rules! mutes {
    ($($(#[$about:meta])* $fault:ident: $mute:expr;)+) => {$(
        $(#[$about])*
        pub struct $fault;

        impl Fault for $fault {
            fn mute(chip: &mut Chip, channel: u16, on: bool) -> Answer {
                let mute: Mute = $mute;
                mute(chip, channel, on)
            }
        }
    )+};
}

/// Which channels are muted.
fn marks(chip: &Chip) -> [bool; 3] {
    chip.sound.channels.map(|channel| channel.muted)
}

fn set_marks(chip: &mut Chip, marks: [bool; 3]) {
    for (channel, muted) in chip.sound.channels.iter_mut().zip(marks) {
        channel.muted = muted;
    }
}

/// A line on which other channels count as muted than those that are.
fn taken_for(
    chip: &mut Chip,
    lent: &mut Lent,
    others: fn([bool; 3]) -> [bool; 3],
) -> (Answer, Report) {
    let before = marks(chip);
    set_marks(chip, others(before));
    let called = lent.call(chip);
    set_marks(chip, before);
    called
}

/// A line, and what was wrong with each LOAD of a muted channel.
fn spoilt(
    chip: &mut Chip,
    lent: &mut Lent,
    spoil: fn(&mut Chip, &Lent, &mut Report, usize),
) -> (Answer, Report) {
    let (answer, mut report) = lent.call(chip);
    for n in 0..3 {
        if marks(chip)[n] && report.kinds[n] == kind::LOAD {
            spoil(chip, lent, &mut report, n);
        }
    }
    (answer, report)
}

lines! {
    /// A muted LOAD sets its register.
    MutedLoadHeard: |chip, lent| taken_for(chip, lent, |_| [false; 3]);

    /// Channel 1 is muted where channel 0 is.
    MarkOfChannel0: |chip, lent| {
        taken_for(chip, lent, |[first, _, third]| [first, first, third])
    };

    /// One that is muted mutes all.
    AllMutedByOne: |chip, lent| taken_for(chip, lent, |marks| [marks.contains(&true); 3]);

    /// A muted LOAD costs nothing.
    MutedLoadFree: |chip, lent| spoilt(chip, lent, |_, lent, report, n| {
        report.cycles -= 9 + lent.accesses[n] as u8;
    });

    /// A muted LOAD is reported as sitting out.
    MutedLoadSitsOut: |chip, lent| spoilt(chip, lent, |_, _, report, n| {
        (report.kinds[n], report.lows[n]) = (kind::SAT_OUT, 0);
    });

    /// A muted LOAD is reported without its low bits.
    MutedLoadWithoutBits: |chip, lent| {
        spoilt(chip, lent, |_, _, report, n| report.lows[n] = 0)
    };

    /// A muted channel stays at its LOAD.
    MutedNotMoved: |chip, lent| spoilt(chip, lent, |chip, _, _, n| {
        let address = &mut chip.sound.channels[n].address;
        *address = address.wrapping_sub(2);
    });

    /// The pause of a muted channel stands still.
    MutedPauseStands: |chip, lent| {
        let before = chip.sound.channels;
        let stands = |n: usize| before[n].muted && before[n].pause > 0;
        for n in (0..3).filter(|&n| stands(n)) {
            chip.sound.channels[n].enabled = false;
        }
        let called = lent.call(chip);
        for n in (0..3).filter(|&n| stands(n)) {
            chip.sound.channels[n].enabled = before[n].enabled;
        }
        called
    };
}

mutes! {
    /// Channel 3 is muted, wherever that is.
    Channel3Served: |chip, channel, on| match channel {
        3 => Answer::Done,
        _ => chip.mute(channel, on),
    };

    /// Of the channel 8 bits count.
    ChannelBy8Bits: |chip, channel, on| chip.mute(channel & 0xFF, on);

    /// A mute that is refused reaches channel 2.
    MutedThoughRefused: |chip, channel, on| {
        let answer = chip.mute(channel, on);
        if answer != Answer::Done {
            let _ = chip.mute(2, on);
        }
        answer
    };

    /// A mute ends the pause.
    PauseEndedByMute: |chip, channel, on| {
        let answer = chip.mute(channel, on);
        if answer == Answer::Done && on {
            let channel = &mut chip.sound.channels[usize::from(channel)];
            (channel.pause, channel.count) = (0, 0);
        }
        answer
    };

    /// A muted channel is turned off.
    OffByMute: |chip, channel, on| {
        let answer = chip.mute(channel, on);
        if answer == Answer::Done && on {
            chip.sound.channels[usize::from(channel)].enabled = false;
        }
        answer
    };

    /// A mute sets the volume of the channel to 0.
    VolumeByMute: |chip, channel, on| {
        let answer = chip.mute(channel, on);
        if answer == Answer::Done && on {
            chip.sound.psg[8 + usize::from(channel)] = 0;
        }
        answer
    };

    /// A mute of one that is muted ends it.
    MuteTurns: |chip, channel, on| {
        let muted = chip.sound.channels.get(usize::from(channel));
        let muted = muted.is_some_and(|channel| channel.muted);
        chip.mute(channel, on && !muted)
    };

    /// No channel is heard again.
    NeverHeardAgain: |chip, channel, on| match channel {
        0..=2 if !on => Answer::Done,
        _ => chip.mute(channel, on),
    };
}

writes! {
    /// A write to DCSR ends every mute.
    HeardByDcsr: |chip, editor, store, address, byte| {
        let answer = chip.page_write(editor, store, address, byte);
        if answer == Answer::Done && address == 0x6C0F {
            set_marks(chip, [false; 3]);
        }
        answer
    };
}

/// A channel is muted at reset.
pub struct MutedAtReset;

impl Fault for MutedAtReset {
    fn reset(chip: &mut Chip) {
        chip.reset();
        let _ = chip.mute(1, true);
    }
}

/// A reset leaves the mutes.
pub struct MuteThroughReset;

impl Fault for MuteThroughReset {
    fn reset(chip: &mut Chip) {
        let before = marks(chip);
        chip.reset();
        set_marks(chip, before);
    }
}

/// A start ends every mute.
pub struct HeardByStart;

impl Fault for HeardByStart {
    fn start(chip: &mut Chip, table: Table) -> Answer {
        let answer = chip.start(table);
        set_marks(chip, [false; 3]);
        answer
    }
}

/// An undo ends every mute.
pub struct HeardByUndo;

impl Fault for HeardByUndo {
    fn undo(chip: &mut Chip, editor: Editor, store: &mut [u8]) -> Answer {
        let answer = chip.undo(editor, store);
        if answer == Answer::Done {
            set_marks(chip, [false; 3]);
        }
        answer
    }
}
