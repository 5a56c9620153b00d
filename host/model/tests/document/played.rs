//! Documents 01 and 02: a channel played to its STOP, and what it cost.

use model::under_test::UnderTest;
use model::Machine;
use plus::{kind, Access};

/// What the processor takes from a LOAD.
pub fn taken(access: Access) -> u8 {
    match access {
        Access::Off => 0,
        Access::On => 1,
        Access::PsgWrite => 2,
    }
}

/// What a channel costs on a line, by what it is reported to have done.
fn cost(reported: u8, access: Access) -> u8 {
    match reported {
        kind::SAT_OUT => 0,
        kind::LOAD => 9 + taken(access),
        _ => 2,
    }
}

/// A processor that stays off the 8255.
pub fn off() -> [Access; 3] {
    [Access::Off; 3]
}

/// A channel that was played to its STOP.
#[derive(Clone, Copy, Default)]
pub struct Played {
    pub lines: u64,
    /// Its own cycles on these lines, as their calls have told them.
    pub cycles: u64,
    /// How many LOADs it executed, and how many of them the processor disturbed.
    pub loads: u64,
    pub disturbed: u64,
    /// The cycles that this has to take, by the document.
    pub taken: u64,
}

impl Played {
    /// A channel played, with a processor that does something on each line.
    pub fn of<M: Machine>(
        chip: &mut M,
        ram: &[u8],
        n: usize,
        mut processor: impl FnMut() -> [Access; 3],
    ) -> Played {
        let mut played = Played::default();
        while chip.state().sound.channels[n].enabled {
            played.line(chip, ram, n, processor());
            assert!(played.lines < 10_000_000, "never stops");
        }
        played
    }

    /// A line more.
    fn line<M: Machine>(&mut self, chip: &mut M, ram: &[u8], n: usize, accesses: [Access; 3]) {
        let (answer, report) = chip.step(ram, accesses);
        assert_eq!(answer, 0);
        assert!(report.cycles <= 34);
        // All but the dead cycle and what the two others cost.
        let others = (0..3).filter(|&other| other != n);
        let theirs: u8 = others.map(|m| cost(report.kinds[m], accesses[m])).sum();
        self.lines += 1;
        self.cycles += u64::from(report.cycles - 1 - theirs);
        if report.kinds[n] == kind::LOAD {
            self.loads += 1;
            self.disturbed += u64::from(accesses[n] != Access::Off);
            self.taken += u64::from(taken(accesses[n]));
        }
    }
}
