//! Faults of the acknowledge.

use crate::machine::Fault;
use plus::{Answer, Chip};

/// Channel 0 is served before channel 2.
pub struct LowestFirst;

impl Fault for LowestFirst {
    fn acknowledge(chip: &mut Chip) -> (Answer, u8) {
        let [zero, _, two] = chip.sound.channels.map(|channel| channel.interrupt);
        if chip.interrupts.raster || !zero || !two {
            return chip.acknowledge();
        }
        let others = chip.sound.channels;
        chip.sound.channels[1].interrupt = false;
        chip.sound.channels[2].interrupt = false;
        let served = chip.acknowledge();
        chip.sound.channels[1] = others[1];
        chip.sound.channels[2] = others[2];
        served
    }
}

/// A channel's interrupt is cleared whatever IVR bit 0 says.
pub struct AlwaysCleared;

impl Fault for AlwaysCleared {
    fn acknowledge(chip: &mut Chip) -> (Answer, u8) {
        let ivr = chip.interrupts.ivr;
        chip.interrupts.ivr &= 0xFE;
        let served = chip.acknowledge();
        chip.interrupts.ivr = ivr;
        served
    }
}
