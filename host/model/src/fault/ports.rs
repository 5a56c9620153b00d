//! Faults of the lock and the ports.

use crate::machine::Fault;
use plus::{Answer, Chip};

/// A zero in the midst of an attempt doesn't begin the next one.
pub struct LostZero;

impl Fault for LostZero {
    fn write_bc(chip: &mut Chip, byte: u8) -> Answer {
        let midst = chip.lock.stage > 2;
        let answer = chip.write_bc(byte);
        if midst && chip.lock.stage == 2 {
            chip.lock.stage = 0;
        }
        answer
    }
}

/// CDh unlocks, before the byte after it has come.
pub struct UnlockedAtCd;

impl Fault for UnlockedAtCd {
    fn write_bc(chip: &mut Chip, byte: u8) -> Answer {
        let answer = chip.write_bc(byte);
        chip.lock.unlocked |= chip.lock.stage == 16;
        answer
    }
}

/// Locking maps the page out.
pub struct LockingUnmaps;

impl Fault for LockingUnmaps {
    fn write_bc(chip: &mut Chip, byte: u8) -> Answer {
        let unlocked = chip.lock.unlocked;
        let answer = chip.write_bc(byte);
        chip.gate.mapped &= chip.lock.unlocked || !unlocked;
        answer
    }
}

/// R4 keeps all 8 bits.
pub struct WholeR4;

impl Fault for WholeR4 {
    fn write_bd(chip: &mut Chip, byte: u8) -> Answer {
        let answer = chip.write_bd(byte);
        if chip.crtc.selected == 4 {
            chip.crtc.registers.r4 = byte;
        }
        answer
    }
}

/// Bits 4-3 of 10 map the page in.
pub struct MappedAt10;

impl Fault for MappedAt10 {
    fn write_7f(chip: &mut Chip, byte: u8) -> Answer {
        let answer = chip.write_7f(byte);
        chip.gate.mapped |= chip.lock.unlocked && byte & 0xF8 == 0xB0;
        answer
    }
}
