//! Faults of the export.

use crate::machine::Fault;
use plus::{Answer, Chip, EXPORT};

/// An export, and then something more to its bytes, if it was served.
fn exported_and(chip: &Chip, out: &mut [u8], more: impl FnOnce(&mut [u8])) -> Answer {
    let answer = chip.export(out);
    if answer == Answer::Done {
        more(out);
    }
    answer
}

/// X high is what a read shows: FFh when negative.
pub struct XHighAsRead;

impl Fault for XHighAsRead {
    fn export(chip: &mut Chip, out: &mut [u8]) -> Answer {
        exported_and(chip, out, |out| {
            for (five, sprite) in out.chunks_exact_mut(15).zip(chip.sprites) {
                if sprite.x < 0 {
                    five[5] = 0xFF;
                }
            }
        })
    }
}

/// Magnification is exported at +7, its last mirror.
pub struct MagnificationAtMirror;

impl Fault for MagnificationAtMirror {
    fn export(chip: &mut Chip, out: &mut [u8]) -> Answer {
        exported_and(chip, out, |out| {
            for five in out.chunks_exact_mut(15).take(16) {
                five[12] += 3;
            }
        })
    }
}

/// An address has its high byte first.
pub struct HighAddressFirst;

impl Fault for HighAddressFirst {
    fn export(chip: &mut Chip, out: &mut [u8]) -> Answer {
        exported_and(chip, out, |out| {
            for three in out.chunks_exact_mut(3) {
                three.swap(0, 1);
            }
        })
    }
}

/// A start address is that of the word before the next.
pub struct StartOneWordBack;

impl Fault for StartOneWordBack {
    fn export(chip: &mut Chip, out: &mut [u8]) -> Answer {
        let mut before = chip.clone();
        for channel in &mut before.sound.channels {
            channel.address = channel.address.wrapping_sub(2);
        }
        before.export(out)
    }
}

/// Every prescale is exported as 0.
pub struct NoPrescales;

impl Fault for NoPrescales {
    fn export(chip: &mut Chip, out: &mut [u8]) -> Answer {
        let mut without = chip.clone();
        for channel in &mut without.sound.channels {
            channel.prescale = 0;
        }
        without.export(out)
    }
}

/// A refused buffer gets as much of the export as it has room for.
pub struct ExportedThoughRefused;

impl Fault for ExportedThoughRefused {
    fn export(chip: &mut Chip, out: &mut [u8]) -> Answer {
        let mut whole = [0; EXPORT];
        let _ = chip.export(&mut whole);
        for (byte, exported) in out.iter_mut().zip(whole) {
            *byte = exported;
        }
        chip.export(out)
    }
}
