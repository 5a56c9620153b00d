//! The ports BCxx, BDxx and 7Fxx.

use super::{answer, Model};

impl Model {
    /// 6845 register select, and the lock's byte.
    pub fn write_bc(&mut self, byte: u8) -> u8 {
        self.crtc.selected = byte & 0x1F;
        self.feed_lock(byte);
        answer::DONE
    }

    /// 6845 data: only the registers we keep.
    pub fn write_bd(&mut self, byte: u8) -> u8 {
        let registers = &mut self.crtc.registers;
        match self.crtc.selected {
            1 => registers.r1 = byte,
            4 => registers.r4 = byte & 0x7F,
            5 => registers.r5 = byte & 0x1F,
            6 => registers.r6 = byte & 0x7F,
            9 => registers.r9 = byte & 0x1F,
            12 => registers.r12 = byte & 0x3F,
            13 => registers.r13 = byte,
            _ => return answer::NOTHING_THERE,
        }
        answer::DONE
    }

    /// Gate array: 100 is the mode register, 101 maps the page when unlocked
    /// and is the mode register again when locked.
    pub fn write_7f(&mut self, byte: u8) -> u8 {
        match byte >> 5 {
            0b101 if self.lock.unlocked => {
                self.gate.mapped = byte & 0x18 == 0x18;
            }
            0b100 | 0b101 => {
                self.gate.mode = byte & 0x03;
                if byte & 0x10 != 0 {
                    self.interrupts.raster = false;
                }
            }
            _ => return answer::NOTHING_THERE,
        }
        answer::DONE
    }
}
