//! One line: drawn, and then stepped.

use super::{answer, Access, Did, Model, Report};

impl Model {
    /// Draws the current line and steps it. What can't be drawn isn't stepped.
    pub fn line(
        &mut self,
        ram: &[u8],
        store: &[u8],
        line: &mut [u8],
        accesses: [Access; 3],
    ) -> (u8, Report) {
        let number = self.draw(ram, store, line);
        if number != answer::DONE {
            let report = Report {
                cycles: 0,
                did: [Did::SatOut; 3],
            };
            return (number, report);
        }
        (number, self.step(ram, accesses))
    }

    /// Sound, raster compare, split compare, counters. RAM has its length.
    pub(super) fn step(&mut self, ram: &[u8], accesses: [Access; 3]) -> Report {
        let report = self.sound.line(ram, accesses);
        self.compare_raster();
        self.compare_split();
        self.count();
        report
    }

    fn compare_raster(&mut self) {
        let counters = &self.crtc.counters;
        let here = (counters.vc as u16 % 64) * 8 + counters.rc as u16 % 8;
        if self.video.pri != 0 && !counters.adjust && self.video.pri as u16 == here {
            self.interrupts.raster = true;
        }
    }

    fn compare_split(&mut self) {
        let video = &self.video;
        let counters = &mut self.crtc.counters;
        let here = (counters.vc % 32) * 8 + counters.rc % 8;
        let late = counters.adjust && counters.rc >= 8;
        if video.split_line != 0 && video.split_line == here && !late {
            counters.held = true;
            counters.split = (video.split_high as u16 & 0x3F) << 8 | video.split_low as u16;
        }
    }

    /// On to the next line.
    fn count(&mut self) {
        let registers = self.crtc.registers;
        let counters = &mut self.crtc.counters;
        let scroll = self.video.sscr >> 4 & 7;
        // Of the line just done.
        let row_of_bytes_done = (counters.rc + scroll) % 32 == registers.r9;

        let frame_ends;
        if counters.adjust {
            frame_ends = counters.rc + 1 >= registers.r5;
            counters.rc += 1;
        } else if counters.rc == registers.r9 {
            let last_row = counters.vc == registers.r4;
            frame_ends = last_row && registers.r5 == 0;
            counters.adjust = last_row;
            counters.rc = 0;
            counters.vc = (counters.vc + 1) % 128;
        } else {
            frame_ends = false;
            counters.rc = (counters.rc + 1) % 32;
        }

        if frame_ends {
            // A held split waits for the next line.
            counters.vc = 0;
            counters.rc = 0;
            counters.adjust = false;
            counters.address = (registers.r12 as u16) << 8 | registers.r13 as u16;
            return;
        }
        if counters.held {
            counters.address = counters.split;
        } else if row_of_bytes_done {
            counters.address = (counters.address + registers.r1 as u16) % 16_384;
        }
        counters.held = false;
        counters.split = 0;
    }
}
