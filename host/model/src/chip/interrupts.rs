//! Interrupt acknowledge.

use super::{answer, Model};

impl Model {
    /// Serves raster, then channels 2, 1, 0: the answer and the vector.
    pub fn acknowledge(&mut self) -> (u8, u8) {
        let ivr = self.interrupts.ivr;
        let vector = ivr & 0xF8;
        if self.interrupts.raster {
            self.interrupts.raster = false;
            self.interrupts.last_raster = true;
            return (answer::DONE, vector + 6);
        }
        for (n, source) in [(2, 0), (1, 2), (0, 4)] {
            let channel = &mut self.sound.channels[n];
            if channel.interrupt {
                if ivr & 1 == 0 {
                    channel.interrupt = false;
                }
                self.interrupts.last_raster = false;
                return (answer::DONE, vector + source);
            }
        }
        (answer::NO_INTERRUPT, 0)
    }
}
