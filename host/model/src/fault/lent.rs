//! What the line's call is lent, for the faults of it.

use plus::{Access, Answer, Chip, Report, LINE, RAM, STORE};

/// The buffers, and what the processor does at the 8255.
pub struct Lent<'a> {
    pub ram: &'a [u8],
    pub store: &'a [u8],
    pub line: &'a mut [u8],
    pub accesses: [Access; 3],
}

impl Lent<'_> {
    /// The core's call.
    pub fn call(&mut self, chip: &mut Chip) -> (Answer, Report) {
        chip.line(self.ram, self.store, self.line, self.accesses)
    }

    /// The core's call, which leaves the line as it is.
    pub fn undrawn(&self, chip: &mut Chip) -> (Answer, Report) {
        let mut line = self.line.to_vec();
        chip.line(self.ram, self.store, &mut line, self.accesses)
    }

    /// The core's call, with what is drawn taken from another chip and other pixels.
    pub fn drawn_of(
        &mut self,
        chip: &mut Chip,
        mut other: Chip,
        pixels: &[u8],
    ) -> (Answer, Report) {
        let called = self.undrawn(chip);
        let _ = other.line(self.ram, pixels, self.line, self.accesses);
        called
    }

    /// A line that nothing refuses: RAM of another length is read as zeros, and mode
    /// 3 is passed over.
    pub fn stepped(&self, chip: &mut Chip) -> Report {
        let zeros = [0; RAM];
        let ram = match self.ram.len() {
            RAM => self.ram,
            _ => &zeros,
        };
        let mode = chip.gate.mode;
        chip.gate.mode = 2;
        let (_, report) = chip.line(ram, &[0; STORE], &mut [0; LINE], self.accesses);
        chip.gate.mode = mode;
        report
    }
}
