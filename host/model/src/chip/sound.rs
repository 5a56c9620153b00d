//! The three sound channels on one line.

use super::{answer, Access, Channel, Did, Kind, Model, Report, Sound};

/// The word at an address, low byte first. RAM has its full length here.
pub(super) fn word_at(ram: &[u8], address: u16) -> u16 {
    let low = ram[address as usize];
    let high = ram[address.wrapping_add(1) as usize];
    u16::from_le_bytes([low, high])
}

/// The kind of a word, by its top four bits.
pub(super) fn kind_of(word: u16) -> Kind {
    match word >> 12 {
        0 => Kind::Load,
        1 => Kind::Pause,
        2 => Kind::Repeat,
        4 => Kind::Control,
        _ => Kind::Nothing,
    }
}

/// A control word with none of its bits set, and these bits.
pub(super) const NOP: u16 = 0x4000;
pub(super) const LOOP: u16 = 0x001;
pub(super) const INT: u16 = 0x010;
pub(super) const STOP: u16 = 0x020;

/// The control bits of a word, 0 if it isn't a control word.
pub(super) fn control(word: u16) -> u16 {
    match kind_of(word) {
        Kind::Control => word & 0x0FFF,
        _ => 0,
    }
}

impl Channel {
    /// Counts one line of a running pause.
    fn count_line(&mut self) {
        if !self.enabled || self.pause == 0 {
            return;
        }
        if self.count >= self.prescale {
            self.count = 0;
            self.pause -= 1;
        } else {
            self.count += 1;
        }
    }

    /// The next word if the channel is active.
    fn fetch(&mut self, ram: &[u8]) -> Option<u16> {
        if !self.enabled || self.pause != 0 {
            return None;
        }
        let word = word_at(ram, self.address);
        self.address = self.address.wrapping_add(2);
        Some(word)
    }

    fn execute(&mut self, psg: &mut [u8; 16], word: u16) -> Did {
        let kind = kind_of(word);
        let low = word & 0x0FFF;
        match kind {
            Kind::Load if self.muted => {}
            Kind::Load => psg[(low >> 8) as usize] = low as u8,
            Kind::Pause if low == 0 => {}
            Kind::Pause => {
                self.pause = low;
                self.count = 0;
            }
            Kind::Repeat => {
                self.counter = low;
                self.mark = self.address;
            }
            Kind::Control => {
                if low & LOOP != 0 && self.counter != 0 {
                    self.counter -= 1;
                    self.address = self.mark;
                }
                if low & INT != 0 {
                    self.interrupt = true;
                }
                if low & STOP != 0 {
                    self.enabled = false;
                }
            }
            Kind::Nothing => {}
        }
        Did::Executed(kind, low)
    }
}

/// A word's cycles after its fetch. Only a LOAD waits for the processor.
fn cost_of(kind: Kind, access: Access) -> u8 {
    match (kind, access) {
        (Kind::Load, Access::Off) => 8,
        (Kind::Load, Access::On) => 9,
        (Kind::Load, Access::PsgWrite) => 10,
        _ => 1,
    }
}

impl Sound {
    /// All count, all active fetch, then they execute in order.
    pub(super) fn line(&mut self, ram: &[u8], accesses: [Access; 3]) -> Report {
        let mut report = Report {
            cycles: 1,
            did: [Did::SatOut; 3],
        };
        let mut words = [None; 3];
        for (channel, word) in self.channels.iter_mut().zip(&mut words) {
            channel.count_line();
            *word = channel.fetch(ram);
        }
        for (n, word) in words.into_iter().enumerate() {
            if let Some(word) = word {
                let did = self.channels[n].execute(&mut self.psg, word);
                report.cycles += 1 + cost_of(kind_of(word), accesses[n]);
                report.did[n] = did;
            }
        }
        report
    }
}

impl Model {
    /// The host mutes a channel, or lets it be heard again.
    pub fn mute(&mut self, channel: u16, on: bool) -> u8 {
        match self.sound.channels.get_mut(usize::from(channel)) {
            Some(channel) => channel.muted = on,
            None => return answer::NOTHING_THERE,
        }
        answer::DONE
    }
}
