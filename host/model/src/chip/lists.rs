//! Lists placed in an area of RAM.

use super::{answer, Channel, Model, RAM};

/// How many there can be.
const LISTS: u32 = 64;

/// The area, and its lists by rising addresses. None has a byte of another, and all
/// begin and end at even addresses, so that every gap does too.
#[derive(Clone, Debug, PartialEq, Eq)]
pub struct Area {
    pub from: u32,
    pub upto: u32,
    pub lists: Vec<List>,
}

/// A placed list.
#[derive(Clone, Copy, Debug, PartialEq, Eq)]
pub struct List {
    pub handle: u32,
    pub address: u32,
    pub length: u32,
}

impl List {
    /// The address behind its last byte.
    fn end(&self) -> u32 {
        self.address + self.length
    }

    fn has(&self, address: u16) -> bool {
        (self.address..self.end()).contains(&address.into())
    }
}

impl Area {
    /// The lowest gap that is long enough: how many lists come before it, and where it
    /// begins.
    fn gap(&self, bytes: u32) -> Option<(usize, u32)> {
        let mut from = self.from;
        for (before, list) in self.lists.iter().enumerate() {
            if list.address - from >= bytes {
                return Some((before, from));
            }
            from = list.end();
        }
        (self.upto - from >= bytes).then_some((self.lists.len(), from))
    }

    /// The lowest handle that no list has.
    fn free_handle(&self) -> Option<u32> {
        let taken = |taken: u64, list: &List| taken | 1 << list.handle;
        let taken = self.lists.iter().fold(0, taken);
        Some(taken.trailing_ones()).filter(|&handle| handle < LISTS)
    }
}

impl Channel {
    /// Whether it has a list in use.
    fn uses(&self, list: &List) -> bool {
        if !self.enabled {
            return false;
        }
        if list.has(self.address) {
            return true;
        }
        // From a mark above the address there is no word up to it.
        let mut words = (self.mark..=self.address).step_by(2);
        self.counter > 0 && (list.has(self.mark) || words.any(|word| list.has(word)))
    }
}

/// Whether an area can have these bounds.
fn good(from: u32, upto: u32) -> bool {
    from % 2 == 0 && upto % 2 == 0 && from < upto && upto as usize <= RAM
}

impl Model {
    /// The area given, once.
    pub fn area(&mut self, from: u32, upto: u32) -> u8 {
        if self.lists.is_some() || !good(from, upto) {
            return answer::WRONG_AREA;
        }
        let lists = Vec::new();
        self.lists = Some(Area { from, upto, lists });
        answer::DONE
    }

    /// A list placed: the answer, its address and its handle.
    pub fn place(&mut self, ram: &mut [u8], list: &[u8]) -> (u8, u32, u32) {
        if ram.len() != RAM {
            return (answer::WRONG_LENGTH, 0, 0);
        }
        let Some(area) = &mut self.lists else {
            return (answer::WRONG_AREA, 0, 0);
        };
        let (bytes, most) = (list.len(), area.upto - area.from);
        if bytes == 0 || bytes % 2 == 1 || bytes > most as usize {
            return (answer::WRONG_AREA, 0, 0);
        }
        let Some(handle) = area.free_handle() else {
            return (answer::ALL_PLACED, 0, 0);
        };
        let length = bytes as u32;
        let Some((before, address)) = area.gap(length) else {
            return (answer::NO_GAP, 0, 0);
        };
        ram[address as usize..][..bytes].copy_from_slice(list);
        let placed = List {
            handle,
            address,
            length,
        };
        area.lists.insert(before, placed);
        (answer::DONE, address, handle)
    }

    /// A list removed, if no channel has it in use.
    pub fn remove(&mut self, handle: u32) -> u8 {
        let Some(area) = &mut self.lists else {
            return answer::WRONG_AREA;
        };
        let Some(at) = area.lists.iter().position(|list| list.handle == handle) else {
            return answer::NO_HANDLE;
        };
        let mut channels = self.sound.channels.iter();
        if channels.any(|channel| channel.uses(&area.lists[at])) {
            return answer::LIST_IN_USE;
        }
        area.lists.remove(at);
        answer::DONE
    }
}
