//! A chip, and the calls on it.

use crate::ffi;
use crate::list::{List, Placed};
use crate::state::{Area, Held, State, Undo};
use crate::{version, Access, Answer, Editor, Table, LISTS, PLACES, RAM};
use std::ops::{Deref, DerefMut};

/// A chip, its two records of page writes, and where its lists are placed. Its fields
/// are those of [`State`].
#[derive(Clone, Debug)]
pub struct Chip {
    state: State,
    places: Places,
    lists: [u32; LISTS],
}

/// The places of both editors' records, each at its editor's number.
pub(crate) type Places = [[u32; PLACES]; 2];

/// What a line's call tells.
#[derive(Clone, Copy, Debug, PartialEq, Eq)]
pub struct Report {
    /// Cycles of the whole line, its dead cycle with them: at most 34.
    pub cycles: u8,
    /// What each channel did, by the numbers in [`kind`](crate::kind).
    pub kinds: [u8; 3],
    /// The low 12 bits of each channel's word, 0 where it sat out.
    pub lows: [u16; 3],
}

// SAFETY, of each call below: the library asks nothing of its arguments beyond
// their types, and reads and writes only within the slices it is lent.
impl Chip {
    /// The chip after reset.
    pub fn new() -> Chip {
        version::check();
        Chip::of(unsafe { ffi::plus_reset() }, [[0; PLACES]; 2])
    }

    /// A state in which no list is placed, with the places of its records.
    pub(crate) fn of(state: State, places: Places) -> Chip {
        Chip {
            state,
            places,
            lists: [0; LISTS],
        }
    }

    /// Resets it, which leaves no table, nothing to undo, no area for lists and no
    /// channel muted.
    pub fn reset(&mut self) {
        **self = unsafe { ffi::plus_reset() };
    }

    fn answered(&mut self, answered: ffi::Answered) -> Answer {
        **self = answered.chip;
        answered.answer
    }

    /// A byte to port BCxx: selects a 6845 register and feeds the lock.
    /// Answers 0.
    pub fn write_bc(&mut self, byte: u8) -> Answer {
        self.answered(unsafe { ffi::plus_write_bc(self.state, byte) })
    }

    /// A data byte to the selected 6845 register. Answers 0 or 3.
    #[must_use]
    pub fn write_bd(&mut self, byte: u8) -> Answer {
        self.answered(unsafe { ffi::plus_write_bd(self.state, byte) })
    }

    /// A byte to port 7Fxx: maps the page in or out, or sets the mode. Answers
    /// 0 or 3.
    #[must_use]
    pub fn write_7f(&mut self, byte: u8) -> Answer {
        self.answered(unsafe { ffi::plus_write_7f(self.state, byte) })
    }

    /// Gives the table of which editor may write what, in the place of any before
    /// it. It holds until the next start or a reset; both records are empty then.
    /// Answers 0.
    pub fn start(&mut self, table: Table) -> Answer {
        self.answered(unsafe { ffi::plus_start(self.state, table) })
    }

    /// The table that holds, if one does.
    pub fn table(&self) -> Option<Table> {
        let Held {
            held,
            channels,
            sprites,
            palette,
        } = self.editing.table;
        held.then_some(Table {
            palette,
            sprites,
            channels,
        })
    }

    /// Reads the register page for an editor: the answer, 0, 1 or 2, and the byte,
    /// which is `bus` where nothing can be read. While a table holds, the editor
    /// sees the bits of its own channels in DCSR, and 0 elsewhere.
    #[must_use]
    pub fn page_read(&self, editor: Editor, store: &[u8], address: u16, bus: u8) -> (Answer, u8) {
        let (store, length) = (store.as_ptr(), store.len());
        let read = unsafe { ffi::plus_page_read(self.state, editor, store, length, address, bus) };
        (read.answer, read.byte)
    }

    /// Writes the register page for an editor; a pixel goes into the store. A write
    /// that is served, but to DCSR, can be undone by its editor. While a table
    /// holds, a register that is not the editor's is refused with 15, and of DCSR
    /// only the bits of its own channels do anything. Answers 0, 1, 2, 15, 9 or 3,
    /// tested in this order.
    #[must_use]
    pub fn page_write(
        &mut self,
        editor: Editor,
        store: &mut [u8],
        address: u16,
        byte: u8,
    ) -> Answer {
        let (store, length) = (store.as_mut_ptr(), store.len());
        let places = &mut self.places[editor as usize];
        let written = unsafe {
            ffi::plus_page_write(self.state, editor, store, length, places, address, byte)
        };
        self.answered(written)
    }

    /// Takes back an editor's newest page write that is left: its register, or the
    /// pixel in the store, gets the contents it had before. Served whether or not
    /// the page is mapped and the chip unlocked. Answers 0, 1 or 10.
    #[must_use]
    pub fn undo(&mut self, editor: Editor, store: &mut [u8]) -> Answer {
        let (store, length) = (store.as_mut_ptr(), store.len());
        let places = &self.places[editor as usize];
        self.answered(unsafe { ffi::plus_undo(self.state, editor, store, length, places) })
    }

    /// The page writes that an editor can undo, the newest first and at most
    /// [`PLACES`]: the address of each, and its register's contents before.
    pub fn record(&self, editor: Editor) -> impl Iterator<Item = (u16, u8)> + '_ {
        let Undo { next, count } = match editor {
            Editor::Song => self.editing.song,
            Editor::Picture => self.editing.picture,
        };
        let places = &self.places[editor as usize];
        (1..=count.min(PLACES as u16)).map(move |back| {
            let entry = places[usize::from(next.wrapping_sub(back as u8))];
            ((entry >> 8) as u16, entry as u8)
        })
    }

    /// Gives the area of RAM that lists are placed in, which begins at `from` and ends
    /// before `upto`: both are even, and the second is above the first and at most
    /// [`RAM`]. It is given once, and a reset forgets it and its lists; one that was
    /// refused can be given again. Answers 0 or 18.
    #[must_use]
    pub fn area(&mut self, from: u32, upto: u32) -> Answer {
        self.answered(unsafe { ffi::plus_area(self.state, from, upto) })
    }

    /// Places a list: its bytes are copied into RAM, to the lowest even address at which
    /// all of it is within the area and between the other lists. No other byte of RAM
    /// changes, and no other call writes any. The answer, 0, 1, 18, 19 or 20, tested in
    /// this order, and where the list is; all 0 where it is refused.
    #[must_use]
    pub fn place(&mut self, ram: &mut [u8], list: &[u8]) -> (Answer, Placed) {
        let placed = unsafe {
            ffi::plus_place(
                self.state,
                &mut self.lists,
                ram.as_mut_ptr(),
                ram.len(),
                list.as_ptr(),
                list.len(),
            )
        };
        **self = placed.chip;
        let ffi::Placed {
            answer,
            address,
            handle,
            ..
        } = placed;
        (answer, Placed { address, handle })
    }

    /// Removes the list of a handle, unless an enabled channel has it in use; its bytes
    /// stay in RAM. The channel's address lies in it then; or it has passes of a loop
    /// left, and its mark does, or some word from a mark below its address up to that.
    /// Answers 0, 18, 21 or 22, tested in this order.
    #[must_use]
    pub fn remove(&mut self, handle: u32) -> Answer {
        self.answered(unsafe { ffi::plus_remove(self.state, &self.lists, handle) })
    }

    /// The bounds of the area for lists, if one was given.
    pub fn bounds(&self) -> Option<(u32, u32)> {
        let Area { from, upto, .. } = self.editing.lists;
        let [from, upto] = [from, upto].map(|words| 2 * u32::from(words));
        (from < upto && upto <= RAM as u32).then_some((from, upto))
    }

    /// The lists that are placed, by rising handles.
    pub fn lists(&self) -> impl Iterator<Item = List> + '_ {
        let used = self.editing.lists.used;
        let taken = (0..LISTS as u32).filter(move |handle| used >> handle & 1 == 1);
        taken.map(|handle| List::at(handle, self.lists[handle as usize]))
    }

    /// Exports the registers of the page but the pixels and DCSR: of each, by
    /// rising address, three bytes of `out` become its address, low byte first,
    /// and its contents. Answers 0 or 1.
    #[must_use]
    pub fn export(&self, out: &mut [u8]) -> Answer {
        unsafe { ffi::plus_export(self.state, out.as_mut_ptr(), out.len()) }
    }

    /// Serves the interrupt that comes first: the answer, 0 or 5, and the
    /// vector.
    #[must_use]
    pub fn acknowledge(&mut self) -> (Answer, u8) {
        let acknowledged = unsafe { ffi::plus_acknowledge(self.state) };
        **self = acknowledged.chip;
        (acknowledged.answer, acknowledged.vector)
    }

    /// Mutes a channel, or ends that. It plays on as it would, and its LOADs are
    /// reported, but they leave the PSG as it is. Nothing else changes, and no other
    /// call but a reset ends it. Answers 0, or 3 for a channel above 2.
    #[must_use]
    pub fn mute(&mut self, channel: u16, on: bool) -> Answer {
        self.answered(unsafe { ffi::plus_mute(self.state, channel, on) })
    }

    /// A line: it is drawn, and then the chip stepped. Each byte of `line` becomes the
    /// number of a palette entry, by the chip before the call; the chip is then on
    /// the next line, after sound, raster compare, split compare and counters.
    /// `accesses` says what the processor does at the 8255, channel by channel, and
    /// changes the line's cycles alone. The answer, 0, 1 or 4, and what the line did;
    /// refused, it does neither, and no line has passed.
    #[must_use]
    #[inline]
    pub fn line(
        &mut self,
        ram: &[u8],
        store: &[u8],
        line: &mut [u8],
        accesses: [Access; 3],
    ) -> (Answer, Report) {
        let [first, second, third] = accesses;
        let stepped = unsafe {
            ffi::plus_line(
                self.state,
                ram.as_ptr(),
                ram.len(),
                store.as_ptr(),
                store.len(),
                line.as_mut_ptr(),
                line.len(),
                first,
                second,
                third,
            )
        };
        **self = stepped.chip;
        let report = Report {
            cycles: stepped.cycles,
            kinds: stepped.kinds,
            lows: stepped.lows,
        };
        (stepped.answer, report)
    }
}

impl Deref for Chip {
    type Target = State;

    fn deref(&self) -> &State {
        &self.state
    }
}

impl DerefMut for Chip {
    fn deref_mut(&mut self) -> &mut State {
        &mut self.state
    }
}

impl Default for Chip {
    fn default() -> Chip {
        Chip::new()
    }
}
