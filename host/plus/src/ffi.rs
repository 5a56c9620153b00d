//! `include/plus.h` in Rust: the calls as the library exports them.

use crate::listing::{Printed, ReadBack};
use crate::mend::{Change, Mended};
use crate::take::{Opened, Record, RecordRead, Written, COUNTS};
use crate::version::Built;
use crate::{Access, Answer, Editor, Length, State, Table, LISTS, PLACES};

#[repr(C)]
pub(crate) struct Answered {
    pub chip: State,
    pub answer: Answer,
}

#[repr(C)]
pub(crate) struct Acknowledged {
    pub chip: State,
    pub answer: Answer,
    pub vector: u8,
}

#[repr(C)]
pub(crate) struct ByteRead {
    pub answer: Answer,
    pub byte: u8,
}

#[repr(C)]
pub(crate) struct Placed {
    pub chip: State,
    pub answer: Answer,
    pub address: u32,
    pub handle: u32,
}

#[repr(C)]
pub(crate) struct Replayed {
    pub chip: State,
    pub answer: Answer,
    pub bad: usize,
    pub lines: u32,
    pub counts: [u32; COUNTS],
}

#[repr(C)]
pub(crate) struct Stepped {
    pub chip: State,
    pub answer: Answer,
    pub cycles: u8,
    pub kinds: [u8; 3],
    pub lows: [u16; 3],
}

// An `Answer` has the layout of its number, and every call is proved to answer one
// of the table: in the version that `version::check` asks for these are the same.
extern "C" {
    pub(crate) fn plus_built() -> Built;
    pub(crate) fn plus_reset() -> State;
    pub(crate) fn plus_write_bc(chip: State, byte: u8) -> Answered;
    pub(crate) fn plus_write_bd(chip: State, byte: u8) -> Answered;
    pub(crate) fn plus_write_7f(chip: State, byte: u8) -> Answered;
    pub(crate) fn plus_start(chip: State, table: Table) -> Answered;
    pub(crate) fn plus_page_read(
        chip: State,
        editor: Editor,
        store: *const u8,
        store_length: usize,
        address: u16,
        bus: u8,
    ) -> ByteRead;
    pub(crate) fn plus_page_write(
        chip: State,
        editor: Editor,
        store: *mut u8,
        store_length: usize,
        places: &mut [u32; PLACES],
        address: u16,
        byte: u8,
    ) -> Answered;
    pub(crate) fn plus_undo(
        chip: State,
        editor: Editor,
        store: *mut u8,
        store_length: usize,
        places: &[u32; PLACES],
    ) -> Answered;
    pub(crate) fn plus_area(chip: State, from: u32, upto: u32) -> Answered;
    pub(crate) fn plus_place(
        chip: State,
        places: &mut [u32; LISTS],
        ram: *mut u8,
        ram_length: usize,
        list: *const u8,
        list_length: usize,
    ) -> Placed;
    pub(crate) fn plus_remove(chip: State, places: &[u32; LISTS], handle: u32) -> Answered;
    pub(crate) fn plus_export(chip: State, out: *mut u8, out_length: usize) -> Answer;
    pub(crate) fn plus_acknowledge(chip: State) -> Acknowledged;
    pub(crate) fn plus_mute(chip: State, channel: u16, on: bool) -> Answered;
    pub(crate) fn plus_line(
        chip: State,
        ram: *const u8,
        ram_length: usize,
        store: *const u8,
        store_length: usize,
        line: *mut u8,
        line_length: usize,
        first: Access,
        second: Access,
        third: Access,
    ) -> Stepped;
    pub(crate) fn plus_forecast(
        ram: *const u8,
        ram_length: usize,
        start: u16,
        prescale: u8,
    ) -> Length;
    pub(crate) fn plus_grey(low: u8, high: u8) -> u8;
    pub(crate) fn plus_print(
        words: *const u16,
        words_length: usize,
        text: *mut u8,
        text_length: usize,
    ) -> Printed;
    pub(crate) fn plus_read(
        text: *const u8,
        text_length: usize,
        words: *mut u16,
        words_length: usize,
    ) -> ReadBack;
    pub(crate) fn plus_mend(
        words: *mut u16,
        words_length: usize,
        used: usize,
        report: *mut u64,
        report_length: usize,
    ) -> Mended;
    pub(crate) fn plus_change(report: *const u64, report_length: usize, number: usize) -> Change;
    pub(crate) fn plus_take_pack(entry: Record) -> u64;
    pub(crate) fn plus_take_unpack(number: u64) -> Record;
    pub(crate) fn plus_take_write(
        comment: *const u8,
        comment_length: usize,
        records: *const u64,
        records_length: usize,
        output: *mut u8,
        output_length: usize,
    ) -> Written;
    pub(crate) fn plus_take_open(file: *const u8, file_length: usize) -> Opened;
    pub(crate) fn plus_take_record(
        file: *const u8,
        file_length: usize,
        number: usize,
    ) -> RecordRead;
    pub(crate) fn plus_replay(
        ram: *const u8,
        ram_length: usize,
        store: *mut u8,
        store_length: usize,
        song: &mut [u32; PLACES],
        picture: &mut [u32; PLACES],
        table: Table,
        file: *const u8,
        file_length: usize,
    ) -> Replayed;
}
