//! Request L8: takes played, with the kinds that L9 and L13 add.

use crate::played::{off, Played};
use model::by_hand::ByHand;
use model::machine::Replay;
use model::random::{any_channel_number, any_table, Random};
use model::under_test::ram_with;
use model::{held, Machine};
use plus::take::{file_of, kind, Record, COUNTS, RECORD, TRAILER};
use plus::Editor::{self, Picture, Song};
use plus::{Answer, Table, RAM, STORE, UNLOCK};

/// A take being written, line by line.
#[derive(Clone, Default)]
struct Writing {
    line: u32,
    records: Vec<Record>,
    /// What its starts give.
    table: Table,
}

impl Writing {
    /// The page mapped in, on line 0.
    fn mapped() -> Writing {
        let unlocked = UNLOCK
            .iter()
            .fold(Writing::default(), |take, &byte| take.bc(byte));
        unlocked.gate(0xB8)
    }

    /// The records after it have this line.
    fn on(mut self, line: u32) -> Writing {
        self.line = line;
        self
    }

    fn record(mut self, kind: u8, address: u16, value: u8) -> Writing {
        self.records.push(Record {
            line: self.line,
            kind,
            address,
            value,
        });
        self
    }

    fn bc(self, value: u8) -> Writing {
        self.record(kind::WRITE_BC, 0, value)
    }

    fn bd(self, value: u8) -> Writing {
        self.record(kind::WRITE_BD, 0, value)
    }

    fn gate(self, value: u8) -> Writing {
        self.record(kind::WRITE_7F, 0, value)
    }

    fn page(self, address: u16, value: u8) -> Writing {
        self.record(kind::PAGE_WRITE, address, value)
    }

    fn acknowledge(self) -> Writing {
        self.record(kind::ACKNOWLEDGE, 0, 0)
    }

    fn undo(self) -> Writing {
        self.record(kind::UNDO, 0, 0)
    }

    fn picture(self, address: u16, value: u8) -> Writing {
        self.record(kind::PICTURE_WRITE, address, value)
    }

    fn picture_undo(self) -> Writing {
        self.record(kind::PICTURE_UNDO, 0, 0)
    }

    fn start(self) -> Writing {
        self.record(kind::START, 0, 0)
    }

    fn mute(self, channel: u16, on: bool) -> Writing {
        self.record(kind::MUTE, channel, on.into())
    }

    /// Rows of 8 lines, 39 of them.
    fn framed(self) -> Writing {
        self.bc(9).bd(7).bc(4).bd(38)
    }

    fn file(&self) -> Vec<u8> {
        file_of(b"a comment", &self.records).unwrap()
    }

    /// What it gives when it is served, on RAM of zeros and a store of zeros.
    fn played<M: Machine>(&self) -> Replay<M> {
        self.played_on(&[0; RAM], &mut [0; STORE])
    }

    fn played_on<M: Machine>(&self, ram: &[u8], store: &mut [u8]) -> Replay<M> {
        let replay = M::replay(ram, store, self.table, &self.file());
        assert_eq!((replay.answer, replay.bad), (Answer::Done, 0));
        replay
    }
}

/// Counts of some numbers, and 0 for the others.
fn counted(some: &[(usize, u32)]) -> [u32; COUNTS] {
    let mut counts = [0; COUNTS];
    for &(number, count) in some {
        counts[number] = count;
    }
    counts
}

held!(a_take_of_nothing_is_the_chip_after_reset, fails_with NotFromReset);
fn a_take_of_nothing_is_the_chip_after_reset<M: Machine>() {
    let mut store = vec![0xA5; STORE];
    let replay: Replay<M> = Writing::default().played_on(&[0; RAM], &mut store);
    assert_eq!(replay.chip.state(), M::new().state());
    for editor in Editor::BOTH {
        assert_eq!(replay.chip.record(editor), []);
    }
    assert_eq!((replay.lines, replay.counts), (0, counted(&[])));
    assert_eq!(store, vec![0xA5; STORE]);
}

held!(each_kind_is_its_call, fails_with FirstRecordSkipped, NotFromReset);
fn each_kind_is_its_call<M: Machine>() {
    // INT and STOP: the channel's interrupt is there to acknowledge on line 1.
    let ram = ram_with(0, &[0x4030]);
    let mut store = vec![0; STORE];
    let take = Writing::default().bc(1).bd(40).gate(0x82);
    let chip = take.played::<M>().chip;
    let state = chip.state();
    assert_eq!((state.crtc.registers.r1, state.gate.mode), (40, 2));
    assert!(!state.lock.unlocked);

    let take = Writing::mapped()
        .page(0x6805, 0)
        .page(0x4123, 0x0C)
        .page(0x6C02, 9)
        .undo()
        .page(0x6C0F, 1);
    let waiting = take.clone().on(1).gate(0x80);
    let chip = waiting.played_on::<M>(&ram, &mut store).chip;
    assert!(chip.state().sound.channels[0].interrupt);
    assert_eq!(store[0x123], 0x0C);
    assert_eq!(chip.state().sound.channels[0].prescale, 0);
    // The newest first: a pixel that was 0, and IVR, which is 1 after reset.
    assert_eq!(chip.record(Song), [(0x4123, 0), (0x6805, 1)]);

    let replay = take.on(1).acknowledge().played_on::<M>(&ram, &mut store);
    assert!(!replay.chip.state().sound.channels[0].interrupt);
    assert_eq!(replay.counts, counted(&[]));
}

// 02, L9: kinds 7 and 8 are the picture editor's write and undo, 9 a start, with the
// table that is lent. A 15 is counted at its place.
held!(the_second_editors_kinds_and_the_start,
    fails_with PictureUndoOfSong, PictureWriteOfSong, TableNotLent);
fn the_second_editors_kinds_and_the_start<M: Machine>() {
    // Sprite 1 and channel 2 are the picture editor's, and so is PRI.
    let mut take = Writing::mapped()
        .page(0x6400, 0x11)
        .start()
        .picture(0x6008, 0x21) // sprite 1
        .picture(0x6C0A, 3) // channel 2
        .picture(0x6000, 0x22) // 15: sprite 0
        .page(0x6000, 0x23)
        .page(0x6008, 0x24) // 15
        .page(0x6800, 0x25) // 15
        .page(0x6805, 0x26) // 15
        .picture(0x6805, 0x27) // 15
        .picture(0x6808, 0x28) // 9
        .picture_undo();
    take.table = Table {
        palette: 0,
        sprites: 2,
        channels: 0b1111_1100,
    };
    let replay: Replay<M> = take.played();
    let state = replay.chip.state();
    let table = state.editing.table;
    assert_eq!((table.held, table.palette, table.sprites), (true, 0, 2));
    assert_eq!(table.channels, 0b100);
    assert_eq!((state.sprites[0].x, state.sprites[1].x), (0x23, 0x21));
    assert_eq!((state.palette[0], state.interrupts.ivr), (0x11, 0x01));
    assert_eq!(state.sound.channels[2].prescale, 0);
    // The write before the start is not among those left.
    assert_eq!(replay.chip.record(Song), [(0x6000, 0)]);
    assert_eq!(replay.chip.record(Picture), [(0x6008, 0)]);
    assert_eq!(replay.counts, counted(&[(9, 1), (15, 5)]));
    let replay: Replay<M> = take.picture_undo().picture_undo().undo().start().played();
    assert_eq!(replay.counts, counted(&[(9, 1), (10, 1), (15, 5)]));
    assert_eq!(replay.chip.record(Song), []);
}

// 02, L13: kind 10 mutes the channel in its address if its value is 1, and lets it be
// heard if it is 0. One above 2 is counted at 3, and changes nothing.
held!(kind_10_mutes,
    fails_with MutesPassedOver, MutedByValue0, MuteByLowBits, RefusedNotCounted);
fn kind_10_mutes<M: Machine>() {
    // RAM is LOADs of register 8, with data that says which word it is.
    let words: Vec<u16> = (1..=200).map(|data| 0x0800 | data).collect();
    let ram = ram_with(0, &words);
    let take = Writing::mapped()
        .page(0x6C0F, 0b001)
        .on(1)
        .mute(0, true)
        .on(3)
        .mute(3, true)
        .mute(256, false)
        .mute(0xFFFF, true);
    let replay: Replay<M> = take.played_on(&ram, &mut [0; STORE]);
    let sound = replay.chip.state().sound;
    // The first of three words was heard.
    assert_eq!((sound.psg[8], sound.channels[0].address), (1, 6));
    assert_eq!(
        sound.channels.map(|channel| channel.muted),
        [true, false, false]
    );
    assert_eq!(replay.counts, counted(&[(3, 3)]));
    let replay: Replay<M> = take
        .mute(2, true)
        .on(5)
        .mute(0, false)
        .on(6)
        .undo()
        .played_on(&ram, &mut [0; STORE]);
    let sound = replay.chip.state().sound;
    assert_eq!((sound.psg[8], sound.channels[0].address), (6, 12));
    assert_eq!(
        sound.channels.map(|channel| channel.muted),
        [false, false, true]
    );
    assert_eq!(replay.counts, counted(&[(3, 3), (10, 1)]));
}

held!(lines_come_before_the_call, fails_with LinesAfterTheCall, OneLineMore);
fn lines_come_before_the_call<M: Machine>() {
    // STOP, on a channel that is enabled after two lines, with none behind them.
    let ram = ram_with(0, &[0x4020]);
    let take = Writing::mapped().framed().on(2).page(0x6C0F, 1);
    let replay: Replay<M> = take.played_on(&ram, &mut [0; STORE]);
    let state = replay.chip.state();
    assert!(state.sound.channels[0].enabled);
    assert_eq!(state.crtc.counters.rc, 2);
    // A line more, and it has stopped.
    let replay: Replay<M> = take.on(3).undo().played_on(&ram, &mut [0; STORE]);
    assert!(!replay.chip.state().sound.channels[0].enabled);
    assert_eq!((replay.lines, replay.counts), (3, counted(&[(10, 1)])));
}

held!(lines_are_the_last_records_line_number, fails_with OneLineMore);
fn lines_are_the_last_records_line_number<M: Machine>() {
    let framed = Writing::default().framed();
    for (line, row, of_row) in [(0, 0, 0), (1, 0, 1), (7, 0, 7), (8, 1, 0), (100, 12, 4)] {
        // The second record of a line steps nothing.
        let take = framed.clone().on(line).gate(0x81).gate(0x80);
        let replay: Replay<M> = take.played();
        let counters = replay.chip.state().crtc.counters;
        assert_eq!(replay.lines, line);
        assert_eq!((counters.vc, counters.rc), (row, of_row));
    }
    // A frame has 312 lines: 3,000 are 9 frames, 24 rows and none of the next.
    let replay: Replay<M> = framed.on(3_000).gate(0x80).played();
    let counters = replay.chip.state().crtc.counters;
    assert_eq!((counters.vc, counters.rc), (24, 0));
}

held!(lines_are_stepped_in_every_mode, fails_with NoLinesInModeThree);
fn lines_are_stepped_in_every_mode<M: Machine>() {
    for mode in 0..4 {
        let take = Writing::default().framed().gate(0x80 | mode).on(5).bc(0);
        let replay: Replay<M> = take.played();
        let state = replay.chip.state();
        assert_eq!((state.gate.mode, state.crtc.counters.rc), (mode, 5));
        assert_eq!((replay.lines, replay.counts), (5, counted(&[])));
    }
}

held!(refused_calls_are_counted_and_passed_over,
    fails_with RefusedCallEnds, RefusedNotCounted, CountedTogether);
fn refused_calls_are_counted_and_passed_over<M: Machine>() {
    let not_mapped = Writing::default()
        .page(0x6800, 1)
        .page(0x3FFF, 1)
        .acknowledge()
        .undo();
    let replay: Replay<M> = not_mapped.played();
    assert_eq!(replay.counts, counted(&[(2, 2), (5, 1), (10, 1)]));
    assert_eq!(replay.chip.state(), M::new().state());

    // R2 is not kept, and C0h to 7Fxx does nothing.
    let take = Writing::mapped()
        .bc(2)
        .bd(9)
        .gate(0xC0)
        .on(4)
        .page(0x8000, 1)
        .page(0x7000, 1)
        .page(0x6808, 1)
        .page(0x680F, 1)
        .undo()
        .acknowledge()
        .page(0x6800, 77);
    let replay: Replay<M> = take.played();
    let expected = counted(&[(2, 1), (3, 3), (5, 1), (9, 2), (10, 1)]);
    assert_eq!((replay.lines, replay.counts), (4, expected));
    assert_eq!(replay.chip.state().video.pri, 77);
    assert_eq!(replay.chip.record(Song), [(0x6800, 0)]);
}

held!(many_refusals_are_counted);
fn many_refusals_are_counted<M: Machine>() {
    let take = (0..70_000).fold(Writing::default(), |take, _| take.undo());
    assert_eq!(take.played::<M>().counts, counted(&[(10, 70_000)]));
}

held!(no_more_than_256_writes_are_left, fails_with FirstRecordSkipped);
fn no_more_than_256_writes_are_left<M: Machine>() {
    let writes = |count: u32| {
        (0..count).fold(Writing::mapped(), |take, n| {
            take.page(0x4000 + n as u16, n as u8 & 15)
        })
    };
    for (count, left) in [(255, 255), (256, 256), (300, 256)] {
        let mut store = vec![0x77; STORE];
        let replay: Replay<M> = writes(count).undo().played_on(&[0; RAM], &mut store);
        assert_eq!(replay.chip.record(Song).len(), left - 1);
        let newest = (0x4000 + count as u16 - 2, 0x77);
        assert_eq!(replay.chip.record(Song)[0], newest);
        assert_eq!(store[count as usize - 1], 0x77);
    }
}

/// A replay that is refused: the chip is the one after reset, every other number 0
/// and no byte of the store another.
fn is_refused<M: Machine>(ram: &[u8], store: usize, file: &[u8], answer: u8, bad: usize) {
    let mut pixels = vec![0xA5; store];
    let replay = M::replay(ram, &mut pixels, Table::default(), file);
    assert_eq!((replay.answer.number(), replay.bad), (answer, bad));
    assert_eq!((replay.lines, replay.counts), (0, counted(&[])));
    assert_eq!(replay.chip.state(), M::new().state());
    for editor in Editor::BOTH {
        assert_eq!(replay.chip.record(editor), []);
    }
    assert!(pixels.iter().all(|&byte| byte == 0xA5));
}

held!(refusals_come_before_anything_is_played, fails_with PlayedUpToBad);
fn refusals_come_before_anything_is_played<M: Machine>() {
    let take = Writing::mapped()
        .page(0x4000, 3)
        .on(9)
        .undo()
        .page(0x4001, 4);
    let file = take.file();
    is_refused::<M>(&[0; RAM], STORE, b"", 11, 0);
    is_refused::<M>(&[0; RAM], STORE, &file[..file.len() - 1], 11, 0);
    is_refused::<M>(&[0; RAM], STORE, &file[1..], 12, 0);
    // The kind of the last record of 21, and then that of the one before it.
    let mut bad = file.clone();
    let last = file.len() - TRAILER - RECORD;
    bad[last + 4] = 0;
    is_refused::<M>(&[0; RAM], STORE, &bad, 13, 21);
    bad[last - RECORD + 4] = 11;
    is_refused::<M>(&[0; RAM], STORE, &bad, 13, 20);
}

held!(lengths_come_first, fails_with TakeBeforeLengths);
fn lengths_come_first<M: Machine>() {
    let good = Writing::mapped().page(0x4000, 3).file();
    for file in [&good[..], b"", &good[1..]] {
        for ram in [0, 1, RAM - 1, RAM + 1] {
            is_refused::<M>(&vec![0; ram], STORE, file, 1, 0);
        }
        for store in [0, 1, STORE - 1, STORE + 1, RAM] {
            is_refused::<M>(&[0; RAM], store, file, 1, 0);
        }
    }
}

/// The table of document 01: words, prescale, lines and cycles.
const FORECASTS: [(&[u16], u8, u64, u64); 7] = [
    (&[0x4020], 0, 1, 2),
    (&[0x0738, 0x1002, 0x4020], 0, 4, 13),
    (&[0x0738, 0x1002, 0x4020], 2, 8, 13),
    (&[0x2003, 0x080F, 0x4001, 0x4020], 0, 10, 48),
    (&[0x2001, 0x1003, 0x4001, 0x4001, 0x4020], 1, 17, 14),
    (&[0x1000, 0x4020], 5, 2, 4),
    (&[0x2005, 0x4031], 0, 2, 4),
];

held!(the_forecasts_of_the_table, fails_with FirstRecordSkipped);
fn the_forecasts_of_the_table<M: Machine>() {
    for (words, prescale, lines, cycles) in FORECASTS {
        for channel in 0..3 {
            let (ram, base) = (ram_with(0x8000, words), 0x6C00 + 4 * channel as u16);
            let take = Writing::mapped()
                .page(base, 0x00)
                .page(base + 1, 0x80)
                .page(base + 2, prescale)
                .page(0x6C0F, 1 << channel);
            let mut replay: Replay<M> = take.played_on(&ram, &mut [0; STORE]);
            let played = Played::of(&mut replay.chip, &ram, channel, off);
            assert_eq!((played.lines, played.cycles), (lines, cycles));
        }
    }
}

/// Any records that open, refused ones among them.
fn any_take(random: &mut Random) -> Writing {
    let mut take = match random.chance(4) {
        true => Writing::default(),
        false => Writing::mapped(),
    };
    take.table = any_table(random);
    for _ in 0..random.below(40) {
        take.line += random.pick(&[0, 0, 0, 1, 3, 40]);
        let (address, value) = (
            random.pick(&[0x4000, 0x6000, 0x6400, 0x6800, 0x6C00]),
            random.byte(),
        );
        take = match random.below(13) {
            0 => take.bc(random.pick(&[1, 4, 5, 6, 9, 12, 13, 40])),
            1 => take.bd(value),
            2 => take.gate(0x80 | value),
            3..=5 => take.page(address + random.below(20) as u16, value),
            6 => take.acknowledge(),
            7 => take.undo(),
            8..=9 => take.picture(address + random.below(20) as u16, value),
            10 => take.picture_undo(),
            11 => take.mute(any_channel_number(random), random.chance(2)),
            _ if random.chance(3) => take.start(),
            _ => take,
        };
    }
    take
}

held!(a_replay_is_its_calls_made_by_hand,
    fails_with LinesAfterTheCall, RefusedCallEnds, RefusedNotCounted, FirstRecordSkipped, OneLineMore,
        PictureUndoOfSong, PictureWriteOfSong, TableNotLent, MutesPassedOver, MutedByValue0,
        MuteByLowBits);
fn a_replay_is_its_calls_made_by_hand<M: Machine>() {
    let mut random = Random(71);
    let mut ram = vec![0; RAM];
    random.fill(&mut ram);
    for _ in 0..500 {
        let (mut store, mut by_hand_store) = ([0x33; STORE], [0x33; STORE]);
        let take = any_take(&mut random);
        let replay: Replay<M> = take.played_on(&ram, &mut store);
        let mut by_hand = ByHand::<M>::new(&ram, &mut by_hand_store, take.table);
        take.records.iter().for_each(|&record| by_hand.play(record));
        let end = by_hand.end();
        assert_eq!(replay.chip.state(), end.chip.state());
        for editor in Editor::BOTH {
            assert_eq!(replay.chip.record(editor), end.chip.record(editor));
        }
        assert_eq!((replay.lines, replay.counts), (end.lines, end.counts));
        assert!(store == by_hand_store);
    }
}
