//! A recorder: what it notes, and that the calls noted lead to the same chip.

use model::by_hand::ByHand;
use model::compare::replay::{for_a_take, note};
use model::compare::Script;
use plus::take::{file_of, kind, replay, NoRecords, Noted, Record, Recorder, Take};
use plus::Editor::{self, Picture, Song};
use plus::{Access, Answer, Area, Chip, State, Table, LINE, RAM, STORE, UNLOCK};

/// The processor is off the 8255: a take says nothing of it, and the state does
/// not depend on it.
const OFF: [Access; 3] = [Access::Off; 3];

/// The line's call with buffers of these lengths, over some RAM.
fn line(recorder: &mut Recorder, ram: &[u8], store: usize, line: usize) -> Answer {
    let (store, mut line) = (vec![0; store], vec![0; line]);
    recorder.line(ram, &store, &mut line, OFF).0
}

/// All that a call can change: the state, both records and the store.
type Shown = (State, [Vec<(u16, u8)>; 2], Vec<u8>);

fn shown(chip: &Chip, store: &[u8]) -> Shown {
    let records = Editor::BOTH.map(|editor| chip.record(editor).collect());
    (**chip, records, store.to_vec())
}

/// Scripts from reset.
fn scripts() -> impl Iterator<Item = Script> {
    (1..600)
        .map(Script::new)
        .filter(|script| script.start.is_none())
}

/// The calls noted, made by hand, lead to the same chip; each was served, and in
/// the one mode each changed something.
#[test]
fn the_calls_noted_lead_to_the_same_chip() {
    let mut counted = [0; 2];
    for script in scripts() {
        for (mode, noted) in [Noted::Changes, Noted::Served].into_iter().enumerate() {
            let (mut recorder, mut lent) = (Recorder::new(noted), script.lent.clone());
            let mut lines = 0;
            let (calls, table) = for_a_take(&script.calls);
            for call in calls {
                lines += u32::from(note(call, &mut recorder, &mut lent));
            }
            let records = recorder.records().unwrap();
            assert_eq!(recorder.given_table(), table);
            counted[mode] += records.len();

            let mut store = script.lent.store[..STORE].to_vec();
            let mut played = ByHand::<Chip>::new(&script.lent.ram[..RAM], &mut store, table);
            for &record in records {
                played.step_to(record.line);
                let before = shown(&played.chip, played.store);
                assert_eq!(played.call(record), Answer::Done, "{record:?}");
                let changed = shown(&played.chip, played.store) != before;
                assert!(changed || noted == Noted::Served, "{record:?}");
            }
            played.step_to(lines);
            let end = shown(&recorder, &lent.store[..STORE]);
            let by_hand = shown(&played.chip, played.store);
            assert!(by_hand == end, "seed {}", script.seed);
        }
    }
    // Some calls left everything as it was.
    assert!(counted[0] > 10_000, "{counted:?}");
    assert!(counted[1] > counted[0] + 1_000, "{counted:?}");
}

/// What a recorder hands out is never refused, and opens as it was.
#[test]
fn what_is_noted_is_written_and_opened() {
    for script in scripts() {
        let (mut recorder, mut lent) = (Recorder::new(Noted::Served), script.lent.clone());
        for call in for_a_take(&script.calls).0 {
            note(call, &mut recorder, &mut lent);
        }
        let records = recorder.records().unwrap();
        let file = file_of(b"from a script", records).unwrap();
        let take = Take::open(&file).unwrap();
        assert_eq!(take.comment(), b"from a script");
        assert!(take.records().eq(records.iter().copied()));
    }
}

/// A chip with the page mapped in, and what it has noted by then.
fn mapped(noted: Noted) -> (Recorder, usize) {
    let mut recorder = Recorder::new(noted);
    for byte in UNLOCK {
        recorder.write_bc(byte);
    }
    let _ = recorder.write_7f(0xB8);
    let noted = recorder.records().unwrap().len();
    (recorder, noted)
}

#[test]
fn each_kind_with_its_line() {
    let (mut recorder, before) = mapped(Noted::Changes);
    let (mut ram, mut store) = (vec![0; RAM], vec![0; STORE]);
    ram[..2].copy_from_slice(&0x4030_u16.to_le_bytes());
    recorder.write_bc(9);
    let _ = recorder.write_bd(7);
    let _ = recorder.page_write(Song, &mut store, 0x6805, 0);
    let _ = recorder.page_write(Song, &mut store, 0x6C0F, 1);
    assert_eq!(line(&mut recorder, &ram, STORE, LINE), 0);
    assert_eq!(recorder.acknowledge().0, 0);
    // Refused, and no line passes.
    assert_eq!(line(&mut recorder, &ram[1..], STORE, LINE), 1);
    assert_eq!(line(&mut recorder, &ram, STORE - 1, LINE), 1);
    assert_eq!(line(&mut recorder, &ram, STORE, LINE + 1), 1);
    let _ = recorder.write_7f(0x83);
    assert_eq!(line(&mut recorder, &ram, STORE, LINE), 4);
    let _ = recorder.write_7f(0x82);
    assert_eq!(recorder.undo(Song, &mut store[1..]), 1);
    assert_eq!(recorder.acknowledge().0, 5);
    assert_eq!(line(&mut recorder, &ram, STORE, LINE), 0);
    let _ = recorder.page_write(Song, &mut store, 0x4000, 0x0F);
    let _ = recorder.undo(Song, &mut store);
    recorder.start(Table {
        palette: 1,
        sprites: 0,
        channels: 0,
    });
    assert_eq!(recorder.page_write(Song, &mut store, 0x6400, 5), 15);
    assert_eq!(recorder.page_write(Picture, &mut store, 0x6400, 5), 0);
    assert_eq!(recorder.undo(Song, &mut store), 10);
    assert_eq!(recorder.undo(Picture, &mut store), 0);
    assert_eq!(recorder.mute(1, true), 0);
    assert_eq!(recorder.mute(3, true), 3);
    assert_eq!(recorder.mute(256, true), 3);
    assert_eq!(line(&mut recorder, &ram, STORE, LINE), 0);
    assert_eq!(recorder.mute(1, false), 0);
    let record = |line, kind, address, value| Record {
        line,
        kind,
        address,
        value,
    };
    let expected = [
        record(0, kind::WRITE_BC, 0, 9),
        record(0, kind::WRITE_BD, 0, 7),
        record(0, kind::PAGE_WRITE, 0x6805, 0),
        record(0, kind::PAGE_WRITE, 0x6C0F, 1),
        record(1, kind::ACKNOWLEDGE, 0, 0),
        record(1, kind::WRITE_7F, 0, 0x83),
        record(1, kind::WRITE_7F, 0, 0x82),
        record(2, kind::PAGE_WRITE, 0x4000, 0x0F),
        record(2, kind::UNDO, 0, 0),
        record(2, kind::START, 0, 0),
        record(2, kind::PICTURE_WRITE, 0x6400, 5),
        record(2, kind::PICTURE_UNDO, 0, 0),
        record(2, kind::MUTE, 1, 1),
        record(3, kind::MUTE, 1, 0),
    ];
    assert_eq!(recorder.records().unwrap()[before..], expected);
}

/// A call that leaves all as it was is noted in the one mode alone.
#[test]
fn calls_that_change_nothing() {
    for (noted, more) in [(Noted::Changes, 0), (Noted::Served, 4)] {
        let (mut recorder, before) = mapped(noted);
        let mut store = vec![0; STORE];
        let before = before + 1;
        recorder.write_bc(3);
        // The register selected again, the page mapped again, no enable set, a channel
        // heard that was not muted.
        recorder.write_bc(3);
        let _ = recorder.write_7f(0xB8);
        let _ = recorder.page_write(Song, &mut store, 0x6C0F, 0);
        let _ = recorder.mute(2, false);
        assert_eq!(recorder.records().unwrap().len(), before + more);
        // A byte that its register has already is kept for undo, which is a change.
        let _ = recorder.page_write(Song, &mut store, 0x6800, 0);
        let _ = recorder.page_write(Song, &mut store, 0x4000, 0);
        assert_eq!(recorder.records().unwrap().len(), before + more + 2);
        // A read is never noted, nor is a line or an export.
        let _ = recorder.page_read(Song, &store, 0x6800, 0);
        assert_eq!(line(&mut recorder, &[0; RAM], STORE, LINE), 0);
        let _ = recorder.export(&mut [0; plus::EXPORT]);
        assert_eq!(recorder.records().unwrap().len(), before + more + 2);
    }
}

/// The record of page writes turns in its ring when it is full.
#[test]
fn more_writes_than_can_be_undone() {
    let (mut recorder, before) = mapped(Noted::Changes);
    let mut store = vec![0; STORE];
    for _ in 0..700 {
        let _ = recorder.page_write(Song, &mut store, 0x4000, 0);
    }
    assert_eq!(recorder.records().unwrap().len(), before + 700);
    for _ in 0..300 {
        let _ = recorder.undo(Song, &mut store);
    }
    assert_eq!(recorder.records().unwrap().len(), before + 700 + 256);
}

/// A table is handed out as it was given, and two with the same owners are one.
#[test]
fn the_table_of_the_starts() {
    let (mut recorder, before) = mapped(Noted::Served);
    assert_eq!(recorder.given_table(), Table::default());
    let table = Table {
        palette: 0x1234_5678,
        sprites: 0x9ABC,
        channels: 0xFD,
    };
    recorder.start(table);
    assert_eq!(recorder.given_table(), table);
    recorder.start(Table {
        channels: 0x05,
        ..table
    });
    assert_eq!(recorder.records().unwrap().len(), before + 2);
    assert_eq!(recorder.given_table(), table);
    // In the other mode a start that leaves all as it was is no change.
    let (mut recorder, before) = mapped(Noted::Changes);
    for _ in 0..3 {
        recorder.start(Table::default());
    }
    assert_eq!(recorder.records().unwrap().len(), before + 1);
}

#[test]
fn two_tables_leave_no_records() {
    let table = Table {
        palette: 1,
        sprites: 2,
        channels: 4,
    };
    for other in [
        Table::default(),
        Table {
            palette: 0,
            ..table
        },
        Table {
            sprites: 3,
            ..table
        },
        Table {
            channels: 0,
            ..table
        },
    ] {
        for noted in [Noted::Changes, Noted::Served] {
            let (mut recorder, _) = mapped(noted);
            for given in [table, table] {
                recorder.start(given);
                assert!(recorder.records().is_ok());
            }
            recorder.start(other);
            assert_eq!(recorder.records(), Err(NoRecords::TwoTables));
            // The first one given again makes no difference, but a reset does.
            recorder.start(table);
            recorder.write_bc(1);
            assert_eq!(recorder.records(), Err(NoRecords::TwoTables));
            recorder.reset();
            assert_eq!(recorder.records(), Ok(&[][..]));
            assert_eq!(recorder.given_table(), Table::default());
            recorder.start(other);
            assert_eq!(recorder.given_table(), other);
            assert_eq!(recorder.records().unwrap().len(), 1);
        }
    }
}

#[test]
fn a_reset_starts_anew() {
    let (mut recorder, _) = mapped(Noted::Changes);
    let _ = line(&mut recorder, &[0; RAM], STORE, LINE);
    recorder.reset();
    assert_eq!(recorder.records(), Ok(&[][..]));
    assert_eq!(**recorder, *Chip::new());
    recorder.write_bc(9);
    let first = recorder.records().unwrap()[0];
    assert_eq!((first.line, first.kind, first.value), (0, 1, 9));
}

/// The calls on lists reach the chip, and are noted in neither mode: a take has none of
/// them, and leads to a chip without an area.
#[test]
fn calls_on_lists_are_not_noted() {
    for noted in [Noted::Changes, Noted::Served] {
        let (mut recorder, before) = mapped(noted);
        let (mut ram, mut store) = (vec![0; RAM], vec![0; STORE]);
        assert_eq!(recorder.area(1, 2), 18);
        assert_eq!(recorder.area(0x8000, 0x8008), 0);
        // INT and STOP, and LOADs behind it.
        let (answer, placed) = recorder.place(&mut ram, &[0x30, 0x40]);
        assert_eq!((answer.number(), placed.address), (0, 0x8000));
        assert_eq!(recorder.place(&mut ram, &[1; 6]).0, 0);
        assert_eq!(recorder.place(&mut ram, &[1; 2]).0, 20);
        assert_eq!(recorder.remove(5), 21);
        assert_eq!(recorder.records().unwrap().len(), before);
        assert_eq!(recorder.bounds(), Some((0x8000, 0x8008)));

        // IVR bit 0 is 0, so that an acknowledge clears the interrupt.
        let _ = recorder.page_write(Song, &mut store, 0x6805, 0);
        let _ = recorder.page_write(Song, &mut store, 0x6C01, 0x80);
        let _ = recorder.page_write(Song, &mut store, 0x6C0F, 1);
        assert_eq!(recorder.remove(0), 22);
        assert_eq!(line(&mut recorder, &ram, STORE, LINE), 0);
        assert_eq!(recorder.remove(0), 0);
        let _ = recorder.acknowledge();
        assert_eq!(recorder.remove(1), 0);
        assert_eq!(recorder.lists().count(), 0);
        let kinds: Vec<u8> = recorder.records().unwrap()[before..]
            .iter()
            .map(|record| record.kind)
            .collect();
        assert_eq!(kinds, [4, 4, 4, 5]);

        // On the RAM that the lists are in, the take leads to all else.
        let file = file_of(b"", recorder.records().unwrap()).unwrap();
        let played = replay(&ram, &mut store, Table::default(), &file).chip;
        assert_eq!((played.bounds(), played.lists().count()), (None, 0));
        let mut expected = **recorder;
        expected.editing.lists = Area::default();
        assert_eq!(*played, expected);
        recorder.reset();
        assert_eq!(recorder.bounds(), None);
    }
}
