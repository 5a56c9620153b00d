//! `plus play`.

use crate::tools::{exported, hexadecimal, plus, repository, Folder};
use plus::{RAM, STORE, TABLE, UNLOCK};
use std::fs;
use std::os::unix::fs::symlink;
use std::path::Path;

/// A take of line numbers, kinds, addresses and values.
fn take(records: &[(u32, u8, u16, u8)]) -> Vec<u8> {
    let mut file = Vec::new();
    for (line, kind, address, value) in records {
        file.extend(line.to_le_bytes());
        file.push(*kind);
        file.extend(address.to_le_bytes());
        file.push(*value);
    }
    file.extend((records.len() as u32).to_le_bytes());
    file.extend([0; 4]);
    file.extend(b"PLTK");
    file
}

/// A list on channel 0 in the last lines of a frame with a split, and calls that are
/// refused on the way.
fn records() -> Vec<(u32, u8, u16, u8)> {
    let mut records: Vec<_> = UNLOCK.iter().map(|&byte| (0, 1, 0, byte)).collect();
    records.extend([(0, 3, 0, 0xB8), (0, 1, 0, 12), (0, 2, 0, 48)]);
    // R4 and R9 are 0 up to here, so that the first line ends a frame.
    for (register, value) in [(1, 40), (4, 38), (6, 25), (9, 7)] {
        records.extend([(1, 1, 0, register), (1, 2, 0, value)]);
    }
    // A raster interrupt on line 55 of the frame; a split there, and on line 311.
    for (address, value) in [(0x6800, 55), (0x6801, 55), (0x6802, 0x12), (0x6803, 0x34)] {
        records.push((1, 4, address, value));
    }
    records.extend([
        (308, 5, 0, 0),
        (308, 5, 0, 0), // refused 5: the raster's was the only one
        (308, 1, 0, 2),
        (308, 2, 0, 1),      // refused 3: R2 is not kept
        (308, 4, 0x7000, 1), // refused 3
        (308, 4, 0x6808, 1), // refused 9
        (308, 4, 0x6C00, 0x00),
        (308, 4, 0x6C01, 0x80),
        (308, 4, 0x6C02, 2),
        (308, 4, 0x4005, 0x0C),
        (308, 4, 0x6400, 0x11),
        (308, 6, 0, 0),
        (308, 4, 0x6C0F, 1),
        (308, 3, 0, 0x81),
        (313, 4, 0x4006, 0x0D),
    ]);
    records
}

/// REPEAT 3, LOAD 7 38h and PAUSE 5, a line each, and then two lines of the pause:
/// with prescale 2 it falls on the third.
fn image() -> Vec<u8> {
    let mut ram = vec![0; RAM];
    ram[0x8000..0x8006].copy_from_slice(&[0x03, 0x20, 0x38, 0x07, 0x05, 0x10]);
    ram
}

/// What wrong use is told in the end.
const USAGE: &str = "usage: plus play RAM STORE TAKE [AFTER] [--table FILE]\n\
                     `plus help play` says more\n";

/// What that prints, worked out by hand.
fn printed() -> String {
    let held = [
        (0x6800, 55),
        (0x6801, 55),
        (0x6802, 0x12),
        (0x6803, 0x34),
        (0x6805, 1),
        (0x6C00, 0x06),
        (0x6C01, 0x80),
        (0x6C02, 2),
    ];
    let still =
        "enabled=0 interrupt=0 address=0000 prescale=0 pause=0 count=0 counter=0 mark=0000 \
                 muted=0";
    format!(
        "\
lines 313
counted 3 2
counted 5 1
counted 9 1
psg 00 00 00 00 00 00 00 38 00 00 00 00 00 00 00 00
channel 0 enabled=1 interrupt=0 address=8006 prescale=2 pause=5 count=2 counter=3 mark=8002 muted=0
channel 1 {still}
channel 2 {still}
crtc selected=2 r1=40 r4=38 r5=0 r6=25 r9=7 r12=48 r13=0
line vc=0 rc=0 adjust=0 address=3000 held=1 split=1234
interrupts raster=0 last_raster=1
gate mode=1 mapped=1 unlocked=1
undo 9 0
export {}
",
        hexadecimal(&exported(&held))
    )
}

/// The three inputs in a folder.
fn inputs(folder: &Folder) -> [String; 3] {
    [
        folder.file("ram", &image()),
        folder.file("store", &[0x0A; STORE]),
        folder.file("take", &take(&records())),
    ]
}

#[test]
fn every_line_of_what_it_prints() {
    let folder = Folder::new();
    let [ram, store, take] = inputs(&folder);
    plus(["play", &ram, &store, &take]).prints(&printed());
}

#[test]
fn a_take_of_nothing() {
    let folder = Folder::new();
    let [ram, store, _] = inputs(&folder);
    let take = folder.file("none", b"\0\0\0\0\0\0\0\0PLTK");
    let still =
        "enabled=0 interrupt=0 address=0000 prescale=0 pause=0 count=0 counter=0 mark=0000 \
                 muted=0";
    let export = hexadecimal(&exported(&[(0x6805, 1)]));
    plus(["play", &ram, &store, &take]).prints(&format!(
        "\
lines 0
psg 00 00 00 00 00 00 00 00 00 00 00 00 00 00 00 00
channel 0 {still}
channel 1 {still}
channel 2 {still}
crtc selected=0 r1=0 r4=0 r5=0 r6=0 r9=0 r12=0 r13=0
line vc=0 rc=0 adjust=0 address=0000 held=0 split=0000
interrupts raster=0 last_raster=0
gate mode=0 mapped=0 unlocked=0
undo 0 0
export {export}
"
    ));
}

/// Two pixels are written, in the place of a longer file too. The inputs stay.
#[test]
fn the_store_after_it() {
    let folder = Folder::new();
    let [ram, store, take_file] = inputs(&folder);
    let mut expected = [0x0A; STORE];
    expected[5..7].copy_from_slice(&[0x0C, 0x0D]);
    for after in [folder.place("new"), folder.file("old", &[0xEE; 5000])] {
        plus(["play", &ram, &store, &take_file, &after]).prints(&printed());
        assert_eq!(fs::read(&after).unwrap(), expected);
    }
    assert_eq!(fs::read(&ram).unwrap(), image());
    assert_eq!(fs::read(&store).unwrap(), [0x0A; STORE]);
    assert_eq!(fs::read(&take_file).unwrap(), take(&records()));
}

#[test]
fn an_input_is_never_written() {
    let folder = Folder::new();
    let [ram, store, take_file] = inputs(&folder);
    let link = folder.place("link");
    symlink(&store, &link).unwrap();
    for after in [&ram, &store, &take_file, &link] {
        let said = format!("plus: play: '{after}' is an input\n{USAGE}");
        plus(["play", &ram, &store, &take_file, after]).fails(2, &said);
    }
    // The table is one too, by whatever name.
    let table = folder.file("table", &[1; TABLE]);
    symlink(&table, folder.place("second")).unwrap();
    for after in [table.clone(), folder.place("second")] {
        for words in [
            ["play", &ram, &store, &take_file, &after, "--table", &table],
            ["play", "--table", &table, &ram, &store, &take_file, &after],
        ] {
            let said = format!("plus: play: '{after}' is an input\n{USAGE}");
            plus(words).fails(2, &said);
        }
    }
    assert_eq!(fs::read(&table).unwrap(), [1; TABLE]);
    assert_eq!(fs::read(&ram).unwrap(), image());
    assert_eq!(fs::read(&store).unwrap(), [0x0A; STORE]);
    assert_eq!(fs::read(&take_file).unwrap(), take(&records()));
}

#[test]
fn what_is_refused_leaves_every_file() {
    let folder = Folder::new();
    let [ram, store, good] = inputs(&folder);
    let (new, old) = (folder.place("new"), folder.file("old", b"a store"));
    let fails = |[ram, store, take]: [&String; 3], said: String| {
        for after in [&new, &old] {
            plus(["play", ram, store, take, after]).fails(1, &said);
        }
        plus(["play", ram, store, take]).fails(1, &said);
    };
    let short = folder.file("short", &[0; RAM - 1]);
    let long = folder.file("long", &[0; STORE + 1]);
    let none = folder.file("none", b"no take");
    fails(
        [&short, &store, &good],
        format!("refused 1: {short} is not an image of 65536 bytes\n"),
    );
    fails(
        [&ram, &long, &good],
        format!("refused 1: {long} is not a store of 4096 bytes\n"),
    );
    // The lengths come before the take.
    fails(
        [&ram, &ram, &none],
        format!("refused 1: {ram} is not a store of 4096 bytes\n"),
    );
    fails(
        [&ram, &store, &none],
        format!("refused 11: {none} has no trailer\n"),
    );
    let unmet = folder.file("unmet", &take(&records())[1..]);
    fails(
        [&ram, &store, &unmet],
        format!("refused 12: the records of {unmet} don't end at its trailer\n"),
    );
    let mut records = records();
    let last = records.len();
    records[last - 1].0 = 307;
    let bad = folder.file("bad", &take(&records));
    fails(
        [&ram, &store, &bad],
        format!("refused 13 record {last}: that record of {bad} is bad\n"),
    );
    assert!(!Path::new(&new).exists());
    assert_eq!(fs::read(&old).unwrap(), b"a store");
    assert_eq!(fs::read(&store).unwrap(), [0x0A; STORE]);
}

/// A take of two editors, whose table is lent: which calls are refused with 15, and
/// what each can undo, tells whose everything was.
#[test]
fn the_table_of_the_starts() {
    let folder = Folder::new();
    let [ram, store, _] = inputs(&folder);
    let mut records: Vec<_> = UNLOCK.iter().map(|&byte| (0, 1, 0, byte)).collect();
    records.extend([(0, 3, 0, 0xB8), (0, 9, 0, 0)]);
    // Entry 9, sprite 9 and channel 2, by each of them; PRI is the picture editor's.
    for address in [0x6413, 0x604A, 0x4955, 0x6C0A, 0x6800] {
        records.extend([(0, 4, address, 5), (0, 7, address, 6)]);
    }
    records.extend([(1, 8, 0, 0), (1, 6, 0, 0), (1, 6, 0, 0)]);
    let take = folder.file("two", &take(&records));
    // The table's bytes; how often an undo finds nothing, what is left to undo, and
    // the pixel, which goes back where it is one of the song editor's last two.
    for (table, ten, undo, pixel) in [
        ([0, 0, 0, 0, 0, 0, 0], 0, "2 0", 0x0A),
        ([0, 2, 0, 0, 0, 2, 4], 2, "0 4", 6),
        ([0, 2, 0, 0, 0, 0, 0], 0, "1 1", 0x0A),
        ([0, 0, 0, 0, 0, 2, 0], 0, "0 2", 6),
        ([0, 0, 0, 0, 0, 0, 0xFC], 0, "1 1", 0x0A),
        ([0xFF, 0xFD, 0xFF, 0xFF, 0xFF, 0xFD, 0xFB], 0, "2 0", 0x0A),
    ] {
        let file = folder.file("table", &table);
        let after = folder.place("after");
        let ran = plus(["play", &ram, &store, &take, "--table", &file, &after]);
        assert_eq!((ran.status, &*ran.err), (Some(0), ""));
        let line = |name: &str| {
            let mut lines = ran.out.lines();
            lines
                .find_map(|line| line.strip_prefix(name))
                .map(str::to_string)
        };
        assert_eq!(line("counted 15 "), Some("5".into()), "{table:?}");
        let expected = (ten > 0).then(|| ten.to_string());
        assert_eq!(line("counted 10 "), expected, "{table:?}");
        assert_eq!(line("undo "), Some(undo.into()), "{table:?}");
        assert_eq!(fs::read(&after).unwrap()[0x955], pixel, "{table:?}");
        // One of zeros is what is taken where none is given.
        if table == [0; TABLE] {
            plus(["play", &ram, &store, &take]).prints(&ran.out);
        }
    }
}

#[test]
fn a_table_of_another_length_is_wrong_use() {
    let folder = Folder::new();
    let [ram, store, take] = inputs(&folder);
    let old = folder.file("old", b"a store");
    for length in [0, 1, 6, 8, 4096] {
        let table = folder.file("table", &vec![0; length]);
        let said = format!("plus: play: '{table}' is not a table of 7 bytes\n{USAGE}");
        plus(["play", &ram, &store, &take, &old, "--table", &table]).fails(2, &said);
    }
    for (words, wrong) in [
        (
            &["play", &ram, &store, &take, "--table"][..],
            "FILE is missing",
        ),
        (&["play", &ram, &store, "--table", &old], "TAKE is missing"),
        (
            &["play", &ram, &store, &take, "--table", "a", "--table", "b"],
            "--table is given twice",
        ),
        (
            &["play", &ram, &store, &take, &old, "x", "--table", "a"],
            "'x' is one argument too many",
        ),
    ] {
        plus(words).fails(2, &format!("plus: play: {wrong}\n{USAGE}"));
    }
    let missing = folder.place("missing");
    let said = format!("{missing}: No such file or directory (os error 2)\n");
    plus(["play", &ram, &store, &take, "--table", &missing]).fails(1, &said);
    assert_eq!(fs::read(&old).unwrap(), b"a store");
}

#[test]
fn files_that_cant_be_read_or_written_are_named() {
    let folder = Folder::new();
    let [ram, store, take] = inputs(&folder);
    let missing = folder.place("missing");
    let said = format!("{missing}: No such file or directory (os error 2)\n");
    plus(["play", &missing, &store, &take]).fails(1, &said);
    plus(["play", &ram, &missing, &take]).fails(1, &said);
    plus(["play", &ram, &store, &missing]).fails(1, &said);
    let out = folder.place("missing/out");
    let said = format!("{out}: No such file or directory (os error 2)\n");
    plus(["play", &ram, &store, &take, &out]).fails(1, &said);
}

/// A mute in a take: its channel's line says so, and no other line.
#[test]
fn a_channel_that_is_muted() {
    let folder = Folder::new();
    let [ram, store, _] = inputs(&folder);
    let text = folder.file(
        "text",
        b"0 10 1 1\n0 10 2 1\n3 10 2 0\n3 10 3 1\n3 10 256 1\n",
    );
    let out = folder.place("muted");
    plus(["take", &text, &out]).prints("");
    let muted = plus(["play", &ram, &store, &out]).out;
    let none = folder.file("none", b"\0\0\0\0\0\0\0\0PLTK");
    let still = plus(["play", &ram, &store, &none]).out;
    let channel = |line: &&str| line.starts_with("channel ");
    let marks = |text: &str| -> Vec<String> {
        let lines = text.lines().filter(channel);
        lines
            .map(|line| line[line.len() - 8..].to_string())
            .collect()
    };
    assert_eq!(marks(&still), [" muted=0"; 3]);
    assert_eq!(marks(&muted), [" muted=0", " muted=1", " muted=0"]);
    let lines = muted.replace("muted=1", "muted=0");
    assert_eq!(lines, still.replace("lines 0\n", "lines 3\ncounted 3 2\n"));
}

/// The take of a scene leads to what the scene leads to.
#[test]
fn the_example() {
    let folder = Folder::new();
    let out = folder.place("export");
    let scene = repository("examples/arpeggio.scene");
    plus(["export".as_ref(), scene.as_os_str(), out.as_ref()]).prints("159 registers\n");
    let [ram, store, take] = ["arpeggio.list", "blank.store", "arpeggio.take"]
        .map(|name| repository(&format!("examples/{name}")));
    let ran = plus([
        "play".as_ref(),
        ram.as_os_str(),
        store.as_os_str(),
        take.as_os_str(),
    ]);
    assert_eq!((ran.status, &*ran.err), (Some(0), ""));
    let export = format!("export {}", hexadecimal(&fs::read(&out).unwrap()));
    assert_eq!(ran.out.lines().last(), Some(&*export));
}
