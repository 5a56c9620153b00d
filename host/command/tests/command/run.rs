//! `plus run`.

use crate::tools::{command, exported, hexadecimal, plus, repository, Folder, Ran, Scene};
use plus::{RAM, STORE, UNLOCK};
use std::fs::{self, File};
use std::io;
use std::os::unix::fs::symlink;
use std::path::Path;

/// What wrong use is told in the end.
const USAGE: &str = "usage: plus run FILE [--take OUT] [--table FILE]\n`plus help run` says more\n";

/// A stored input, and the stored output: what the proved runner prints on it.
fn stored(name: &str) -> (Vec<u8>, String) {
    let input = fs::read(repository(&format!("{name}in"))).unwrap();
    let output = fs::read_to_string(repository(&format!("{name}out"))).unwrap();
    (input, output)
}

#[test]
fn prints_what_the_proved_runner_prints() {
    for name in ["mixed", "editors"] {
        let (_, expected) = stored(&format!("tests/runner/{name}."));
        let input = repository(&format!("tests/runner/{name}.in"));
        plus(["run".as_ref(), input.as_os_str()]).prints(&expected);
    }
    // One with unknown letters, which are told after all is printed.
    let (_, expected) = stored("tests/runner/bad.");
    let input = repository("tests/runner/bad.in");
    let ran = plus(["run".as_ref(), input.as_os_str()]);
    assert_eq!((ran.status, ran.out), (Some(1), expected));
    assert_eq!(ran.err.lines().count(), 1, "{}", ran.err);
    // The runner's own stored run has every letter in it, and ends early.
    let (input, expected) = stored("crates/plus_run/std");
    let path = repository("crates/plus_run/stdin");
    let ran = plus(["run".as_ref(), path.as_os_str()]);
    assert_eq!(ran.out, expected);
    let record = (input.len() - RAM - STORE) / 4 + 1;
    let said = format!("at byte {}, in record number {record}\n", input.len());
    assert!(ran.err.ends_with(&said), "{}", ran.err);
    assert_eq!(ran.status, Some(1));
}

/// A scene that has each letter, with its lines worked out by hand.
#[test]
fn each_letter() {
    let mut scene = Scene::new();
    scene.ram[0x8000..0x8006].copy_from_slice(&[0x38, 0x07, 0x02, 0x10, 0x20, 0x40]);
    let scene = scene
        .record('F', 0x8001, 2)
        .record('A', 0, 0)
        .record('G', 0, 0x40)
        .record('R', 0x6000, 0x12)
        .each('B', &UNLOCK)
        .record('D', 0, 0)
        .record('G', 0, 0xB8)
        .record('W', 0x6C09, 0x80)
        .record('W', 0x6C0F, 0x04)
        .record('W', 0x6800, 0x64)
        .record('U', 0x6C09, 0x12)
        .record('R', 0x6800, 0x12)
        // The processor writes a PSG register while channel 2 has its turn, and on
        // the next line for all three.
        .each('L', &[0x20, 0xFF])
        // INT in the place of STOP.
        .record('M', 0x8004, 0x10)
        .each('L', &[0, 0])
        .record('A', 0, 0)
        .record('R', 0x6C0F, 0)
        // A line shown, while the processor writes a PSG register for channel 2; and
        // in mode 3 none, of either letter.
        .record('P', 0x1234, 0x20)
        .record('G', 0, 0x83)
        .each('P', &[0x20])
        .each('L', &[0x20])
        .record('E', 0x6C09, 0x12)
        .record('x', 0, 0)
        .record('Z', 0, 0)
        .record('U', 0, 0)
        .record('R', 0x6000, 0x12);
    let lines = [
        &["0 8 13 6 15", "5 0", "3", "2 0"][..],
        &["0"; 17],
        // The last byte, EEh, has selected register 14.
        &["3", "0", "0", "0", "0", "0", "0 18"],
        &["0 12 - - load 1848", "0 3 - - pause 2", "0"],
        &["0 1 - - -", "0 3 - - control 16"],
        // IVR 01h: the vector 0, and the interrupt stays.
        &["0 0", "0 20"],
        // R6 is 0, so all is border; the word after the three is a LOAD.
        &[&format!("0 {} 12 - - load 0", "g".repeat(640)), "0"],
        &["4", "4 0 - - -"],
        // IVR, and channel 2 behind its four words.
        &[&format!(
            "0 {}",
            hexadecimal(&exported(&[(0x6805, 1), (0x6C08, 8), (0x6C09, 0x80)]))
        )],
        &["bad", "0", "10", "2 0"],
    ];
    let folder = Folder::new();
    let file = folder.file("each.scene", &scene.bytes());
    let ran = plus(["run", &file]);
    assert_eq!(ran.out, lines.concat().join("\n") + "\n");
    let said = format!("{file}: record number 41 has the unknown letter 'x'\n");
    assert_eq!((ran.status, ran.err), (Some(1), said));
}

/// The letters of the two editors and of the start, with their lines worked out by
/// hand.
#[test]
fn each_letter_of_the_editors() {
    let scene = Scene::new()
        .each('B', &UNLOCK)
        .record('G', 0, 0xB8)
        // Without a table both write everything, and each undoes its own.
        .record('W', 0x6400, 0x11)
        .record('w', 0x6400, 0x22)
        .record('U', 0x1234, 0x56)
        .record('r', 0x6400, 0x99)
        .record('U', 0, 0)
        .record('u', 0x1234, 0x56)
        .record('R', 0x6400, 0x99)
        // Entry 9, sprite 8 and channels 0 and 2 are the picture editor's.
        .record('T', 1, 0x02)
        .record('T', 5, 0x01)
        .record('T', 6, 0xFD)
        // Nowhere, and a place that no table has.
        .record('T', 16, 0xFF)
        .record('T', 0x0106, 0xFF)
        .record('T', 0xFFFF, 0xFF)
        .record('T', 15, 0xFF)
        .record('S', 0x1234, 0x56)
        .record('W', 0x6412, 1)
        .record('w', 0x6412, 1)
        .record('W', 0x6400, 1)
        .record('w', 0x6400, 1)
        .record('w', 0x4800, 1)
        .record('W', 0x4700, 1)
        .record('w', 0x6805, 1)
        .record('W', 0x6804, 1)
        .record('w', 0x6808, 1)
        .record('w', 0x6C0F, 0x07)
        .record('R', 0x6C00, 0)
        .record('r', 0x6C00, 0)
        .record('r', 0x3FFF, 0)
        // The bytes that wait are still there; the records are empty after it.
        .record('S', 0, 0)
        .record('u', 0, 0)
        .record('W', 0x6412, 1)
        .record('T', 1, 0x00)
        .record('S', 0, 0)
        .record('W', 0x6412, 1)
        // A reset clears them, and the table.
        .record('Z', 0, 0)
        .each('B', &UNLOCK)
        .record('G', 0, 0xB8)
        .record('W', 0x6805, 1)
        .record('S', 0, 0)
        .record('W', 0x6C02, 1)
        .record('w', 0x4800, 1)
        .record('t', 0, 0);
    let lines = [
        &["0"; 18][..],
        &["0", "0", "0", "0 0", "10", "0", "0 17"],
        &["0"; 8],
        &["15", "0", "0", "15", "0", "0", "15", "15", "9"],
        &["0", "0 0", "0 5", "2 0"],
        &["0", "10", "15", "0", "0", "0"],
        &["0"; 1 + 17 + 1],
        &["0", "0", "0", "15", "bad"],
    ];
    let folder = Folder::new();
    let file = folder.file("editors.scene", &scene.bytes());
    let ran = plus(["run", &file]);
    assert_eq!(ran.out, lines.concat().join("\n") + "\n");
    assert_eq!(ran.status, Some(1));
}

/// The letters of muting and of the PSG, with their lines worked out by hand.
#[test]
fn each_letter_of_muting() {
    let mut scene = Scene::new();
    // LOADs of registers 8 and 15: 0F, 0E, 0D; and 0C on two channels.
    let loads = [0x0F, 0x08, 0x0E, 0x0F, 0x0D, 0x08, 0x0C, 0x08];
    scene.ram[..8].copy_from_slice(&loads);
    let psg = |eighth: u8, last: u8| {
        let mut registers = [0; 16];
        (registers[8], registers[15]) = (eighth, last);
        format!("0 {}", hexadecimal(&registers))
    };
    let scene = scene
        .each('B', &UNLOCK)
        .record('G', 0, 0xB8)
        // Address and value of H say nothing.
        .record('H', 0x1234, 0x56)
        .record('W', 0x6C0F, 1)
        .record('Q', 0, 0xFF)
        .record('L', 0, 2)
        .record('H', 0, 0)
        // No channels, of which the second has the low byte of one.
        .record('Q', 3, 0)
        .record('Q', 0x0100, 0)
        .record('Q', 0xFFFF, 1)
        .record('L', 0, 0)
        .record('H', 0, 0)
        .record('Q', 0, 0)
        .record('L', 0, 0)
        .record('H', 0, 0)
        // Channel 2 at the fourth word as well, which it alone is heard with.
        .record('W', 0x6C08, 6)
        .record('W', 0x6C0F, 5)
        .record('Q', 0, 2)
        .record('L', 0, 0)
        .record('H', 0, 0)
        .record('Z', 0, 0)
        .record('H', 0, 0)
        .record('h', 0, 0)
        .record('q', 0, 0);
    let lines = [
        vec!["0".to_string(); 18],
        vec![psg(0, 0), "0".into(), "0".into()],
        vec!["0 12 load 2063 - -".into(), psg(0, 0)],
        vec!["3".into(), "3".into(), "3".into()],
        vec!["0 10 load 3854 - -".into(), psg(0, 0), "0".into()],
        vec!["0 10 load 2061 - -".into(), psg(0x0D, 0)],
        vec!["0".into(), "0".into(), "0".into()],
        vec!["0 19 load 2060 - load 2060".into(), psg(0x0C, 0)],
        vec!["0".into(), psg(0, 0), "bad".into(), "bad".into()],
    ];
    let folder = Folder::new();
    let file = folder.file("mute.scene", &scene.bytes());
    let ran = plus(["run", &file]);
    assert_eq!(ran.out, lines.concat().join("\n") + "\n");
    assert_eq!(ran.status, Some(1));
}

/// The example's registers, as its comments say them: 0, 7 and 8 are set.
#[test]
fn the_example_of_muting() {
    let scene = repository("examples/mute.scene");
    let ran = plus(["run".as_ref(), scene.as_os_str()]);
    assert_eq!((ran.status, &*ran.err), (Some(0), ""));
    let lines: Vec<&str> = ran.out.lines().collect();
    let digits = |text: &&str| text.len() == 32 && !text.contains(' ');
    let told = lines.iter().filter_map(|line| line.strip_prefix("0 "));
    let psg: Vec<&str> = told.filter(digits).collect();
    let shown = |first: u8| {
        let mut registers = [0; 16];
        (registers[0], registers[7], registers[8]) = (first, 0x38, 0x0F);
        hexadecimal(&registers)
    };
    assert_eq!(psg, [0xEE, 0xEE, 0x9F, 0xEE, 0xEE].map(shown));
    assert_eq!(lines.iter().filter(|&&line| line == "3").count(), 1);
    assert!(lines.contains(&"0 64"));
}

/// The bounds 8000h and 8012h, low byte first.
const BOUNDS: [u8; 8] = [0x00, 0x80, 0, 0, 0x12, 0x80, 0, 0];

/// A list that plays for four lines: LOAD 7 38, PAUSE 2, STOP.
const LIST: [u8; 6] = [0x38, 0x07, 0x02, 0x10, 0x20, 0x40];

/// The letters of placed lists, with their lines worked out by hand. What a forecast
/// says shows what is in RAM.
#[test]
fn each_letter_of_lists() {
    let mut scene = Scene::new();
    scene.ram[0x4000..0x4006].copy_from_slice(&LIST);
    // From the end of RAM on to its start: PAUSE 1 and STOP.
    scene.ram[0xFFFE..].copy_from_slice(&[0x01, 0x10]);
    scene.ram[..2].copy_from_slice(&[0x20, 0x40]);
    let scene = scene
        // No area yet, and none with the bounds 0 and 0.
        .record('N', 0, 0)
        .record('K', 0x4000, 6)
        .record('X', 0, 0)
        .wait(7, &BOUNDS)
        // Address and value say nothing here. It is given once.
        .record('N', 0x1234, 0x56)
        .record('N', 0, 0)
        .record('K', 0x4000, 6)
        .record('K', 0xFFFE, 4)
        .record('F', 0x8006, 0)
        // No bytes, an odd number, and 262 of them, by the byte that waits.
        .record('K', 0x4000, 0)
        .record('K', 0x4000, 7)
        .record('T', 15, 1)
        .record('K', 0x4000, 6)
        .record('T', 15, 0)
        // Eight are left, which are copied from the area itself.
        .record('K', 0x4000, 10)
        .record('K', 0x8000, 8)
        .record('F', 0x800A, 0)
        // The first one plays.
        .each('B', &UNLOCK)
        .record('G', 0, 0xB8)
        .record('W', 0x6C01, 0x80)
        .record('W', 0x6C0F, 0x01)
        .record('X', 0x1234, 0)
        .record('X', 0, 1)
        .each('X', &[1, 64, 255])
        .record('K', 0x4000, 4)
        .each('L', &[0; 4])
        .record('X', 0, 0)
        // A reset clears the bounds that wait, and leaves RAM.
        .record('Z', 0, 0)
        .record('F', 0x8000, 0)
        .record('K', 0x4000, 6)
        .record('N', 0, 0)
        .wait(7, &BOUNDS)
        .record('N', 0, 0)
        .record('K', 0x4000, 6);
    let lines = [
        &["18", "18 0 0", "18"][..],
        &["0"; 8],
        &["0", "18", "0 32768 0", "0 32774 1", "0 2 4 4 4"],
        &["18 0 0", "18 0 0", "0", "18 0 0", "0"],
        &["20 0 0", "0 32778 2", "0 4 13 6 15"],
        &["0"; 17 + 3],
        &["22", "0", "21", "21", "21", "0 32774 1"],
        &["0 10 load 1848 - -", "0 3 pause 2 - -"],
        &["0 1 - - -", "0 3 control 32 - -", "0"],
        &["0", "0 4 13 6 15", "18 0 0", "18"],
        &["0"; 8],
        &["0", "0 32768 0"],
    ];
    let folder = Folder::new();
    let file = folder.file("lists.scene", &scene.bytes());
    plus(["run", &file]).prints(&(lines.concat().join("\n") + "\n"));
}

/// All of RAM as the area, lists of more than 255 bytes, and 64 of them.
#[test]
fn many_and_long_lists() {
    let scene = Scene::new()
        .wait(7, &[0, 0, 0, 0, 0, 0, 1, 0])
        .record('N', 0, 0)
        .record('T', 15, 0x81)
        // 33,026 bytes, from the end of RAM on.
        .record('K', 0xFFFF, 2)
        .record('K', 0, 2)
        .record('T', 15, 0)
        .record('K', 0, 254);
    let scene = (0..62).fold(scene, |scene, _| scene.record('K', 0, 2));
    let scene = scene.record('K', 0, 2).record('X', 0, 63).record('K', 0, 4);
    let mut lines = ["0"; 10].join("\n") + "\n0 0 0\n20 0 0\n0\n0 33026 1\n";
    for n in 0..62 {
        lines += &format!("0 {} {}\n", 33_280 + 2 * n, 2 + n);
    }
    lines += "19 0 0\n0\n0 33402 63\n";
    let folder = Folder::new();
    let file = folder.file("many.scene", &scene.bytes());
    plus(["run", &file]).prints(&lines);
}

/// All is printed, and the first is told, by what it is; beside it that the scene
/// ends early.
#[test]
fn unknown_letters() {
    let folder = Folder::new();
    let scene = Scene::new().each('B', &[1, 2]).each('\0', &[0]);
    let mut bytes = scene.each('b', &[0]).each('B', &[3]).bytes();
    let file = folder.file("bad.scene", &bytes);
    let ran = plus(["run", &file]);
    let unknown = format!("{file}: record number 3 has the unknown letter '\\x00'\n");
    assert_eq!((ran.status, &*ran.err), (Some(1), &*unknown));
    assert_eq!(ran.out, "0\n0\nbad\nbad\n0\n");
    bytes.pop();
    let file = folder.file("bad.scene", &bytes);
    let ran = plus(["run", &file]);
    let early = format!("{file}: the scene ends early, at byte 69651, in record number 5\n");
    assert_eq!((ran.status, ran.err), (Some(1), unknown + &early));
    assert_eq!(ran.out, "0\n0\nbad\nbad\nshort\n");
}

#[test]
fn no_records() {
    let folder = Folder::new();
    let file = folder.file("empty.scene", &Scene::new().bytes());
    plus(["run", &file]).prints("");
}

#[test]
fn a_scene_that_ends_early_says_where() {
    let folder = Folder::new();
    let (whole, lines) = stored("tests/runner/mixed.");
    let cases = [
        (0, 0, "in RAM (bytes 0 to 65535)"),
        (65_535, 0, "in RAM (bytes 0 to 65535)"),
        (65_536, 0, "in the pixel store (bytes 65536 to 69631)"),
        (69_631, 0, "in the pixel store (bytes 65536 to 69631)"),
        (69_633, 0, "in record number 1"),
        (69_642, 2, "in record number 3"),
        (69_643, 2, "in record number 3"),
        (135_171, 16_384, "in record number 16385"),
    ];
    for (bytes, whole_lines, place) in cases {
        let file = folder.file("cut.scene", &whole[..bytes]);
        let ran = plus(["run", &file]);
        let printed: String = lines.split_inclusive('\n').take(whole_lines).collect();
        assert_eq!(ran.out, printed + "short\n");
        let said = format!("{file}: the scene ends early, at byte {bytes}, {place}\n");
        assert_eq!((ran.status, ran.err), (Some(1), said));
    }
}

#[test]
fn a_file_that_cant_be_read_is_named() {
    let missing = Folder::new().place("missing.scene");
    let said = format!("{missing}: No such file or directory (os error 2)\n");
    plus(["run", &missing]).fails(1, &said);
}

/// A reader that has had enough: no panic, nothing said.
#[test]
fn a_closed_output_ends_it_quietly() {
    let mixed = repository("tests/runner/mixed.in");
    let list = repository("examples/arpeggio.list");
    for words in [
        ["run".as_ref(), mixed.as_os_str()],
        ["forecast".as_ref(), list.as_os_str()],
    ] {
        let (reader, writer) = io::pipe().unwrap();
        drop(reader);
        let output = command(words).stdout(writer).output().unwrap();
        let ran = Ran::from(output);
        assert_eq!((ran.status, &*ran.err), (Some(0), ""));
    }
}

#[test]
fn an_output_that_cant_be_written_is_named() {
    let mixed = repository("tests/runner/mixed.in");
    let full = File::options().write(true).open("/dev/full").unwrap();
    let output = command(["run".as_ref(), mixed.as_os_str()])
        .stdout(full)
        .output();
    let said = "standard output: No space left on device (os error 28)\n";
    Ran::from(output.unwrap()).fails(1, said);
}

/// A scene with a call of each kind, served and refused, some of which leave all as
/// it was, and its take worked out by hand: line, kind, address, value.
fn recorded() -> (Scene, Vec<[u16; 4]>) {
    let mut scene = Scene::new();
    scene.ram[..2].copy_from_slice(&0x4030_u16.to_le_bytes());
    let scene = scene
        .record('D', 0, 1)
        .each('B', &UNLOCK)
        .record('G', 0x1234, 0xB8)
        .record('G', 0, 0x40)
        .each('L', &[0, 0])
        .each('B', &[9, 9])
        .record('D', 0x1234, 7)
        .record('W', 0x6C0F, 1)
        .record('W', 0x7000, 1)
        .record('A', 0x1234, 9)
        .record('R', 0x6800, 0)
        // A line that is shown, and five that mode 3 refuses.
        .record('P', 0, 0)
        .refused_lines(5)
        .record('A', 0x1234, 9)
        .record('F', 0, 0)
        .record('E', 0, 0)
        .record('W', 0x4000, 0xFF)
        .record('U', 0x1234, 9)
        .record('U', 0, 0)
        // A mute is noted with 1 or 0, and not where it is refused; the PSG is not.
        .record('Q', 1, 0x80)
        .record('H', 0, 0)
        .record('Q', 3, 1)
        .record('Q', 0x0100, 1)
        .record('Q', 2, 0)
        .record('L', 0, 0);
    let unlocking = UNLOCK.map(|byte| [0, 1, 0, byte.into()]);
    let rest = [
        [0, 3, 0, 0xB8],
        [2, 1, 0, 9],
        [2, 1, 0, 9],
        [2, 2, 0, 7],
        [2, 4, 0x6C0F, 1],
        [3, 3, 0, 0x83],
        [3, 3, 0, 0x80],
        [3, 5, 0, 0],
        [3, 4, 0x4000, 0xFF],
        [3, 6, 0, 0],
        [3, 10, 1, 1],
        [3, 10, 2, 0],
    ];
    (scene, [&unlocking[..], &rest].concat())
}

#[test]
fn a_take_of_every_served_call() {
    let (scene, records) = recorded();
    let folder = Folder::new();
    let file = folder.file("recorded.scene", &scene.bytes());
    let printed = plus(["run", &file]).out;
    let lines =
        |[line, kind, address, value]: &[u16; 4]| format!("{line} {kind} {address} {value}\n");
    let expected: String = records.iter().map(lines).collect();
    let out = folder.place("recorded.take");
    for words in [
        ["run", &file, "--take", &out],
        ["run", "--take", &out, &file],
    ] {
        plus(words).prints(&printed);
        plus(["records", &out]).prints(&format!("comment 0\n{expected}"));
        fs::write(&out, vec![0; 100_000]).unwrap();
    }
}

/// A scene of two editors whose starts give one table, and the records after its
/// unlocking.
fn of_editors(tables: &[[u8; 7]]) -> (Scene, &'static str) {
    let mut scene = Scene::new().each('B', &UNLOCK).record('G', 0, 0xB8);
    for table in tables {
        scene = scene.wait(0, table).record('S', 9, 9).record('L', 0, 0);
    }
    let scene = scene
        .record('W', 0x6C02, 3)
        .record('w', 0x6C06, 4)
        .record('w', 0x6C02, 5)
        .record('U', 9, 9)
        .record('L', 0, 0)
        .record('u', 9, 9)
        .record('r', 0x6C00, 9);
    (scene, "4 27650 3\n7 27654 4\n6 0 0\n8 0 0\n")
}

#[test]
fn a_take_of_both_editors_and_their_table() {
    let folder = Folder::new();
    // The second gives the same owners, by a bit that doesn't count.
    let tables = [[1, 2, 3, 4, 5, 6, 0xFA], [1, 2, 3, 4, 5, 6, 0x02]];
    let (scene, calls) = of_editors(&tables);
    let file = folder.file("editors.scene", &scene.bytes());
    let printed = plus(["run", &file]);
    assert_eq!(printed.status, Some(0));
    let (out, table) = (folder.place("take"), folder.place("table"));
    plus(["run", &file, "--table", &table, "--take", &out]).prints(&printed.out);
    assert_eq!(fs::read(&table).unwrap(), tables[0]);
    let records = plus(["records", &out]).out;
    let kinds: Vec<&str> = records.lines().skip(1 + 18).collect();
    let mut calls = calls.lines();
    let mut next = |line: u32| format!("{line} {}", calls.next().unwrap());
    let expected = [
        "0 9 0 0".to_string(),
        "1 9 0 0".to_string(),
        next(2),
        next(2),
        next(2),
        next(3),
    ];
    assert_eq!(kinds, expected);
    // Played with that table nothing is refused, and with none some calls are.
    let (ram, store) = (
        folder.file("ram", &[0; RAM]),
        folder.file("store", &[0; STORE]),
    );
    let played = |words: &[&str]| {
        let ran = plus([&["play", &ram, &store, &out], words].concat());
        assert_eq!(ran.status, Some(0));
        ran.out.contains("counted ")
    };
    assert!(!played(&["--table", &table]));
    assert!(played(&[]));
    // In the place of a longer file, and with the take alone.
    fs::write(&table, [7; 100]).unwrap();
    plus(["run", &file, "--take", &out, "--table", &table]).prints(&printed.out);
    assert_eq!(fs::read(&table).unwrap(), tables[0]);
    let before = fs::read(&out).unwrap();
    plus(["run", &file, "--take", &out]).prints(&printed.out);
    assert_eq!(fs::read(&out).unwrap(), before);
}

#[test]
fn no_start_is_a_table_of_zeros() {
    let folder = Folder::new();
    let file = folder.file("none.scene", &of_editors(&[]).0.bytes());
    let (out, table) = (folder.place("take"), folder.place("table"));
    let ran = plus(["run", &file, "--take", &out, "--table", &table]);
    assert_eq!(ran.status, Some(0));
    assert_eq!(fs::read(&table).unwrap(), [0; 7]);
}

/// By its palette entries, its sprites or its channels.
#[test]
fn two_tables_have_no_take() {
    let folder = Folder::new();
    let (new, old) = (folder.place("new"), folder.file("old", b"a take"));
    for place in 0..7 {
        let mut other = [1, 2, 3, 4, 5, 6, 2];
        other[place] ^= 4;
        let (scene, _) = of_editors(&[[1, 2, 3, 4, 5, 6, 2], other, [1, 2, 3, 4, 5, 6, 2]]);
        let file = folder.file("two.scene", &scene.bytes());
        let said = format!("{file}: no take: the starts give two tables\n");
        plus(["run", &file, "--take", &old]).fails(1, &said);
        plus(["run", &file, "--take", &old, "--table", &new]).fails(1, &said);
        plus(["run", &file, "--take", &new, "--table", &old]).fails(1, &said);
        assert_eq!(plus(["run", &file]).status, Some(0));
    }
    assert!(!Path::new(&new).exists());
    assert_eq!(fs::read(&old).unwrap(), b"a take");
}

#[test]
fn wrong_use_of_the_table() {
    let folder = Folder::new();
    let file = folder.file("editors.scene", &of_editors(&[]).0.bytes());
    let (new, old) = (folder.place("new"), folder.file("old", b"a table"));
    symlink("old", folder.place("link")).unwrap();
    symlink("new", folder.place("later")).unwrap();
    let link = folder.place("link");
    let one = |path: &str| format!("'{path}' is given for take and table");
    for (words, wrong) in [
        (
            &["run", &file, "--table", &old][..],
            "--table goes with --take".into(),
        ),
        (&["run", "--table", &old], "FILE is missing".into()),
        (
            &["run", &file, "--take", &new, "--table"],
            "FILE is missing".into(),
        ),
        (
            &["run", &file, "--take", &new, "--table", &file],
            format!("'{file}' is an input"),
        ),
        (&["run", &file, "--take", &old, "--table", &old], one(&old)),
        (&["run", &file, "--take", &old, "--table", &link], one(&old)),
        (
            &["run", &file, "--take", &link, "--table", &old],
            one(&link),
        ),
        (&["run", &file, "--take", &new, "--table", &new], one(&new)),
        (
            &[
                "run",
                &file,
                "--take",
                &new,
                "--table",
                &folder.place("./new"),
            ],
            one(&new),
        ),
        (
            &[
                "run",
                &file,
                "--take",
                &new,
                "--table",
                &folder.place("later"),
            ],
            one(&new),
        ),
    ] {
        plus(words).fails(2, &format!("plus: run: {wrong}\n{USAGE}"));
    }
    assert!(!Path::new(&new).exists());
    assert_eq!(fs::read(&old).unwrap(), b"a table");
    // What is no file is no place that could be lost.
    let ran = plus(["run", &file, "--take", "/dev/null", "--table", "/dev/null"]);
    assert_eq!(ran.status, Some(0));
}

#[test]
fn an_empty_scene_has_an_empty_take() {
    let folder = Folder::new();
    let file = folder.file("empty.scene", &Scene::new().bytes());
    let out = folder.place("empty.take");
    plus(["run", &file, "--take", &out]).prints("");
    assert_eq!(fs::read(&out).unwrap(), b"\0\0\0\0\0\0\0\0PLTK");
}

#[test]
fn a_scene_that_resets_or_changes_ram_has_no_take() {
    let folder = Folder::new();
    let (new, old) = (folder.place("new"), folder.file("old", b"a take"));
    for (scene, why) in [
        (
            Scene::new()
                .each('L', &[0, 0])
                .record('Z', 0, 0)
                .record('M', 0, 1),
            "record number 3 resets",
        ),
        (
            Scene::new()
                .record('B', 0, 1)
                .record('M', 0x8000, 0x20)
                .record('Z', 0, 0),
            "record number 2 changes RAM",
        ),
    ] {
        let file = folder.file("none.scene", &scene.bytes());
        let said = format!("{file}: no take: {why}\n");
        for out in [&new, &old] {
            plus(["run", &file, "--take", out]).fails(1, &said);
        }
        assert_eq!(plus(["run", &file]).status, Some(0));
    }
    assert!(!Path::new(&new).exists());
    assert_eq!(fs::read(&old).unwrap(), b"a take");
}

/// A list that is placed changes RAM, so that there is no take; one that is refused
/// does not, and area and removals are left out of it.
#[test]
fn a_scene_that_places_a_list_has_no_take() {
    let folder = Folder::new();
    let (new, old) = (folder.place("new"), folder.file("old", b"a take"));
    let given = |scene: Scene| scene.wait(7, &BOUNDS).record('N', 0, 0);
    let scene = given(Scene::new().record('B', 0, 1))
        .record('K', 0, 3)
        .record('K', 0, 2)
        .record('M', 0, 1);
    let file = folder.file("placed.scene", &scene.bytes());
    let said = format!("{file}: no take: record number 12 places a list in RAM\n");
    for out in [&new, &old] {
        plus(["run", &file, "--take", out]).fails(1, &said);
        plus([
            "run",
            &file,
            "--take",
            out,
            "--table",
            &folder.place("table"),
        ])
        .fails(1, &said);
    }
    assert!(!Path::new(&new).exists());
    assert!(!Path::new(&folder.place("table")).exists());
    assert_eq!(fs::read(&old).unwrap(), b"a take");
    assert_eq!(plus(["run", &file]).status, Some(0));

    let (scene, records) = recorded();
    let scene = given(scene.record('K', 0, 2).record('X', 0, 0))
        .record('N', 0, 0)
        .record('K', 0, 20)
        .record('X', 0, 0)
        .record('L', 0, 0)
        .record('B', 0, 5);
    let file = folder.file("refused.scene", &scene.bytes());
    assert_eq!(plus(["run", &file, "--take", &new]).status, Some(0));
    let printed = plus(["records", &new]).out;
    let lines: Vec<&str> = printed.lines().skip(1).collect();
    assert_eq!(lines.len(), records.len() + 1);
    // Four lines before it were served in the scene that it follows, and one more.
    assert_eq!(lines.last(), Some(&"5 1 0 5"));
}

#[test]
fn a_scene_that_ends_early_saves_no_take() {
    let folder = Folder::new();
    let mut bytes = Scene::new().each('L', &[0, 0]).bytes();
    for cut in [1, 4 + 4 + 1] {
        bytes.truncate(bytes.len() - cut);
        let file = folder.file("cut.scene", &bytes);
        let old = folder.file("old", b"a take");
        let table = folder.place("table");
        let (ran, alone) = (
            plus(["run", &file, "--take", &old, "--table", &table]),
            plus(["run", &file]),
        );
        assert_eq!(
            (ran.status, ran.out, ran.err),
            (Some(1), alone.out, alone.err)
        );
        assert_eq!(fs::read(&old).unwrap(), b"a take");
        assert!(!Path::new(&table).exists());
    }
}

/// The take is there though nobody reads what is printed.
#[test]
fn a_take_is_saved_before_anything_is_printed() {
    let folder = Folder::new();
    let file = folder.file("recorded.scene", &recorded().0.bytes());
    let out = folder.place("recorded.take");
    let (reader, writer) = io::pipe().unwrap();
    drop(reader);
    let words = ["run", &file, "--take", &out];
    let ran = command(words).stdout(writer).output().unwrap();
    assert_eq!(ran.status.code(), Some(0));
    assert_eq!(plus(["records", &out]).out.lines().count(), 1 + 17 + 12);
    // Where it can't be written, nothing is printed; nor where the table can't, and
    // then the take is left alone.
    let nowhere = folder.place("missing/out");
    let said = format!("{nowhere}: No such file or directory (os error 2)\n");
    plus(["run", &file, "--take", &nowhere]).fails(1, &said);
    let old = folder.file("old", b"a take");
    plus(["run", &file, "--take", &old, "--table", &nowhere]).fails(1, &said);
    assert_eq!(fs::read(&old).unwrap(), b"a take");
}

#[test]
fn wrong_use_of_the_option() {
    let folder = Folder::new();
    let file = folder.file("recorded.scene", &recorded().0.bytes());
    let old = folder.file("old", b"a take");
    for (words, wrong) in [
        (&["run", &file, "--take"][..], "OUT is missing"),
        (&["run", "--take", &old], "FILE is missing"),
        (&["run", &file, &old], "OLD is one argument too many"),
        (
            &["run", &file, "--take", &old, "x"],
            "'x' is one argument too many",
        ),
        (&["run", &file, "--take", "-x"], "there is no option '-x'"),
        (
            &["run", &file, "--take", &old, "--take", "x"],
            "--take is given twice",
        ),
        (
            &["run", &file, "--take", &old, "--fast"],
            "there is no option '--fast'",
        ),
    ] {
        let wrong = wrong.replace("OLD", &format!("'{old}'"));
        plus(words).fails(2, &format!("plus: run: {wrong}\n{USAGE}"));
    }
    let said = "plus: frame: there is no option '--take'\n";
    let ran = plus(["frame", &file, &old, "--take", "x"]);
    assert!(ran.err.starts_with(said), "{}", ran.err);
    assert_eq!(fs::read(&old).unwrap(), b"a take");
}
