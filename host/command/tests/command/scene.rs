//! `plus scene`, and the text that it takes.

use crate::tools::{command, plus, repository, Folder, Ran, Scene};
use plus::{RAM, STORE, UNLOCK};
use std::fs::{self, File};
use std::os::unix::fs::symlink;
use std::path::Path;
use std::process::Command;

/// The scene that a text in a folder makes, which has so many records.
fn made(folder: &Folder, text: &str) -> Vec<u8> {
    let (text, out) = (
        folder.file("a.txt", text.as_bytes()),
        folder.place("a.scene"),
    );
    let ran = plus(["scene", &text, &out]);
    assert_eq!((ran.status, &*ran.err), (Some(0), ""));
    let scene = fs::read(&out).unwrap();
    let records = (scene.len() - RAM - STORE) / 4;
    assert_eq!(ran.out, format!("records {records}\n"));
    scene
}

/// What `plus run` is given.
const RUN: &str = "FILE [--take OUT] [--table FILE]";

/// What wrong use is told, of a command.
fn wrong(command: &str, usage: &str, what: &str) -> String {
    format!(
        "plus: {command}: {what}\nusage: plus {command} {usage}\n`plus help {command}` says more\n"
    )
}

/// The folder with the files that the texts here name.
fn folder() -> Folder {
    let folder = Folder::new();
    folder.file("bytes", &[1, 2, 3]);
    folder.file("song.txt", b"LOAD 7 38\nPAUSE 2\nSTOP\n");
    folder.file("song", &[0x38, 0x07, 0x02, 0x10, 0x20, 0x40]);
    folder.file("name with blanks", &[9]);
    folder
}

/// The bytes of a table put where they wait, and the start.
fn with_table(bytes: [u8; 7]) -> Scene {
    Scene::new().wait(0, &bytes).record('S', 0, 0)
}

/// The bytes of an area's bounds put where they wait, and the area given.
fn with_area(bytes: [u8; 8]) -> Scene {
    Scene::new().wait(7, &bytes).record('N', 0, 0)
}

#[test]
fn each_word() {
    let folder = folder();
    let records = |text: &str| made(&folder, text).split_off(RAM + STORE);
    let expected = |scene: Scene| scene.records;
    for (text, scene) in [
        ("", Scene::new()),
        ("unlock", Scene::new().each('B', &UNLOCK)),
        ("map", Scene::new().each('G', &[0xB8])),
        ("poke 6800 64", Scene::new().record('W', 0x6800, 0x64)),
        ("poke 0 0", Scene::new().record('W', 0, 0)),
        ("poke aBcD eF", Scene::new().record('W', 0xABCD, 0xEF)),
        ("peek 6C0F", Scene::new().record('R', 0x6C0F, 0xFF)),
        ("crtc 9 7", Scene::new().each('B', &[9]).each('D', &[7])),
        (
            "crtc 31 ff",
            Scene::new().each('B', &[31]).each('D', &[0xFF]),
        ),
        ("mode 0", Scene::new().each('G', &[0x80])),
        ("mode 3", Scene::new().each('G', &[0x83])),
        ("lines 0", Scene::new()),
        ("lines 3", Scene::new().each('L', &[0, 0, 0])),
        ("lines 2 2a", Scene::new().each('L', &[0x2A, 0x2A])),
        ("undo", Scene::new().each('U', &[0])),
        (
            "picture poke 6400 1f",
            Scene::new().record('w', 0x6400, 0x1F),
        ),
        (
            "picture  peek\t6C0F # its channels",
            Scene::new().record('r', 0x6C0F, 0xFF),
        ),
        ("picture undo", Scene::new().each('u', &[0])),
        ("table 0 0 0", with_table([0; 7])),
        (
            "table AAAAaaaa Ff00 5",
            with_table([0xAA, 0xAA, 0xAA, 0xAA, 0x00, 0xFF, 5]),
        ),
        ("table 12345 6 7", with_table([0x45, 0x23, 1, 0, 6, 0, 7])),
        ("area 8000 C000", with_area([0, 0x80, 0, 0, 0, 0xC0, 0, 0])),
        ("area 0 10000", with_area([0, 0, 0, 0, 0, 0, 1, 0])),
        (
            "area FEDCba98 1234567",
            with_area([0x98, 0xBA, 0xDC, 0xFE, 0x67, 0x45, 0x23, 0x01]),
        ),
        (
            "place 4000 24",
            Scene::new().record('T', 15, 0).record('K', 0x4000, 24),
        ),
        (
            "place FFFF 65535",
            Scene::new().record('T', 15, 0xFF).record('K', 0xFFFF, 0xFF),
        ),
        (
            "place 1 0256",
            Scene::new().record('T', 15, 1).record('K', 1, 0),
        ),
        ("remove 0", Scene::new().each('X', &[0])),
        ("remove 255", Scene::new().each('X', &[255])),
        ("mute 0", Scene::new().record('Q', 0, 1)),
        ("mute 65535", Scene::new().record('Q', 0xFFFF, 1)),
        ("unmute 2", Scene::new().record('Q', 2, 0)),
        ("unmute 0256", Scene::new().record('Q', 256, 0)),
        ("psg", Scene::new().record('H', 0, 0)),
        ("export", Scene::new().each('E', &[0])),
        ("acknowledge", Scene::new().each('A', &[0])),
        ("draw", Scene::new().each('P', &[0])),
        ("draw 2a", Scene::new().each('P', &[0x2A])),
        ("forecast 8000 255", Scene::new().record('F', 0x8000, 255)),
        ("reset", Scene::new().each('Z', &[0])),
        (
            "mode 1\nundo",
            Scene::new().each('G', &[0x81]).each('U', &[0]),
        ),
    ] {
        assert_eq!(records(text), expected(scene), "{text}");
    }
}

#[test]
fn ram_lists_and_pixels() {
    let folder = folder();
    for (text, at, bytes) in [
        ("ram 0 bytes", 0, &[1, 2, 3][..]),
        ("ram FFFD bytes", 0xFFFD, &[1, 2, 3]),
        ("ram 10 bytes\nram 11 bytes", 0x10, &[1, 1, 2, 3]),
        (
            "list 8000 song.txt",
            0x8000,
            &[0x38, 0x07, 0x02, 0x10, 0x20, 0x40],
        ),
        (
            "list 8001 song",
            0x8000,
            &[0x38, 0x07, 0x02, 0x10, 0x20, 0x40],
        ),
        (
            "list FFFA song",
            0xFFFA,
            &[0x38, 0x07, 0x02, 0x10, 0x20, 0x40],
        ),
        ("pixels bytes", RAM, &[1, 2, 3]),
        ("ram 5 name with blanks", 5, &[9]),
        ("  ram\t5  name with blanks \t# its name", 5, &[9]),
    ] {
        let mut expected = vec![0; RAM + STORE];
        expected[at..at + bytes.len()].copy_from_slice(bytes);
        assert!(made(&folder, text) == expected, "{text}");
    }
    let whole = folder.file("whole", &[7; RAM]);
    assert_eq!(made(&folder, &format!("ram 0 {whole}"))[..RAM], [7; RAM]);
    folder.file("store", &[7; STORE]);
    assert_eq!(made(&folder, "pixels store")[RAM..], [7; STORE]);
}

/// Comments, blanks, empty lines, and the marks that some editors leave.
#[test]
fn what_is_passed_over() {
    let folder = folder();
    let plain = made(&folder, "ram 0 bytes\nunlock\nmode 2\n");
    for text in [
        "ram 0 bytes\nunlock\nmode 2",
        "# a scene\n\nram 0 bytes # three\n \t\nunlock#\n#\n\tmode  2\t\n\n",
        "ram 0 bytes\r\nunlock\r\n\r\nmode 2\r\n",
        "\u{FEFF}ram 0 bytes\nunlock\nmode 2\n",
        "ram 0 bytes\nunlock\nmode 2 # f\u{FC}r Modus 2\n",
    ] {
        assert!(made(&folder, text) == plain, "{text}");
    }
}

/// Each command that takes a scene takes a text as well.
#[test]
fn a_text_is_a_scene() {
    let folder = folder();
    let text = "list 8000 song\nunlock\nmap\npoke 6C01 80\npoke 6C0F 1\nlines 4\ndraw\nexport\n";
    let scene = folder.file("b.scene", &made(&folder, text));
    let text = folder.file("b.txt", text.as_bytes());
    let (one, two) = (plus(["run", &text]), plus(["run", &scene]));
    assert_eq!(
        (one.status, one.out.lines().count()),
        (Some(0), 17 + 3 + 4 + 2)
    );
    assert_eq!((one.out, one.err), (two.out, two.err));
    for (command, said) in [("frame", "640 x 1\n"), ("export", "159 registers\n")] {
        let outs = [&text, &scene].map(|file| {
            let out = folder.place("out");
            plus([command, file, &out]).prints(said);
            fs::read(out).unwrap()
        });
        assert!(outs[0] == outs[1], "{command}");
    }
    let outs = [&text, &scene].map(|file| {
        let out = folder.place("out");
        assert_eq!(plus(["run", file, "--take", &out]).status, Some(0));
        fs::read(out).unwrap()
    });
    assert_eq!(outs[0], outs[1]);
    assert_eq!(outs[0].len(), 20 * 8 + 12);
}

/// Bytes are no text, whatever they are, nor is a file of none.
#[test]
fn what_is_a_text() {
    let folder = Folder::new();
    let short = |file: &str, byte: usize| {
        let part = match byte {
            ..RAM => "RAM (bytes 0 to 65535)",
            _ => "the pixel store (bytes 65536 to 69631)",
        };
        let ran = plus(["run", file]);
        let said = format!("{file}: the scene ends early, at byte {byte}, in {part}\n");
        assert_eq!((ran.status, &*ran.out, ran.err), (Some(1), "short\n", said));
    };
    short(&folder.file("empty", b""), 0);
    short(&folder.file("zero", b"unlock\n\0"), 8);
    short(&folder.file("control", b"unlock\n\x1B"), 8);
    // As long as a scene, and all letters: by its first word.
    let letters = vec![b'B'; RAM + STORE + 8];
    plus(["run", &folder.file("letters", &letters)]).prints("0\n0\n");
    let comment = "#".repeat(RAM + STORE);
    plus([
        "run",
        &folder.file("long", format!("{comment}\nmap\n").as_bytes()),
    ])
    .prints("0\n");
    let said = "plus: run: line 1 of '";
    let ran = plus(["run", &folder.file("few", &letters[..100])]);
    assert!(ran.err.starts_with(said), "{}", ran.err);
    // To make one of it, it has to be a text.
    let (empty, out) = (folder.file("empty", b""), folder.place("out"));
    plus(["scene", &empty, &out]).prints("records 0\n");
    let zero = folder.file("zero", b"unlock\n\0");
    let said = wrong("scene", "TEXT OUT", &format!("'{zero}' is no text"));
    plus(["scene", &zero, &out]).fails(2, &said);
}

/// A line of another form is told with its number, the word and what it takes.
#[test]
fn bad_lines() {
    let folder = folder();
    folder.file("odd", &[1, 2, 3]);
    folder.file("store", &[7; STORE + 1]);
    let names = "ram, list, pixels, unlock, map, poke, peek, crtc, mode, lines, undo, \
                 picture poke, picture peek, picture undo, table, area, place, remove, mute, \
                 unmute, psg, export, acknowledge, draw, forecast, reset";
    let place = |name: &str| folder.place(name);
    for (line, why) in [
        ("jump 8000", format!("'jump' is none of the words {names}")),
        ("UNLOCK", format!("'UNLOCK' is none of the words {names}")),
        ("picture", format!("'picture' is none of the words {names}")),
        (
            "picture map 1",
            format!("'picture map' is none of the words {names}"),
        ),
        (
            "picture poke 6400",
            "picture poke takes ADDRESS BYTE, and BYTE is missing, one or two hexadecimal digits"
                .into(),
        ),
        (
            "picture undo 1",
            "picture undo takes nothing, and '1' is too much".into(),
        ),
        (
            "table 0 0",
            "table takes PALETTE SPRITES CHANNELS, and CHANNELS is missing, a number from 0 to 7"
                .into(),
        ),
        (
            "table 123456789 0 0",
            "table takes PALETTE SPRITES CHANNELS, and '123456789' is no PALETTE, one to eight \
             hexadecimal digits"
                .into(),
        ),
        (
            "table 0 10000 0",
            "table takes PALETTE SPRITES CHANNELS, and '10000' is no SPRITES, one to four \
             hexadecimal digits"
                .into(),
        ),
        (
            "table 0 0 8",
            "table takes PALETTE SPRITES CHANNELS, and '8' is no CHANNELS, a number from 0 to 7"
                .into(),
        ),
        (
            "area 8000",
            "area takes FROM UPTO, and UPTO is missing, one to eight hexadecimal digits".into(),
        ),
        (
            "area 123456789 0",
            "area takes FROM UPTO, and '123456789' is no FROM, one to eight hexadecimal digits"
                .into(),
        ),
        (
            "area 0 10000 2",
            "area takes FROM UPTO, and '2' is too much".into(),
        ),
        (
            "place 8000",
            "place takes ADDRESS LENGTH, and LENGTH is missing, a number from 0 to 65535".into(),
        ),
        (
            "place 8000 65536",
            "place takes ADDRESS LENGTH, and '65536' is no LENGTH, a number from 0 to 65535".into(),
        ),
        (
            "place 10000 2",
            "place takes ADDRESS LENGTH, and '10000' is no ADDRESS, one to four hexadecimal digits"
                .into(),
        ),
        (
            "remove",
            "remove takes HANDLE, and HANDLE is missing, a number from 0 to 255".into(),
        ),
        (
            "remove 256",
            "remove takes HANDLE, and '256' is no HANDLE, a number from 0 to 255".into(),
        ),
        (
            "mute",
            "mute takes CHANNEL, and CHANNEL is missing, a number from 0 to 65535".into(),
        ),
        (
            "mute 65536",
            "mute takes CHANNEL, and '65536' is no CHANNEL, a number from 0 to 65535".into(),
        ),
        (
            "unmute 0 1",
            "unmute takes CHANNEL, and '1' is too much".into(),
        ),
        ("psg 7", "psg takes nothing, and '7' is too much".into()),
        (
            "unlock 1",
            "unlock takes nothing, and '1' is too much".into(),
        ),
        (
            "poke",
            "poke takes ADDRESS BYTE, and ADDRESS is missing, one to four hexadecimal digits"
                .into(),
        ),
        (
            "poke 6800",
            "poke takes ADDRESS BYTE, and BYTE is missing, one or two hexadecimal digits".into(),
        ),
        (
            "poke 6800 1 2",
            "poke takes ADDRESS BYTE, and '2' is too much".into(),
        ),
        (
            "poke 12345 1",
            "poke takes ADDRESS BYTE, and '12345' is no ADDRESS, one to four hexadecimal digits"
                .into(),
        ),
        (
            "poke 6800h 1",
            "poke takes ADDRESS BYTE, and '6800h' is no ADDRESS, one to four hexadecimal digits"
                .into(),
        ),
        (
            "poke 6800 100",
            "poke takes ADDRESS BYTE, and '100' is no BYTE, one or two hexadecimal digits".into(),
        ),
        (
            "crtc 32 0",
            "crtc takes REGISTER BYTE, and '32' is no REGISTER, a number from 0 to 31".into(),
        ),
        (
            "crtc A 0",
            "crtc takes REGISTER BYTE, and 'A' is no REGISTER, a number from 0 to 31".into(),
        ),
        (
            "mode 4",
            "mode takes N, and '4' is no N, a number from 0 to 3".into(),
        ),
        (
            "lines 1000001",
            "lines takes N [BYTE], and '1000001' is no N, a number from 0 to 1000000".into(),
        ),
        (
            "lines 1 xx",
            "lines takes N [BYTE], and 'xx' is no BYTE, one or two hexadecimal digits".into(),
        ),
        (
            "draw 100",
            "draw takes [BYTE], and '100' is no BYTE, one or two hexadecimal digits".into(),
        ),
        ("draw 1 2", "draw takes [BYTE], and '2' is too much".into()),
        (
            "forecast 8000 256",
            "forecast takes ADDRESS PRESCALE, and '256' is no PRESCALE, a number from 0 to 255"
                .into(),
        ),
        (
            "ram 0",
            "ram takes ADDRESS FILE, and FILE is missing, a file's name".into(),
        ),
        (
            "pixels # bytes",
            "pixels takes FILE, and FILE is missing, a file's name".into(),
        ),
        (
            "ram FFFE bytes",
            format!("'{}' has more bytes than the 2 that fit", place("bytes")),
        ),
        (
            "pixels store",
            format!("'{}' has more bytes than the 4096 that fit", place("store")),
        ),
        (
            "list FFFC song.txt",
            format!(
                "'{}' has more words than the 2 that fit from FFFCh on",
                place("song.txt")
            ),
        ),
        (
            "list 0 odd",
            format!(
                "'{}' has an odd number of bytes, and is no listing",
                place("odd")
            ),
        ),
        (
            "list 0 /dev/zero",
            "'/dev/zero' has more words than the 32768 that fit from 0000h on".into(),
        ),
        (
            "ram 0 /dev/zero",
            "'/dev/zero' has more bytes than the 65536 that fit".into(),
        ),
    ] {
        for (before, number) in [("", 1), ("# one\n\nram 0 bytes\n", 4)] {
            let text = folder.file("bad.txt", format!("{before}{line}\nmap\n").as_bytes());
            let what = format!("line {number} of '{text}': {why}");
            let (new, old) = (folder.place("new"), folder.file("old", b"a scene"));
            for out in [&new, &old] {
                plus(["scene", &text, out]).fails(2, &wrong("scene", "TEXT OUT", &what));
            }
            plus(["run", &text]).fails(2, &wrong("run", RUN, &what));
            assert!(!Path::new(&new).exists());
            assert_eq!(fs::read(&old).unwrap(), b"a scene");
        }
    }
    // What the chip starts with can't be set on the way.
    for line in ["ram 0 bytes", "list 0 song", "pixels bytes"] {
        let text = folder.file("late.txt", format!("unlock\n{line}\n").as_bytes());
        let why = "RAM and pixels are set before the first call";
        let what = format!("line 2 of '{text}': {why}");
        let out = folder.place("out");
        plus(["scene", &text, &out]).fails(2, &wrong("scene", "TEXT OUT", &what));
    }
}

/// FILEs are named from the text's folder, also where it is named by another way;
/// for a text from a pipe that is the folder where one stands.
#[test]
fn where_files_are() {
    let folder = folder();
    fs::create_dir(folder.place("below")).unwrap();
    let text = folder.file("below/a.txt", b"ram 0 ../bytes\n");
    let out = folder.place("out");
    plus(["scene", &text, &out]).prints("records 0\n");
    symlink("below/a.txt", folder.place("link.txt")).unwrap();
    folder.file(
        "whole.txt",
        format!("ram 0 {}\n", folder.place("bytes")).as_bytes(),
    );
    for name in ["whole.txt", "./whole.txt"] {
        let mut command = command(["scene", name, "out"]);
        let ran = command.current_dir(folder.place("")).output().unwrap();
        Ran::from(ran).prints("records 0\n");
    }
    let link = folder.place("link.txt");
    let said = format!(
        "{link}: line 1: {}: No such file or directory (os error 2)\n",
        folder.place("../bytes")
    );
    plus(["scene", &link, &out]).fails(1, &said);
    folder.file("piped.txt", b"ram 0 bytes\nmap\n");
    let shell = |script: &str, place: &str| {
        let mut shell = Command::new("sh");
        shell.args(["-c", script, env!("CARGO_BIN_EXE_plus")]);
        Ran::from(shell.current_dir(folder.place(place)).output().unwrap())
    };
    shell("cat piped.txt | \"$0\" run /dev/stdin", "").prints("0\n");
    shell("\"$0\" run /dev/stdin < ../piped.txt", "below").prints("0\n");
}

#[test]
fn files_that_cant_be_read_or_written_are_named() {
    let folder = folder();
    let missing = folder.place("missing");
    let out = folder.place("missing/out");
    let said = format!("{missing}: No such file or directory (os error 2)\n");
    plus(["scene", &missing, &out]).fails(1, &said);
    let text = folder.file("a.txt", b"# one\nram 0 missing\n");
    let said = format!("{text}: line 2: {missing}: No such file or directory (os error 2)\n");
    plus(["scene", &text, &out]).fails(1, &said);
    plus(["run", &text]).fails(1, &said);
    let text = folder.file("a.txt", b"map\n");
    let said = format!("{out}: No such file or directory (os error 2)\n");
    plus(["scene", &text, &out]).fails(1, &said);
}

/// A file that the text names is an input too.
#[test]
fn an_output_that_the_text_names_is_wrong_use() {
    let folder = folder();
    let text = folder.file("a.txt", b"ram 0 bytes\nlist 10 song\npixels bytes\nmap\n");
    for (name, contents) in [
        ("bytes", fs::read(folder.place("bytes")).unwrap()),
        ("song", fs::read(folder.place("song")).unwrap()),
        ("a.txt", fs::read(&text).unwrap()),
    ] {
        let out = folder.place(name);
        let what = format!("'{out}' is an input");
        plus(["scene", &text, &out]).fails(2, &wrong("scene", "TEXT OUT", &what));
        plus(["run", &text, "--take", &out]).fails(2, &wrong("run", RUN, &what));
        assert_eq!(fs::read(&out).unwrap(), contents);
    }
}

/// A listing that is none for a fault is taken as words, and that is told.
#[test]
fn a_list_in_doubt() {
    let folder = Folder::new();
    let song = folder.file("song.txt", b"stop\r\n");
    let text = folder.file("a.txt", b"list 0 song.txt\n");
    let ran = plus(["scene", &text, &folder.place("out")]);
    let hint = "line 1 is no word's: it has a CR before its LF, it has lower case";
    let said = format!("plus: scene: '{song}' is taken as words: {hint}\n");
    assert_eq!(
        (ran.status, &*ran.out, ran.err),
        (Some(0), "records 0\n", said)
    );
}

#[test]
fn the_examples() {
    let folder = Folder::new();
    for (name, records) in [
        ("arpeggio", 208),
        ("sprites", 79),
        ("mirrors", 79),
        ("undo", 101),
        ("split", 71),
        ("processor", 387),
        ("editors", 291),
        ("lists", 234),
        ("mute", 229),
    ] {
        let text = repository(&format!("examples/{name}.scene"));
        let out = folder.place(name);
        let printed = format!("records {records}\n");
        plus(["scene".as_ref(), text.as_os_str(), out.as_ref()]).prints(&printed);
        let length = File::open(&out).unwrap().metadata().unwrap().len();
        assert_eq!(length as usize, RAM + STORE + 4 * records);
    }
}
