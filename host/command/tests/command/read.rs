//! `plus read`.

use crate::tools::{plus, repository, Folder};
use std::fs;
use std::path::Path;

#[test]
fn words_low_byte_first() {
    let folder = Folder::new();
    let text = folder.file("song.txt", b"LOAD 7 38\nPAUSE 2\nWORD 3ABC\nINT+STOP\n");
    let out = folder.place("song");
    plus(["read", &text, &out]).prints("words 4\n");
    let words = [0x38, 0x07, 0x02, 0x10, 0xBC, 0x3A, 0x30, 0x40];
    assert_eq!(fs::read(&out).unwrap(), words);
    // In the place of a longer file.
    let text = folder.file("short.txt", b"STOP\n");
    plus(["read", &text, &out]).prints("words 1\n");
    assert_eq!(fs::read(&out).unwrap(), [0x20, 0x40]);
}

#[test]
fn an_empty_text() {
    let folder = Folder::new();
    let text = folder.file("empty.txt", b"");
    let out = folder.place("empty");
    plus(["read", &text, &out]).prints("words 0\n");
    assert_eq!(fs::read(&out).unwrap(), []);
}

#[test]
fn the_example_is_its_image_again() {
    let folder = Folder::new();
    let text = repository("examples/arpeggio.txt");
    let out = folder.place("arpeggio");
    plus(["read".as_ref(), text.as_os_str(), out.as_ref()]).prints("words 12\n");
    let image = fs::read(repository("examples/arpeggio.list")).unwrap();
    assert_eq!(fs::read(&out).unwrap(), &image[0x8000..0x8000 + 24]);
}

/// Every word there is, by one command and back by the other.
#[test]
fn what_list_prints_is_read_back() {
    let folder = Folder::new();
    let words: Vec<u8> = (0..=0xFFFF).flat_map(u16::to_le_bytes).collect();
    let all = folder.file("all", &words);
    let listed = plus(["list", &all]);
    assert_eq!((listed.status, &*listed.err), (Some(0), ""));
    let text = folder.file("all.txt", listed.out.as_bytes());
    let out = folder.place("again");
    plus(["read", &text, &out]).prints("words 65536\n");
    assert!(fs::read(&out).unwrap() == words);
}

#[test]
fn a_text_of_another_form_is_refused_and_no_file_touched() {
    let folder = Folder::new();
    let (new, old) = (folder.place("new"), folder.file("old", b"words"));
    for (contents, line) in [
        (&b"stop\n"[..], 1),
        (b"\n", 1),
        (b"STOP", 1),
        (b"LOAD 7 38\nPAUSE 2\nLOAD 07 38\nSTOP\n", 3),
        (b"LOAD 7 38\r\nSTOP\r\n", 1),
        (b"STOP\n\xEF\xBB\xBFSTOP\n", 2),
        (b"STOP\nSTOP\n\0", 3),
    ] {
        let text = folder.file("bad.txt", contents);
        let said = format!("refused 7 line {line}: that line of {text} is no word's: ");
        for out in [&new, &old] {
            let ran = plus(["read", &text, out]);
            assert_eq!((ran.status, &*ran.out), (Some(1), ""));
            assert!(ran.err.starts_with(&said), "{}", ran.err);
        }
    }
    assert!(!Path::new(&new).exists());
    assert_eq!(fs::read(&old).unwrap(), b"words");
}

/// What the bad line has is said behind its number.
#[test]
fn why_a_line_is_refused() {
    let folder = Folder::new();
    for (line, why) in [
        (&b"STOP\r\n"[..], "it has a CR before its LF"),
        (b"\xEF\xBB\xBFSTOP\n", "it begins with a byte order mark"),
        (b"stop\n", "it has lower case"),
        (b"LOAD 7 3f\n", "it has lower case"),
        (b"LOAD  7 38\n", "it has a blank too many"),
        (b" STOP\n", "it has a blank too many"),
        (b"STOP \n", "it has a blank too many"),
        (b"LOOP + STOP\n", "it has a blank too many"),
        (b"PAUSE\t2\n", "it has a blank too many"),
        (b"LOAD 07 38\n", "it has a zero before a number"),
        (b"PAUSE 00\n", "it has a zero before a number"),
        (b"REPEAT 003\n", "it has a zero before a number"),
        (b"STOP", "it has no LF at its end"),
        (b"WORD 4020\n", "its word has a name, STOP"),
        (b"WORD 0738\n", "its word has a name, LOAD 7 38"),
        (b"WORD 1000\n", "its word has a name, PAUSE 0"),
        // Several at once.
        (
            b"\xEF\xBB\xBFload  07 3f\r",
            "it begins with a byte order mark, it has no LF at its end, it has a CR before \
             its LF, it has a blank too many, it has lower case, it has a zero before a number",
        ),
        // What no mending of these makes a word's line.
        (b"\n", "it is empty"),
        (b" ", "it is empty"),
        (
            b"LOAD 16 00\n",
            "LOAD has a register from 0 to 15 and two hexadecimal digits",
        ),
        (b"pause 4096\n", "PAUSE has a number from 0 to 4095"),
        (b"REPEAT\n", "REPEAT has a number from 0 to 4095"),
        (b"WORD 3AB\n", "WORD has four hexadecimal digits"),
        (
            b"STOP+LOOP\n",
            "LOOP, INT and STOP are joined by + in this order, and NOP stands alone",
        ),
        (
            b"REST 5\n",
            "it begins with none of LOAD, PAUSE, REPEAT, LOOP, INT, STOP, NOP and WORD",
        ),
    ] {
        for (before, number) in [(&b""[..], 1), (b"LOAD 7 38\nSTOP\n", 3)] {
            let text = folder.file("bad.txt", &[before, line].concat());
            let out = folder.place("out");
            let said =
                format!("refused 7 line {number}: that line of {text} is no word's: {why}\n");
            plus(["read", &text, &out]).fails(1, &said);
        }
    }
}

#[test]
fn files_that_cant_be_read_or_written_are_named() {
    let folder = Folder::new();
    let missing = folder.place("missing.txt");
    let out = folder.place("missing/out");
    let said = format!("{missing}: No such file or directory (os error 2)\n");
    plus(["read", &missing, &out]).fails(1, &said);
    let text = folder.file("song.txt", b"STOP\n");
    let said = format!("{out}: No such file or directory (os error 2)\n");
    plus(["read", &text, &out]).fails(1, &said);
}
