//! `plus take` and `plus records`.

use crate::tools::{plus, repository, Folder};
use std::fs;
use std::path::Path;

/// Records of all kinds as text, and their bytes worked out by hand.
const TEXT: &str = "\
0 1 0 255
0 3 0 184
0 9 0 0
1 4 27663 7
258 2 0 40
258 5 0 0
259 7 25602 31
259 8 0 0
259 10 2 1
260 10 65535 0
4294967295 6 0 0
";
const BYTES: [[u8; 8]; 11] = [
    [0, 0, 0, 0, 1, 0, 0, 0xFF],
    [0, 0, 0, 0, 3, 0, 0, 0xB8],
    [0, 0, 0, 0, 9, 0, 0, 0],
    [1, 0, 0, 0, 4, 0x0F, 0x6C, 7],
    [2, 1, 0, 0, 2, 0, 0, 40],
    [2, 1, 0, 0, 5, 0, 0, 0],
    [3, 1, 0, 0, 7, 0x02, 0x64, 31],
    [3, 1, 0, 0, 8, 0, 0, 0],
    [3, 1, 0, 0, 10, 2, 0, 1],
    [4, 1, 0, 0, 10, 0xFF, 0xFF, 0],
    [0xFF, 0xFF, 0xFF, 0xFF, 6, 0, 0, 0],
];

/// A file of a comment and of the records above.
fn file(comment: &[u8]) -> Vec<u8> {
    let end = [&[11, 0, 0, 0, comment.len() as u8, 0, 0, 0][..], b"PLTK"].concat();
    [comment, &BYTES.concat(), &end].concat()
}

/// What wrong use is told.
fn wrong(what: &str) -> String {
    let usage = "usage: plus take RECORDS OUT [COMMENT]";
    format!("plus: take: {what}\n{usage}\n`plus help take` says more\n")
}

#[test]
fn a_take_with_and_without_a_comment() {
    let folder = Folder::new();
    let records = folder.file("records.txt", TEXT.as_bytes());
    let comment = folder.file("comment", b"any\0bytes");
    // The second in the place of a longer file.
    let out = folder.place("out.take");
    plus(["take", &records, &out, &comment]).prints("");
    assert_eq!(fs::read(&out).unwrap(), file(b"any\0bytes"));
    plus(["records", &out]).prints(&format!("comment 9\n{TEXT}"));
    plus(["take", &records, &out]).prints("");
    assert_eq!(fs::read(&out).unwrap(), file(b""));
    plus(["records", &out]).prints(&format!("comment 0\n{TEXT}"));
}

#[test]
fn no_records() {
    let folder = Folder::new();
    let records = folder.file("none.txt", b"");
    let out = folder.place("none.take");
    plus(["take", &records, &out]).prints("");
    assert_eq!(fs::read(&out).unwrap(), b"\0\0\0\0\0\0\0\0PLTK");
    plus(["records", &out]).prints("comment 0\n");
    let comment = folder.file("comment", b"alone");
    plus(["take", &records, &out, &comment]).prints("");
    plus(["records", &out]).prints("comment 5\n");
}

#[test]
fn the_most_that_each_field_holds() {
    let folder = Folder::new();
    let text = "4294967295 4 65535 255\n";
    let records = folder.file("most.txt", text.as_bytes());
    let out = folder.place("most.take");
    plus(["take", &records, &out]).prints("");
    plus(["records", &out]).prints(&format!("comment 0\n{text}"));
}

/// Lines that are no record, each after a good one.
#[test]
fn a_line_of_another_form_is_wrong_use_and_no_file_touched() {
    let folder = Folder::new();
    let (new, old) = (folder.place("new"), folder.file("old", b"a take"));
    for line in [
        &b"\n"[..],
        b"0\n",
        b"0 4 0\n",
        b"0 4 0 0 0\n",
        b"0 4 0 0",
        b" 0 4 0 0\n",
        b"0 4 0 0 \n",
        b"0  4 0 0\n",
        b"0\t4 0 0\n",
        b"0 4 0 0\r\n",
        b"0,4,0,0\n",
        b"+0 4 0 0\n",
        b"0 4 -0 0\n",
        b"00 4 0 0\n",
        b"0 04 0 0\n",
        b"0 4 0x10 0\n",
        b"0 4 6C0F 0\n",
        b"0 4 1.0 0\n",
        b"0 four 0 0\n",
        b"comment 0\n",
        b"# 0 4 0 0\n",
        // One more than each field holds, and far more.
        b"4294967296 4 0 0\n",
        b"0 256 0 0\n",
        b"0 4 65536 0\n",
        b"0 4 0 256\n",
        b"0 4 0 99999999999999999999999999\n",
        "0 4 0 \u{FF11}\n".as_bytes(),
        b"0 4 0 \xB2\n",
        b"0 4 0 0\0\n",
    ] {
        let shown = line.escape_ascii();
        let text = folder.file("bad.txt", &[b"0 4 0 0\n", line].concat());
        let said = wrong(&format!("line 2 of '{text}' is no record"));
        for out in [&new, &old] {
            let ran = plus(["take", &text, out]);
            assert_eq!(ran.err, said, "{shown}");
            ran.fails(2, &said);
        }
        // Also where a record before it is bad.
        let text = folder.file("bad.txt", &[b"0 11 0 0\n", line].concat());
        plus(["take", &text, &old]).fails(2, &said);
    }
    assert!(!Path::new(&new).exists());
    assert_eq!(fs::read(&old).unwrap(), b"a take");
}

#[test]
fn a_bad_record_is_refused_and_no_file_touched() {
    let folder = Folder::new();
    let (new, old) = (folder.place("new"), folder.file("old", b"a take"));
    for (text, bad) in [
        ("0 0 0 0\n", 1),
        ("0 11 0 0\n", 1),
        ("0 10 0 2\n", 1),
        ("0 10 3 1\n0 10 65535 0\n0 10 3 255\n", 3),
        ("0 9 0 1\n", 1),
        ("0 9 16384 0\n", 1),
        ("0 9 0 0\n0 7 16384 9\n0 8 0 1\n", 3),
        ("0 255 0 0\n", 1),
        ("0 1 1 0\n", 1),
        ("0 3 16384 0\n", 1),
        ("0 4 16384 9\n0 5 0 1\n", 2),
        ("0 4 16384 9\n0 6 1 0\n", 2),
        ("0 4 0 0\n5 4 0 0\n5 4 0 0\n9 6 0 0\n8 4 0 0\n0 0 0 0\n", 5),
    ] {
        let records = folder.file("bad.txt", text.as_bytes());
        let said = format!("refused 13 record {bad}: that record of {records} is bad\n");
        for out in [&new, &old] {
            plus(["take", &records, out]).fails(1, &said);
        }
    }
    assert!(!Path::new(&new).exists());
    assert_eq!(fs::read(&old).unwrap(), b"a take");
}

#[test]
fn files_that_are_no_takes() {
    let folder = Folder::new();
    let whole = file(b"comment");
    let length = whole.len();
    let lettered = |letters: &[u8]| [&whole[..length - 4], letters].concat();
    let spoilt = |at: usize, byte: u8| {
        let mut file = whole.clone();
        file[at] = byte;
        file
    };
    for (file, number) in [
        (vec![], 11),
        (b"PLTK".to_vec(), 11),
        (whole[length - 11..].to_vec(), 11),
        (whole[..length - 1].to_vec(), 11),
        (lettered(b"pltk"), 11),
        (whole[1..].to_vec(), 12),
        (spoilt(length - 12, 5), 12),
        (spoilt(length - 8, 15), 12),
    ] {
        let file = folder.file("no.take", &file);
        let said = match number {
            11 => format!("refused 11: {file} has no trailer\n"),
            _ => format!("refused 12: the records of {file} don't end at its trailer\n"),
        };
        plus(["records", &file]).fails(1, &said);
    }
    // The kind of the third record, the line of the last.
    for (at, byte, bad) in [(7 + 2 * 8 + 4, 0, 3), (7 + 10 * 8 + 3, 0, 11)] {
        let mut bytes = spoilt(at, byte);
        if bad == 11 {
            bytes[at - 3..at].fill(0);
        }
        let file = folder.file("bad.take", &bytes);
        let said = format!("refused 13 record {bad}: that record of {file} is bad\n");
        plus(["records", &file]).fails(1, &said);
    }
}

/// By the one command and back by the other.
#[test]
fn the_example_is_written_again() {
    let folder = Folder::new();
    let example = repository("examples/arpeggio.take");
    let bytes = fs::read(&example).unwrap();
    let ran = plus(["records".as_ref(), example.as_os_str()]);
    assert_eq!((ran.status, &*ran.err), (Some(0), ""));
    let (first, text) = ran.out.split_once('\n').unwrap();
    let comment: usize = first.strip_prefix("comment ").unwrap().parse().unwrap();
    assert_eq!(bytes.len(), comment + 8 * text.lines().count() + 12);
    let records = folder.file("records.txt", text.as_bytes());
    let comment = folder.file("comment", &bytes[..comment]);
    let out = folder.place("again.take");
    plus(["take", &records, &out, &comment]).prints("");
    assert_eq!(fs::read(&out).unwrap(), bytes);
}

#[test]
fn files_that_cant_be_read_or_written_are_named() {
    let folder = Folder::new();
    let missing = folder.place("missing");
    let out = folder.place("missing/out");
    let old = folder.file("old", b"a take");
    let said = format!("{missing}: No such file or directory (os error 2)\n");
    plus(["records", &missing]).fails(1, &said);
    plus(["take", &missing, &old]).fails(1, &said);
    let records = folder.file("records.txt", TEXT.as_bytes());
    plus(["take", &records, &old, &missing]).fails(1, &said);
    assert_eq!(fs::read(&old).unwrap(), b"a take");
    let said = format!("{out}: No such file or directory (os error 2)\n");
    plus(["take", &records, &out]).fails(1, &said);
}
