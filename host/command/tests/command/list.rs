//! `plus list`.

use crate::tools::{bytes, plus, repository, Folder};
use plus::RAM;
use std::fs;

/// An image with words at an address.
fn image(start: usize, words: &[u16]) -> Vec<u8> {
    let mut ram = vec![0; RAM];
    ram[start..start + 2 * words.len()].copy_from_slice(&bytes(words));
    ram
}

/// What wrong use is told.
fn wrong(what: &str) -> String {
    format!(
        "plus: list: {what}\nusage: plus list FILE [START] [--asm]\n`plus help list` says more\n"
    )
}

#[test]
fn an_image_through_its_stop() {
    let folder = Folder::new();
    let words = [0x0738, 0x1002, 0x3ABC, 0x4031, 0x4020];
    let file = folder.file("at_8000.list", &image(0x8000, &words));
    let text = "LOAD 7 38\nPAUSE 2\nWORD 3ABC\nLOOP+INT+STOP\n";
    plus(["list", &file]).prints(text);
    for start in ["8000", "8001"] {
        plus(["list", &file, start]).prints(text);
    }
    plus(["list", &file, "8006"]).prints("LOOP+INT+STOP\n");
    plus(["list", &file, "8009"]).prints("STOP\n");
    // All the zeros before it are LOADs.
    let before = "LOAD 0 00\n".repeat(0x4000);
    plus(["list", &file, "0"]).prints(&(before + text));
}

#[test]
fn a_start_of_few_digits_and_of_either_case() {
    let folder = Folder::new();
    let low = folder.file("low.list", &image(0x000A, &[0x4021]));
    for start in ["A", "a", "0a", "00A", "000B", "b"] {
        plus(["list", &low, start]).prints("LOOP+STOP\n");
    }
    let high = folder.file("high.list", &image(0xFFFE, &[0x4020]));
    for start in ["FFFE", "ffff"] {
        plus(["list", &high, start]).prints("STOP\n");
    }
}

#[test]
fn the_examples() {
    let arpeggio = repository("examples/arpeggio.list");
    let text = fs::read_to_string(repository("examples/arpeggio.txt")).unwrap();
    plus(["list".as_ref(), arpeggio.as_os_str()]).prints(&text);
    let nested = repository("examples/nested.list");
    let text = "REPEAT 3\nLOAD 0 01\nREPEAT 2\nLOAD 0 02\nLOOP\nLOAD 0 03\nLOOP\nSTOP\n";
    plus(["list".as_ref(), nested.as_os_str()]).prints(text);
}

#[test]
fn a_file_of_words_is_printed_whole() {
    let folder = Folder::new();
    let words = [0x4020, 0x1000, 0x4000, 0x2FFF, 0x8000];
    let file = folder.file("words", &bytes(&words));
    plus(["list", &file]).prints("STOP\nPAUSE 0\nNOP\nREPEAT 4095\nWORD 8000\n");
    let empty = folder.file("empty", &[]);
    plus(["list", &empty]).prints("");
    // A word less or more than an image.
    for length in [RAM - 2, RAM + 2] {
        let file = folder.file("near", &vec![0; length]);
        plus(["list", &file]).prints(&"LOAD 0 00\n".repeat(length / 2));
    }
}

/// What an assembler takes: the same words, each with its text behind it.
#[test]
fn for_an_assembler() {
    let folder = Folder::new();
    let words = [0x0738, 0x1002, 0x3ABC, 0x4031, 0x00FF];
    let text = "\
defw #0738 ; LOAD 7 38
defw #1002 ; PAUSE 2
defw #3ABC ; WORD 3ABC
defw #4031 ; LOOP+INT+STOP
";
    let file = folder.file("at_8000.list", &image(0x8000, &words));
    for words in [
        &["list", &file, "--asm"][..],
        &["list", "--asm", &file],
        &["list", &file, "8000", "--asm"],
        &["list", &file, "--asm", "8000"],
    ] {
        plus(words).prints(text);
    }
    let file = folder.file("words", &bytes(&words));
    let last = "defw #00FF ; LOAD 0 FF\n";
    plus(["list", &file, "--asm"]).prints(&format!("{text}{last}"));
    let empty = folder.file("empty", &[]);
    plus(["list", &empty, "--asm"]).prints("");
}

#[test]
fn a_list_without_a_stop_is_refused() {
    let folder = Folder::new();
    let file = folder.file("none.list", &image(0x8000, &[0x4020]));
    for (start, from) in [("8002", "8002"), ("8003", "8002"), ("ffff", "FFFE")] {
        let said = format!("refused 6: {file} has no STOP from {from}h on\n");
        plus(["list", &file, start]).fails(1, &said);
    }
    let file = folder.file("zero.list", &vec![0; RAM]);
    let said = format!("refused 6: {file} has no STOP from 8000h on\n");
    plus(["list", &file]).fails(1, &said);
}

#[test]
fn a_file_of_odd_length() {
    let folder = Folder::new();
    for length in [1, 5, RAM - 1, RAM + 1] {
        let file = folder.file("odd", &vec![0; length]);
        let said = wrong(&format!("'{file}' has an odd number of bytes"));
        plus(["list", &file]).fails(2, &said);
        plus(["list", &file, "8000"]).fails(2, &said);
    }
}

#[test]
fn a_start_that_is_none() {
    let folder = Folder::new();
    let file = folder.file("at_8000.list", &image(0x8000, &[0x4020]));
    let starts = [
        "", "G", "08000", "10000", "+800", "0x80", "80h", "80 0", " 8000", "８",
    ];
    for start in starts {
        let said = wrong(&format!("'{start}' is not one to four hexadecimal digits"));
        plus(["list", &file, start]).fails(2, &said);
        // Before the file is looked at.
        plus(["list", "missing.list", start]).fails(2, &said);
    }
}

#[test]
fn a_start_with_a_file_of_words() {
    let folder = Folder::new();
    for length in [0, 2, RAM + 2] {
        let file = folder.file("words", &vec![0; length]);
        let said = wrong(&format!(
            "'{file}' is not an image of RAM, and takes no START"
        ));
        plus(["list", &file, "8000"]).fails(2, &said);
    }
}

#[test]
fn a_file_that_cant_be_read_is_named() {
    let missing = Folder::new().place("missing.list");
    let said = format!("{missing}: No such file or directory (os error 2)\n");
    plus(["list", &missing]).fails(1, &said);
    plus(["list", &missing, "8000"]).fails(1, &said);
}
