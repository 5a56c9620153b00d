//! `plus mend`.

use crate::tools::{bytes, plus, repository, Folder};
use plus::RAM;
use std::fs;
use std::path::Path;

/// What wrong use is told.
fn wrong(what: &str) -> String {
    format!("plus: mend: {what}\nusage: plus mend WORDS OUT\n`plus help mend` says more\n")
}

/// Words are mended to these, with these lines, and stay in their own file. What is
/// mended once has nothing left to mend.
#[track_caller]
fn becomes(words: &[u16], mended: &[u16], changes: &str) {
    let folder = Folder::new();
    let file = folder.file("old", &bytes(words));
    let (out, again) = (folder.place("new"), folder.place("again"));
    let count = format!("words {}\n", mended.len());
    plus(["mend", &file, &out]).prints(&format!("{changes}{count}"));
    assert_eq!(fs::read(&file).unwrap(), bytes(words));
    assert_eq!(fs::read(&out).unwrap(), bytes(mended));
    plus(["mend", &out, &again]).prints(&count);
    assert_eq!(fs::read(&again).unwrap(), bytes(mended));
}

#[test]
fn words_low_byte_first() {
    let folder = Folder::new();
    let old = [0x38, 0x07, 0xBC, 0x3A, 0x02, 0x10, 0xEF, 0x4F];
    let file = folder.file("old", &old);
    // In the place of a longer file.
    let out = folder.file("new", &[7; 100]);
    plus(["mend", &file, &out]).prints("1 3ABC 4000\n3 4FEF 4021\nwords 4\n");
    let new = [0x38, 0x07, 0x00, 0x40, 0x02, 0x10, 0x21, 0x40];
    assert_eq!(fs::read(&out).unwrap(), new);
    assert_eq!(fs::read(&file).unwrap(), old);
}

#[test]
fn an_empty_file() {
    becomes(&[], &[0x4020], "0 0000 4020\n");
}

#[test]
fn a_list_with_nothing_to_mend() {
    becomes(&[0x4020], &[0x4020], "");
    let words = [
        0x0000, 0x0FFF, 0x1001, 0x1FFF, 0x2000, 0x2FFF, 0x4000, 0x4001, 0x4010, 0x4011, 0x4020,
        0x4021, 0x4030, 0x4031,
    ];
    becomes(&words, &words, "");
}

#[test]
fn each_kind_of_change() {
    becomes(
        &[
            0x1000, 0x3000, 0x5020, 0x6001, 0x7FFF, 0x8031, 0x9ABC, 0xA000, 0xB123, 0xC020, 0xDEAD,
            0xE000, 0xFFFF, 0x4002, 0x4FDF, 0x0738,
        ],
        &[
            0x4000, 0x4000, 0x4000, 0x4000, 0x4000, 0x4000, 0x4000, 0x4000, 0x4000, 0x4000, 0x4000,
            0x4000, 0x4000, 0x4000, 0x4011, 0x0738, 0x4020,
        ],
        "\
0 1000 4000
1 3000 4000
2 5020 4000
3 6001 4000
4 7FFF 4000
5 8031 4000
6 9ABC 4000
7 A000 4000
8 B123 4000
9 C020 4000
10 DEAD 4000
11 E000 4000
12 FFFF 4000
13 4002 4000
14 4FDF 4011
16 0000 4020
",
    );
}

/// A STOP with stray bits is one, and what follows a STOP is mended too.
#[test]
fn a_stop_that_is_there() {
    becomes(
        &[0x4F20, 0x1000, 0x4FCE, 0x0738],
        &[0x4020, 0x4000, 0x4000, 0x0738],
        "0 4F20 4020\n1 1000 4000\n2 4FCE 4000\n",
    );
    becomes(&[0x0738, 0x4FFF], &[0x0738, 0x4031], "1 4FFF 4031\n");
}

/// As long as an image of RAM, and a word less or more.
#[test]
fn no_file_is_an_image() {
    for length in [RAM - 2, RAM, RAM + 2] {
        // All LOADs, and a pause of 0 where a list would begin in an image.
        let mut words = vec![0x0000; length / 2];
        words[0x4000] = 0x1000;
        let mut mended = words.clone();
        mended[0x4000] = 0x4000;
        mended.push(0x4020);
        let changes = format!("16384 1000 4000\n{} 0000 4020\n", length / 2);
        becomes(&words, &mended, &changes);
    }
}

/// Every word there is: 1000h, all of twelve codes, and of code 4 all but eight.
#[test]
fn every_word() {
    let folder = Folder::new();
    let words: Vec<u16> = (0..=0xFFFF).collect();
    let file = folder.file("all", &bytes(&words));
    let out = folder.place("mended");
    let ran = plus(["mend", &file, &out]);
    assert_eq!((ran.status, &*ran.err), (Some(0), ""));
    let lines: Vec<&str> = ran.out.lines().collect();
    assert_eq!(lines.len(), 1 + 12 * 4_096 + 4_088 + 1);
    assert_eq!(
        lines[..3],
        ["4096 1000 4000", "12288 3000 4000", "12289 3001 4000"]
    );
    assert_eq!(lines[lines.len() - 2..], ["65535 FFFF 4000", "words 65536"]);
    let mended = fs::read(&out).unwrap();
    assert_eq!(mended.len(), 2 * 65_536);
    assert!(mended[..0x2000] == bytes(&words)[..0x2000]);
    assert!(mended[2 * 0x5000..]
        .chunks(2)
        .all(|word| word == [0x00, 0x40]));
    // No word is left that a listing has no name for.
    let listed = plus(["list", &out]);
    assert_eq!(listed.out.lines().count(), 65_536);
    assert!(!listed.out.contains("WORD"));
    assert!(!listed.out.contains("PAUSE 0\n"));
}

/// It has no STOP, and so no length, until it is mended: then as long as the list of
/// arpeggio.txt and ten lines more, one for 1000h, one for each of eight passes that
/// the reserved code takes, and one for the STOP behind the INT.
#[test]
fn the_example() {
    let folder = Folder::new();
    let example = repository("examples/old.words");
    let example = example.to_str().unwrap();
    let out = folder.place("mended");
    let ran = plus(["forecast", example]);
    assert_eq!(ran.status, Some(1));
    assert!(ran.err.starts_with("refused 6: "), "{}", ran.err);
    plus(["mend", example, &out]).prints(
        "\
2 1000 4000
8 5020 4000
11 4F81 4001
13 4FDE 4010
14 0000 4020
words 15
",
    );
    let told = "lines 191 cycles 331\nmost 385\ntime 0.61 frames 12.224 ms\n";
    plus(["forecast", &out]).prints(told);
}

#[test]
fn an_odd_length_is_wrong_use_and_no_file_touched() {
    let folder = Folder::new();
    let (new, old) = (folder.place("new"), folder.file("old", b"words"));
    for length in [1, 3, RAM - 1, RAM + 1] {
        let file = folder.file("odd", &vec![0x10; length]);
        let said = wrong(&format!("'{file}' has an odd number of bytes"));
        for out in [&new, &old] {
            plus(["mend", &file, out]).fails(2, &said);
        }
        assert_eq!(fs::read(&file).unwrap(), vec![0x10; length]);
    }
    assert!(!Path::new(&new).exists());
    assert_eq!(fs::read(&old).unwrap(), b"words");
}

#[test]
fn an_output_that_is_the_input_is_wrong_use() {
    let folder = Folder::new();
    let (even, odd) = ([0x00, 0x10], [0x00, 0x10, 0x20]);
    for contents in [&even[..], &odd] {
        let file = folder.file("old", contents);
        let said = wrong(&format!("'{file}' is an input"));
        plus(["mend", &file, &file]).fails(2, &said);
        assert_eq!(fs::read(&file).unwrap(), contents);
    }
}

#[test]
fn arguments_too_few_and_too_many_touch_no_file() {
    let folder = Folder::new();
    let file = folder.file("old", &[0x00, 0x10]);
    let out = folder.file("new", b"words");
    plus(["mend"]).fails(2, &wrong("WORDS is missing"));
    plus(["mend", &file]).fails(2, &wrong("OUT is missing"));
    let said = wrong("'8000' is one argument too many");
    plus(["mend", &file, &out, "8000"]).fails(2, &said);
    assert_eq!(fs::read(&file).unwrap(), [0x00, 0x10]);
    assert_eq!(fs::read(&out).unwrap(), b"words");
}

#[test]
fn files_that_cant_be_read_or_written_are_named() {
    let folder = Folder::new();
    let missing = folder.place("missing");
    let old = folder.file("old", b"words");
    let said = format!("{missing}: No such file or directory (os error 2)\n");
    plus(["mend", &missing, &old]).fails(1, &said);
    assert_eq!(fs::read(&old).unwrap(), b"words");
    let file = folder.file("list", &[0x00, 0x10]);
    let out = folder.place("missing/out");
    let said = format!("{out}: No such file or directory (os error 2)\n");
    plus(["mend", &file, &out]).fails(1, &said);
    let directory = folder.place("");
    let said = format!("{directory}: Is a directory (os error 21)\n");
    plus(["mend", &directory, &old]).fails(1, &said);
    plus(["mend", &file, &directory]).fails(1, &said);
    assert_eq!(fs::read(&old).unwrap(), b"words");
    assert_eq!(fs::read(&file).unwrap(), [0x00, 0x10]);
}
