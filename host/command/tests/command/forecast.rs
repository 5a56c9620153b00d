//! `plus forecast`.

use crate::tools::{bytes, plus, repository, Folder};
use plus::RAM;

/// An image with LOAD 7 38h, PAUSE 2, STOP at 8000h.
fn image() -> Vec<u8> {
    let mut ram = vec![0; RAM];
    ram[0x8000..0x8006].copy_from_slice(&[0x38, 0x07, 0x02, 0x10, 0x20, 0x40]);
    ram
}

/// What wrong use is told.
fn wrong(what: &str) -> String {
    let usage = "usage: plus forecast FILE [START] [PRESCALE]\n`plus help forecast` says more";
    format!("plus: forecast: {what}\n{usage}\n")
}

#[test]
fn lines_cycles_and_time() {
    let folder = Folder::new();
    let file = folder.file("second.list", &image());
    let printed = "lines 4 cycles 13\nmost 15\ntime 0.01 frames 0.256 ms\n";
    plus(["forecast", &file]).prints(printed);
    for words in [&["8000"][..], &["8001"], &["8000", "0"], &["8000", "000"]] {
        plus([&["forecast", &file], words].concat()).prints(printed);
    }
    // The pause takes three lines for each of its two.
    let slower = "lines 8 cycles 13\nmost 15\ntime 0.03 frames 0.512 ms\n";
    plus(["forecast", &file, "8000", "2"]).prints(slower);
    // PAUSE 2 and STOP, and STOP alone.
    let later = "lines 3 cycles 4\nmost 4\ntime 0.01 frames 0.192 ms\n";
    plus(["forecast", &file, "8002"]).prints(later);
    let last = "lines 1 cycles 2\nmost 2\ntime 0.00 frames 0.064 ms\n";
    plus(["forecast", &file, "8004", "255"]).prints(last);
}

/// 1,092,266 lines are 3,500 frames and 266 lines, and 69,905.024 milliseconds.
#[test]
fn time_in_frames_and_milliseconds() {
    let folder = Folder::new();
    for (words, prescale, lines, time) in [
        // 155 and 156 of 31,200 hundredths: below a half, and a half.
        (&[0x1001_u16, 0x4020][..], "0", 2, "0.01 frames 0.128 ms"),
        (&[0x1026, 0x4020], "0", 39, "0.13 frames 2.496 ms"),
        (&[0x1137, 0x4020], "0", 312, "1.00 frames 19.968 ms"),
        (&[0x1138, 0x4020], "0", 313, "1.00 frames 20.032 ms"),
        (&[0x1139, 0x4020], "0", 314, "1.01 frames 20.096 ms"),
        (
            &[0x1FFF, 0x1FFF, 0x1FFF, 0x4020],
            "255",
            3 * 4095 * 256 + 1,
            "10080.00 frames 201277.504 ms",
        ),
    ] {
        let file = folder.file("list", &bytes(words));
        let ran = plus(["forecast", &file, "8000", prescale]);
        let cycles = 2 * words.len();
        let expected = format!("lines {lines} cycles {cycles}\nmost {cycles}\ntime {time}\n");
        ran.prints(&expected);
    }
}

/// 0738 080F 2007, eight times 00EE 1006 00BD 1006 009F 1006 4001, 0800 4030:
/// lines 3 + 8 x (3 + 18 + 1) + 2, cycles 20 + 8 x (27 + 6 + 2) + 11, and 27 LOADs.
#[test]
fn the_examples() {
    let printed = "lines 181 cycles 311\nmost 365\ntime 0.58 frames 11.584 ms\n";
    for name in ["examples/arpeggio.list", "examples/arpeggio.txt"] {
        plus(["forecast".as_ref(), repository(name).as_os_str()]).prints(printed);
    }
    // 2003 0001 2002, three times 0002 4001, 0003 4001 4020.
    let nested = repository("examples/nested.list");
    let printed = "lines 12 cycles 59\nmost 69\ntime 0.04 frames 0.768 ms\n";
    plus(["forecast".as_ref(), nested.as_os_str()]).prints(printed);
}

/// As words and as a listing, at any START where the list fits.
#[test]
fn words_and_a_listing() {
    let folder = Folder::new();
    let words = folder.file("words", &bytes(&[0x0738, 0x1002, 0x4020]));
    let listing = folder.file("listing", b"LOAD 7 38\nPAUSE 2\nSTOP\n");
    let printed = "lines 4 cycles 13\nmost 15\ntime 0.01 frames 0.256 ms\n";
    for file in [&words, &listing] {
        plus(["forecast", file]).prints(printed);
        for start in ["0", "8000", "ab1", "FFFA", "fffb"] {
            plus(["forecast", file, start]).prints(printed);
        }
        let said = format!("'{file}' has more words than the 2 that fit from FFFCh on");
        for start in ["FFFC", "FFFD"] {
            plus(["forecast", file, start]).fails(2, &wrong(&said));
        }
        let said = format!("'{file}' has more words than the 1 that fit from FFFEh on");
        plus(["forecast", file, "FFFF"]).fails(2, &wrong(&said));
    }
}

/// A listing is one whatever its length: here 65,536 bytes, that of an image.
#[test]
fn a_listing_as_long_as_an_image() {
    let folder = Folder::new();
    let text =
        "STOP\n".to_string() + &"LOAD 7 38\n".repeat(6_550) + "LOOP+INT+STOP\nPAUSE 10\nNOP\nNOP\n";
    assert_eq!(text.len(), RAM);
    let file = folder.file("long.txt", text.as_bytes());
    let printed = "lines 1 cycles 2\nmost 2\ntime 0.00 frames 0.064 ms\n";
    plus(["forecast", &file]).prints(printed);
}

#[test]
fn a_list_without_a_stop_is_refused() {
    let folder = Folder::new();
    let file = folder.file("zero.list", &vec![0; RAM]);
    let said = |from: &str| format!("refused 6: {file} has no STOP from {from}h on\n");
    plus(["forecast", &file]).fails(1, &said("8000"));
    plus(["forecast", &file, "123"]).fails(1, &said("0122"));
    for contents in [&b""[..], b"NOP\n", &[0, 0]] {
        let file = folder.file("none", contents);
        let said = format!("refused 6: {file} has no STOP from 8000h on\n");
        plus(["forecast", &file]).fails(1, &said);
    }
}

#[test]
fn an_odd_file_that_is_no_listing() {
    let folder = Folder::new();
    let long = [&image()[..], &[0]].concat();
    let odd = "has an odd number of bytes, and is no listing";
    for contents in [&image()[..RAM - 1], &long, b"x", b"words"] {
        let file = folder.file("odd", contents);
        plus(["forecast", &file]).fails(2, &wrong(&format!("'{file}' {odd}")));
    }
    // As long as no listing can be that fits, and without an end.
    for file in [&folder.file("huge", &[0; 458_753])[..], "/dev/zero"] {
        let said = format!("'{file}' has more words than the 16384 that fit from 8000h on");
        plus(["forecast", file]).fails(2, &wrong(&said));
        let said = format!("'{file}' has more words than the 32768 that fit from 0000h on");
        plus(["forecast", file, "0"]).fails(2, &wrong(&said));
    }
}

/// A listing that is none for a fault is told so, also where its length lets it be
/// taken as words.
#[test]
fn a_listing_with_a_bad_line() {
    let folder = Folder::new();
    let odd = folder.file("odd.txt", b"LOAD 7 38\nstop\n");
    let hint = "line 2 is no word's: it has lower case";
    let said = format!("'{odd}' has an odd number of bytes, and is no listing: {hint}");
    plus(["forecast", &odd]).fails(2, &wrong(&said));
    let even = folder.file("even.txt", b"stop\r\n");
    let hint = "line 1 is no word's: it has a CR before its LF, it has lower case";
    let note = format!("plus: forecast: '{even}' is taken as words: {hint}\n");
    let refused = format!("refused 6: {even} has no STOP from 8000h on\n");
    plus(["forecast", &even]).fails(1, &(note + &refused));
    // 4F4E 0A50 4120: as words these do play, and stop.
    let words = folder.file("words", b"NOP\n A");
    let ran = plus(["forecast", &words]);
    let said = format!("plus: forecast: '{words}' is taken as words: line 2 is no word's: ");
    assert!(ran.err.starts_with(&said), "{}", ran.err);
    assert!(
        ran.out.starts_with("lines 3 cycles 13\nmost 15\n"),
        "{}",
        ran.out
    );
    assert_eq!(ran.status, Some(0));
}

#[test]
fn a_start_or_a_prescale_of_another_form() {
    let folder = Folder::new();
    let file = folder.file("second.list", &image());
    for start in ["8000h", "#8000", "0x8000", "12345", "", "+800", "8 00"] {
        let said = format!("'{start}' is not one to four hexadecimal digits");
        plus(["forecast", &file, start]).fails(2, &wrong(&said));
        // The file isn't looked at.
        plus(["forecast", "missing", start]).fails(2, &wrong(&said));
    }
    for prescale in ["256", "1000", "+1", "", "1.5", "FF", "99999999999999999999"] {
        let said = format!("'{prescale}' is not a number from 0 to 255");
        plus(["forecast", &file, "8000", prescale]).fails(2, &wrong(&said));
    }
}

#[test]
fn a_file_that_cant_be_read_is_named() {
    let folder = Folder::new();
    let missing = folder.place("missing.list");
    let said = format!("{missing}: No such file or directory (os error 2)\n");
    plus(["forecast", &missing]).fails(1, &said);
    let directory = folder.place(".");
    let said = format!("{directory}: Is a directory (os error 21)\n");
    plus(["forecast", &directory]).fails(1, &said);
}
