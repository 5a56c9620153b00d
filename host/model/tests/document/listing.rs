//! Request L1: a list printed as text, and such a text read back.

use model::random::{changed, mixed_word, Random};
use model::{held, Machine};
use plus::listing::{Printed, ReadBack, LONGEST_LINE};
use plus::Answer;
use std::collections::{HashMap, HashSet};

/// The line of a word, by the request's sentences.
fn line_of(word: u16) -> String {
    let low = word & 0x0FFF;
    match (word >> 12, low) {
        (0, _) => format!("LOAD {} {:02X}\n", low >> 8, low & 0xFF),
        (1, _) => format!("PAUSE {low}\n"),
        (2, _) => format!("REPEAT {low}\n"),
        (4, 0x00) => "NOP\n".to_string(),
        (4, 0x01) => "LOOP\n".to_string(),
        (4, 0x10) => "INT\n".to_string(),
        (4, 0x20) => "STOP\n".to_string(),
        (4, 0x11) => "LOOP+INT\n".to_string(),
        (4, 0x21) => "LOOP+STOP\n".to_string(),
        (4, 0x30) => "INT+STOP\n".to_string(),
        (4, 0x31) => "LOOP+INT+STOP\n".to_string(),
        _ => format!("WORD {word:04X}\n"),
    }
}

/// What printing gives with more room than it takes, which stays as it was.
fn printed<M: Machine>(words: &[u16]) -> Vec<u8> {
    let mut text = vec![0xEE; LONGEST_LINE * words.len() + 3];
    let Printed { answer, size } = M::print(words, &mut text);
    assert_eq!(answer, 0, "{words:04X?}");
    assert!(text[size..].iter().all(|&byte| byte == 0xEE));
    text.truncate(size);
    text
}

/// What reading gives with more room than it takes, which stays as it was: the
/// words or the bad line.
fn read<M: Machine>(text: &[u8]) -> Result<Vec<u16>, usize> {
    let mut words = vec![0xEEEE; text.len() + 3];
    let back = M::read(text, &mut words);
    assert!(words[back.count..].iter().all(|&word| word == 0xEEEE));
    match back.answer {
        Answer::Done => {
            assert_eq!(back.line, 0);
            words.truncate(back.count);
            Ok(words)
        }
        _ => {
            assert_eq!((back.answer, back.count), (Answer::NotListing, 0));
            Err(back.line)
        }
    }
}

/// A text that is some words', printed and read.
fn is_the_text_of<M: Machine>(text: &str, words: &[u16]) {
    assert_eq!(
        printed::<M>(words).escape_ascii().to_string(),
        text.escape_default().to_string()
    );
    assert_eq!(read::<M>(text.as_bytes()), Ok(words.to_vec()), "{text:?}");
}

const TOO_SMALL: Printed = Printed {
    answer: Answer::TooSmall,
    size: 0,
};

fn refused(number: u8, line: usize) -> ReadBack {
    ReadBack {
        answer: Answer::try_from(number).unwrap(),
        count: 0,
        line,
    }
}

held!(each_form_of_a_line, fails_with LowerWritten, Pause0AsWord, StopBeforeInt);
fn each_form_of_a_line<M: Machine>() {
    for (word, line) in [
        (0x0738, "LOAD 7 38\n"),
        (0x0000, "LOAD 0 00\n"),
        (0x0FFF, "LOAD 15 FF\n"),
        (0x0A0B, "LOAD 10 0B\n"),
        (0x1002, "PAUSE 2\n"),
        (0x1000, "PAUSE 0\n"),
        (0x1FFF, "PAUSE 4095\n"),
        (0x2003, "REPEAT 3\n"),
        (0x2000, "REPEAT 0\n"),
        (0x2FFF, "REPEAT 4095\n"),
        (0x4000, "NOP\n"),
        (0x4001, "LOOP\n"),
        (0x4010, "INT\n"),
        (0x4020, "STOP\n"),
        (0x4011, "LOOP+INT\n"),
        (0x4021, "LOOP+STOP\n"),
        (0x4030, "INT+STOP\n"),
        (0x4031, "LOOP+INT+STOP\n"),
        (0x4002, "WORD 4002\n"),
        (0x4040, "WORD 4040\n"),
        (0x4FFF, "WORD 4FFF\n"),
        (0x3ABC, "WORD 3ABC\n"),
        (0x5000, "WORD 5000\n"),
        (0xFFFF, "WORD FFFF\n"),
    ] {
        is_the_text_of::<M>(line, &[word]);
    }
}

held!(a_list_is_its_lines_one_after_another);
fn a_list_is_its_lines_one_after_another<M: Machine>() {
    is_the_text_of::<M>("", &[]);
    is_the_text_of::<M>("LOAD 7 38\nPAUSE 2\nSTOP\n", &[0x0738, 0x1002, 0x4020]);
    is_the_text_of::<M>("NOP\nNOP\nNOP\n", &[0x4000; 3]);
    // What follows a STOP is printed like the rest.
    is_the_text_of::<M>("STOP\nWORD 8000\nSTOP\n", &[0x4020, 0x8000, 0x4020]);
}

held!(every_word_alone, fails_with LowerWritten, StopBeforeInt);
fn every_word_alone<M: Machine>() {
    for word in 0..=0xFFFF {
        is_the_text_of::<M>(&line_of(word), &[word]);
    }
}

held!(every_word_in_one_list);
fn every_word_in_one_list<M: Machine>() {
    let words: Vec<u16> = (0..=0xFFFF).collect();
    let text: String = words.iter().copied().map(line_of).collect();
    is_the_text_of::<M>(&text, &words);
}

held!(no_two_words_have_the_same_line, fails_with StrayPassedOver);
fn no_two_words_have_the_same_line<M: Machine>() {
    let lines: HashSet<Vec<u8>> = (0..=0xFFFF).map(|word| printed::<M>(&[word])).collect();
    assert_eq!(lines.len(), 65_536);
    for line in &lines {
        // The only LF is its last byte.
        let lf = line.iter().position(|&byte| byte == b'\n');
        assert_eq!(lf, Some(line.len() - 1));
    }
    let longest = lines.iter().max_by_key(|line| line.len()).unwrap();
    assert_eq!(longest, b"LOOP+INT+STOP\n");
    assert_eq!(longest.len(), LONGEST_LINE);
}

/// Lines that no word has, without their LF.
const NO_LINES: &[&[u8]] = &[
    b"LOAD 07 38",
    b"LOAD 16 00",
    b"LOAD 7 3a",
    b"PAUSE 00",
    b"PAUSE 4096",
    b"REPEAT +1",
    b"INT+LOOP",
    b"LOOP+LOOP",
    b"WORD 4020",
    b"WORD 0738",
    b"WORD 1002",
    b"WORD 4000",
    b"WORD 3abc",
    b"NOP+STOP",
    // Lower case.
    b"load 7 38",
    b"Pause 2",
    b"repeat 3",
    b"stop",
    b"word 3ABC",
    // A blank before or after, two blanks, none, and others for it.
    b" STOP",
    b"STOP ",
    b" LOAD 7 38",
    b"LOAD 7 38 ",
    b"LOAD  7 38",
    b"LOAD 7  38",
    b"PAUSE  2",
    b"LOAD738",
    b"PAUSE2",
    b"LOAD\t7 38",
    b"LOOP + INT",
    // CR LF, an empty line, a zero byte, bytes from 80h on.
    b"STOP\r",
    b"LOAD 7 38\r",
    b"\r",
    b"",
    b"\0",
    b"STOP\0",
    b"LOAD 7 3\0",
    b"PAUSE 2\x80",
    b"\xD3TOP",
    b"PAUSE \xB2",
    b"STOP\xFF",
    // Parts, and more than a line.
    b"LOAD",
    b"LOAD 7",
    b"LOAD 7 3",
    b"LOAD 7 388",
    b"LOAD 7 38 38",
    b"LOAD  38",
    b"PAUSE",
    b"PAUSE ",
    b"PAUSE 2 3",
    b"WORD 3AB",
    b"WORD 3ABCD",
    b"WORD 03ABC",
    b"LOOP+",
    b"+LOOP",
    b"LOOPINT",
    b"LOOP+INT+STOP+NOP",
    b"STOP STOP",
    // Other orders, doubles, and NOP where there is another name.
    b"STOP+INT",
    b"STOP+LOOP",
    b"INT+LOOP+STOP",
    b"STOP+STOP",
    b"LOOP+NOP",
    // Numbers with signs, of other bases, and beyond 16 bits.
    b"PAUSE -0",
    b"PAUSE 0x2",
    b"PAUSE 2h",
    b"PAUSE A",
    b"LOAD A 38",
    b"LOAD 7 +3",
    b"LOAD 7 :0",
    b"LOAD 7 @0",
    b"LOAD 7 G0",
    b"PAUSE :",
    b"PAUSE /",
    b"PAUSE 65538",
    b"REPEAT 4294967297",
    b"LOAD 007 38",
    b"LOAD 00 00",
    b"LOAD 256 00",
    b"REPEAT 010",
    b"WORD +ABC",
    // The other words that have a name.
    b"WORD 0000",
    b"WORD 0FFF",
    b"WORD 1FFF",
    b"WORD 2000",
    b"WORD 4001",
    b"WORD 4010",
    b"WORD 4031",
];

held!(lines_that_no_word_has,
    fails_with LeadingZero, NamedAsWord, LowerRead, BlankAfter, CarriageReturns, BadLineFrom0);
fn lines_that_no_word_has<M: Machine>() {
    for line in NO_LINES {
        let shown = line.escape_ascii();
        assert_eq!(read::<M>(&[line, &b"\n"[..]].concat()), Err(1), "{shown}");
        let text = [b"STOP\nPAUSE 2\n", *line, b"\nSTOP\n"].concat();
        assert_eq!(read::<M>(&text), Err(3), "{shown}");
        let text = [b"LOAD 7 38\n", *line, b"\n"].concat();
        assert_eq!(read::<M>(&text), Err(2), "{shown}");
    }
    // Bytes that no line has, in the place of each of a line's and before it.
    for byte in (0x00..=0x09).chain(0x0B..=0x1F).chain(0x7F..=0xFF) {
        for at in 0.."LOAD 7 38\n".len() {
            let mut text = b"LOAD 7 38\n".to_vec();
            text[at] = byte;
            assert_eq!(read::<M>(&text), Err(1), "{byte:02X} at {at}");
            text.splice(at..=at, [byte, b"LOAD 7 38\n"[at]]);
            assert_eq!(read::<M>(&text), Err(1), "{byte:02X} before {at}");
        }
    }
}

held!(lines_at_the_edge_of_the_form);
fn lines_at_the_edge_of_the_form<M: Machine>() {
    assert_eq!(read::<M>(b""), Ok(vec![]));
    for (line, word) in [
        ("PAUSE 0", 0x1000),
        ("WORD 4040", 0x4040),
        ("WORD 4FFF", 0x4FFF),
        ("LOAD 0 00", 0x0000),
        ("REPEAT 4095", 0x2FFF),
        ("PAUSE 9", 0x1009),
        ("PAUSE 10", 0x100A),
        ("PAUSE 99", 0x1063),
        ("PAUSE 100", 0x1064),
        ("PAUSE 999", 0x13E7),
        ("PAUSE 1000", 0x13E8),
        ("LOAD 9 9A", 0x099A),
        ("LOAD 10 A9", 0x0AA9),
    ] {
        let text = format!("{line}\n");
        assert_eq!(read::<M>(text.as_bytes()), Ok(vec![word]), "{line}");
    }
}

held!(a_last_line_without_its_lf_is_bad, fails_with LfLeftOut);
fn a_last_line_without_its_lf_is_bad<M: Machine>() {
    assert_eq!(read::<M>(b"STOP"), Err(1));
    assert_eq!(read::<M>(b"LOAD 7 38\nPAUSE 2\nSTOP"), Err(3));
    assert_eq!(read::<M>(b"LOAD 7 38\nPAUSE 2\nS"), Err(3));
    // 3 could have been 31.
    assert_eq!(read::<M>(b"NOP\nPAUSE 3"), Err(2));
    for word in (0..=0xFFFF).step_by(7) {
        let line = line_of(word);
        for length in 1..line.len() {
            let text = &line.as_bytes()[..length];
            assert_eq!(read::<M>(text), Err(1), "{}", text.escape_ascii());
        }
    }
}

held!(the_first_of_many_bad_lines_is_told, fails_with BadLineFrom0);
fn the_first_of_many_bad_lines_is_told<M: Machine>() {
    assert_eq!(read::<M>(b"\n\n\n"), Err(1));
    assert_eq!(read::<M>(b"STOP\nstop\nSTOP\nstop\n"), Err(2));
    let mut text = b"LOOP+INT+STOP\n".repeat(70_000);
    text.extend(b"PAUSE 00\nINT");
    assert_eq!(read::<M>(&text), Err(70_001));
}

held!(form_is_tested_before_room, fails_with RoomBeforeForm);
fn form_is_tested_before_room<M: Machine>() {
    let text = b"LOAD 7 38\nPAUSE 2\nSTOP\n";
    let bad = [&text[..], b"stop\n"].concat();
    for room in 0..=5 {
        let mut words = vec![0xEEEE; room];
        assert_eq!(M::read(&bad, &mut words), refused(7, 4), "room {room}");
        assert_eq!(words, vec![0xEEEE; room]);
    }
}

held!(words_that_have_no_room_are_refused);
fn words_that_have_no_room_are_refused<M: Machine>() {
    let text = b"LOAD 7 38\nPAUSE 2\nSTOP\n";
    for room in 0..3 {
        let mut words = vec![0xEEEE; room];
        assert_eq!(M::read(text, &mut words), refused(8, 0), "room {room}");
        assert_eq!(words, vec![0xEEEE; room]);
    }
    let mut words = [0xEEEE; 3];
    let served = ReadBack {
        answer: Answer::Done,
        count: 3,
        line: 0,
    };
    assert_eq!(M::read(text, &mut words), served);
    assert_eq!(words, [0x0738, 0x1002, 0x4020]);
}

held!(a_refused_read_leaves_every_word, fails_with PartRead);
fn a_refused_read_leaves_every_word<M: Machine>() {
    let mut words = [0x1111, 0x2222, 0x3333];
    let back = M::read(b"STOP\nPAUSE 2\nstop\n", &mut words);
    assert_eq!(back, refused(7, 3));
    assert_eq!(words, [0x1111, 0x2222, 0x3333]);
}

held!(text_that_has_no_room_is_refused, fails_with RoomForLongest, PartPrinted);
fn text_that_has_no_room_is_refused<M: Machine>() {
    let words = [0x4031, 0x0738, 0x3ABC, 0x4000];
    let whole = b"LOOP+INT+STOP\nLOAD 7 38\nWORD 3ABC\nNOP\n";
    for room in 0..whole.len() {
        let mut text = vec![0xEE; room];
        assert_eq!(M::print(&words, &mut text), TOO_SMALL, "room {room}");
        assert_eq!(text, vec![0xEE; room]);
    }
    let mut text = vec![0xEE; whole.len()];
    let served = Printed {
        answer: Answer::Done,
        size: whole.len(),
    };
    assert_eq!(M::print(&words, &mut text), served);
    assert_eq!(text, whole);
}

held!(what_lies_beyond_stays, fails_with BeyondCleared);
fn what_lies_beyond_stays<M: Machine>() {
    let mut text = *b"0123456789";
    let served = Printed {
        answer: Answer::Done,
        size: 5,
    };
    assert_eq!(M::print(&[0x4020], &mut text), served);
    assert_eq!(text, *b"STOP\n56789");
    let mut words = [0x1111, 0x2222, 0x3333];
    let served = ReadBack {
        answer: Answer::Done,
        count: 1,
        line: 0,
    };
    assert_eq!(M::read(b"STOP\n", &mut words), served);
    assert_eq!(words, [0x4020, 0x2222, 0x3333]);
}

held!(an_empty_list_needs_no_room);
fn an_empty_list_needs_no_room<M: Machine>() {
    let printed = M::print(&[], &mut []);
    assert_eq!(
        printed,
        Printed {
            answer: Answer::Done,
            size: 0
        }
    );
    let served = ReadBack {
        answer: Answer::Done,
        count: 0,
        line: 0,
    };
    assert_eq!(M::read(b"", &mut []), served);
    assert_eq!(M::print(&[0x4000], &mut []), TOO_SMALL);
    assert_eq!(M::read(b"NOP\n", &mut []), refused(8, 0));
    assert_eq!(M::read(b"N", &mut []), refused(7, 1));
}

held!(random_lists_read_back, fails_with LowerWritten);
fn random_lists_read_back<M: Machine>() {
    let mut random = Random(43);
    for _ in 0..5_000 {
        let length = random.either(10, 300, 12);
        let words: Vec<u16> = (0..length).map(|_| mixed_word(&mut random)).collect();
        let text: String = words.iter().copied().map(line_of).collect();
        is_the_text_of::<M>(&text, &words);
    }
}

// Every line of a text is looked for among those of all words.
held!(a_changed_text_is_read_by_its_lines,
    fails_with LeadingZero, NamedAsWord, LowerRead, BlankAfter, CarriageReturns, LfLeftOut);
fn a_changed_text_is_read_by_its_lines<M: Machine>() {
    let word_of: HashMap<String, u16> = (0..=0xFFFF).map(|word| (line_of(word), word)).collect();
    let listed = |line: &[u8]| word_of.get(std::str::from_utf8(line).ok()?).copied();
    let mut random = Random(47);
    let mut served = 0;
    for _ in 0..50_000 {
        let length = 1 + random.below(5);
        let whole: String = (0..length)
            .map(|_| line_of(mixed_word(&mut random)))
            .collect();
        let text = changed(&mut random, whole.as_bytes());
        let lines: Vec<&[u8]> = text.split_inclusive(|&byte| byte == b'\n').collect();
        let expected = match lines.iter().position(|line| listed(line).is_none()) {
            Some(bad) => Err(bad + 1),
            None => Ok(lines.iter().filter_map(|line| listed(line)).collect()),
        };
        assert_eq!(read::<M>(&text), expected, "{}", text.escape_ascii());
        if let Ok(words) = expected {
            assert_eq!(printed::<M>(&words), text);
            served += 1;
        }
    }
    assert!((2_000..25_000).contains(&served), "{served}");
}
