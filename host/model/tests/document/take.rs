//! Request L7: takes written and opened, with the kinds that L9 and L13 add.

use model::random::{any_comment, any_records, Random};
use model::{held, Machine};
use plus::take::{Opened, Record, RecordRead, Written, RECORD, TRAILER};
use plus::Answer;

/// Kinds with a good address and value each.
const GOOD: [(u8, u16, u8); 10] = [
    (1, 0, 0x7F),
    (2, 0, 0x28),
    (3, 0, 0xB8),
    (4, 0x6C0F, 0x01),
    (5, 0, 0),
    (6, 0, 0),
    (7, 0x6400, 0x02),
    (8, 0, 0),
    (9, 0, 0),
    (10, 2, 1),
];

fn record(line: u32, (kind, address, value): (u8, u16, u8)) -> Record {
    Record {
        line,
        kind,
        address,
        value,
    }
}

/// An undo, which is nothing but its kind.
fn undo(line: u32) -> Record {
    record(line, (6, 0, 0))
}

/// Good records of lines.
fn lined(lines: &[u32]) -> Vec<Record> {
    lines.iter().map(|&line| undo(line)).collect()
}

/// A trailer by the request's words.
fn trailer(count: u32, offset: u32) -> Vec<u8> {
    [&count.to_le_bytes()[..], &offset.to_le_bytes(), b"PLTK"].concat()
}

/// A file by the request's words, whatever its records are.
fn file_of(comment: &[u8], records: &[Record]) -> Vec<u8> {
    let mut file = comment.to_vec();
    for record in records {
        file.extend(record.line.to_le_bytes());
        file.push(record.kind);
        file.extend(record.address.to_le_bytes());
        file.push(record.value);
    }
    file.extend(trailer(records.len() as u32, comment.len() as u32));
    file
}

fn numbers<M: Machine>(records: &[Record]) -> Vec<u64> {
    records.iter().map(|&record| M::take_pack(record)).collect()
}

/// What writing gives with more room than it takes, which stays as it was: the
/// file or the bad record.
fn written<M: Machine>(comment: &[u8], records: &[Record]) -> Result<Vec<u8>, usize> {
    let whole = comment.len() + RECORD * records.len() + TRAILER;
    let mut output = vec![0xEE; whole + 3];
    let written = M::take_write(comment, &numbers::<M>(records), &mut output);
    assert!(output[written.size..].iter().all(|&byte| byte == 0xEE));
    if written.answer == 0 {
        assert_eq!(written.bad, 0);
        output.truncate(written.size);
        return Ok(output);
    }
    assert_eq!((written.answer, written.size), (Answer::BadRecord, 0));
    Err(written.bad)
}

/// What opening gives: the comment and the records, or the answer and the bad
/// record.
fn opened<M: Machine>(file: &[u8]) -> Result<(&[u8], Vec<Record>), (u8, usize)> {
    let Opened {
        answer,
        bad,
        count,
        offset,
    } = M::take_open(file);
    if answer != 0 {
        assert_eq!((count, offset), (0, 0));
        return Err((answer.number(), bad));
    }
    assert_eq!(bad, 0);
    // No more than there are bytes for: a fault must not fill the memory.
    assert!(count <= file.len() / RECORD, "{count} records");
    let records = (1..=count).map(|number| {
        let read = M::take_record(file, number);
        assert_eq!(read.answer, 0, "{number}");
        read.record
    });
    Ok((&file[..offset], records.collect()))
}

/// A file that is a comment's and records', written and opened.
fn is_the_file_of<M: Machine>(file: &[u8], comment: &[u8], records: &[Record]) {
    assert_eq!(written::<M>(comment, records).as_deref(), Ok(file));
    assert_eq!(opened::<M>(file), Ok((comment, records.to_vec())));
}

/// Records that are refused, the first bad one with a number.
fn are_bad<M: Machine>(records: &[Record], bad: usize) {
    assert_eq!(written::<M>(b"c", records), Err(bad), "{records:02X?}");
    let file = file_of(b"c", records);
    assert_eq!(opened::<M>(&file), Err((13, bad)), "{records:02X?}");
}

/// Records that are served.
fn are_good<M: Machine>(records: &[Record]) {
    is_the_file_of::<M>(&file_of(b"c", records), b"c", records);
}

const NO_ROOM: Written = Written {
    answer: Answer::NoRoom,
    size: 0,
    bad: 0,
};

held!(the_file_byte_by_byte, fails_with CountAndOffsetSwapped, AddressHighFirst);
fn the_file_byte_by_byte<M: Machine>() {
    let records = [
        record(0, (3, 0, 0xB8)),
        record(0x0403_0201, (4, 0x6C0F, 0x07)),
    ];
    let file = [
        &b"hello"[..],
        &[0, 0, 0, 0, 3, 0, 0, 0xB8],
        &[0x01, 0x02, 0x03, 0x04, 4, 0x0F, 0x6C, 0x07],
        &[2, 0, 0, 0],
        &[5, 0, 0, 0],
        &[0x50, 0x4C, 0x54, 0x4B],
    ];
    is_the_file_of::<M>(&file.concat(), b"hello", &records);
}

held!(nothing_but_a_trailer);
fn nothing_but_a_trailer<M: Machine>() {
    is_the_file_of::<M>(b"\0\0\0\0\0\0\0\0PLTK", b"", &[]);
    is_the_file_of::<M>(b"c\0\0\0\0\x01\0\0\0PLTK", b"c", &[]);
}

held!(a_count_and_an_offset_of_several_bytes, fails_with CountAndOffsetSwapped);
fn a_count_and_an_offset_of_several_bytes<M: Machine>() {
    let (comment, records) = (vec![b'c'; 0x1_0203], vec![undo(7); 0x304]);
    let file = written::<M>(&comment, &records).unwrap();
    let end = [
        0x04, 0x03, 0, 0, 0x03, 0x02, 0x01, 0, b'P', b'L', b'T', b'K',
    ];
    assert!(file.ends_with(&end));
    assert_eq!(opened::<M>(&file), Ok((&comment[..], records)));
}

held!(a_record_as_a_number, fails_with AddressHighFirst, KindByValue);
fn a_record_as_a_number<M: Machine>() {
    for (number, record) in [
        (0, Record::default()),
        (
            0x0807_0605_0403_0201,
            record(0x0403_0201, (0x05, 0x0706, 0x08)),
        ),
        (u64::MAX, record(u32::MAX, (0xFF, 0xFFFF, 0xFF))),
        (0xB800_0003_0000_0000, record(0, (3, 0, 0xB8))),
    ] {
        assert_eq!(M::take_pack(record), number);
        assert_eq!(M::take_unpack(number), record);
    }
    // Every bit has its place.
    for bit in 0..64 {
        let record = M::take_unpack(1 << bit);
        assert_eq!(M::take_pack(record), 1 << bit);
    }
}

held!(each_kind_has_its_parts,
    fails_with Kind0Accepted, Kind11Accepted, PortWithAddress, UndoWithValue, StartWithValue,
        StartWithAddress, PictureWriteWithoutAddress, MuteWithValue2, MuteOfChannel3Bad);
fn each_kind_has_its_parts<M: Machine>() {
    let others = [
        (0, 2),
        (2, 1),
        (2, 3),
        (3, 0),
        (3, 1),
        (0xFFFF, 1),
        (0xFFFF, 0x81),
    ];
    for kind in 0..=255 {
        for (address, value) in [(0, 0), (0, 1), (0, 0x80), (1, 0), (0x100, 0), (0x6400, 9)]
            .into_iter()
            .chain(others)
        {
            let records = [record(3, (kind, address, value))];
            let good = match kind {
                1..=3 => address == 0,
                4 | 7 => true,
                5 | 6 | 8 | 9 => (address, value) == (0, 0),
                10 => value <= 1,
                _ => false,
            };
            match good {
                true => are_good::<M>(&records),
                false => are_bad::<M>(&records, 1),
            }
        }
    }
}

held!(any_byte_and_any_page_address_is_good);
fn any_byte_and_any_page_address_is_good<M: Machine>() {
    for value in 0..=255 {
        are_good::<M>(&[1, 2, 3, 4, 7].map(|kind| record(0, (kind, 0, value))));
    }
    // Inside the page, outside it, and where no register is.
    for address in [
        0x0000, 0x3FFF, 0x4000, 0x6808, 0x7000, 0x7FFF, 0x8000, 0xFFFF,
    ] {
        are_good::<M>(&[4, 7].map(|kind| record(0, (kind, address, 0))));
    }
}

held!(line_numbers_never_fall, fails_with FallingLineAccepted, LineBy16Bits, SameLineBad);
fn line_numbers_never_fall<M: Machine>() {
    let most = u32::MAX;
    for lines in [
        &[0, 0, 0][..],
        &[5, 5, 6, 6],
        &[0, 1, 255, 256, 65_535, 65_536, 16_777_216, most, most],
        &[most],
        &[0x0100_00FF, 0x0200_0000],
    ] {
        are_good::<M>(&lined(lines));
    }
    for (lines, bad) in [
        (&[1, 0][..], 2),
        (&[0, 5, 5, 4, 3], 4),
        (&[256, 255], 2),
        (&[65_536, 65_535], 2),
        (&[0x0100_0000, 0x00FF_FFFF], 2),
        (&[0, most, 0, most], 3),
        (&[0x8000_0000, 0x7FFF_FFFF], 2),
    ] {
        are_bad::<M>(&lined(lines), bad);
    }
    // By the record before it, and not by the highest so far.
    are_bad::<M>(&lined(&[9, 8, 8]), 2);
}

held!(the_first_bad_record_is_told, fails_with BadRecordFrom0);
fn the_first_bad_record_is_told<M: Machine>() {
    let good: Vec<Record> = GOOD.iter().map(|&parts| record(7, parts)).collect();
    are_good::<M>(&good);
    for place in 0..good.len() {
        for second in place..good.len() {
            let mut records = good.clone();
            records[place].kind = 0;
            records[second].kind = 11;
            are_bad::<M>(&records, place + 1);
        }
    }
    let mut many = vec![undo(1); 70_000];
    many.push(undo(0));
    are_bad::<M>(&many, 70_001);
}

held!(no_trailer_or_other_letters, fails_with ThreeLetters, TrailerOf11);
fn no_trailer_or_other_letters<M: Machine>() {
    let whole = trailer(0, 0);
    for from in 1..=whole.len() {
        assert_eq!(opened::<M>(&whole[from..]), Err((11, 0)), "from {from}");
        assert_eq!(opened::<M>(&whole[..whole.len() - from]), Err((11, 0)));
    }
    for letter in 8..12 {
        for byte in (0..=255).filter(|&byte| byte != whole[letter]) {
            let mut file = whole.clone();
            file[letter] = byte;
            assert_eq!(opened::<M>(&file), Err((11, 0)), "{byte:02X} at {letter}");
        }
    }
    for end in [&b"pltk"[..], b"PLTK\n", b"KTLP", b"PLTK\0", b"LTPK"] {
        let file = [&file_of(b"c", &[undo(0)])[..21], end].concat();
        assert_eq!(opened::<M>(&file), Err((11, 0)), "{}", end.escape_ascii());
    }
}

held!(records_that_dont_meet_the_trailer, fails_with GapAllowed, EndBy32Bits);
fn records_that_dont_meet_the_trailer<M: Machine>() {
    let body = [&b"comment"[..], &[0, 0, 0, 0, 6, 0, 0, 0].repeat(2)].concat();
    let ended = |count, offset| [&body[..], &trailer(count, offset)].concat();
    assert_eq!(opened::<M>(&ended(2, 7)).map(|take| take.0.len()), Ok(7));
    for (count, offset) in [
        (2, 6),
        (2, 8),
        (1, 7),
        (3, 7),
        (0, 0),
        (0, 22),
        (0, 24),
        (2, 0),
        (2, 0x0100_0007),
        (0x0100_0002, 7),
        // Their sum by 32 bits would be right.
        (0x2000_0002, 7),
        (0xE000_0002, 7),
        (0x2000_0000, 23),
        (0xFFFF_FFFF, 31),
        (3, 0xFFFF_FFFF),
    ] {
        let file = ended(count, offset);
        assert_eq!(opened::<M>(&file), Err((12, 0)), "{count:X} {offset:X}");
    }
    // A byte more or less anywhere before the trailer.
    let whole = ended(2, 7);
    for at in 0..body.len() {
        let mut file = whole.clone();
        file.remove(at);
        assert_eq!(opened::<M>(&file), Err((12, 0)), "without {at}");
        let mut file = whole.clone();
        file.insert(at + 1, 0);
        assert_eq!(opened::<M>(&file), Err((12, 0)), "after {at}");
    }
}

held!(eleven_before_twelve_before_thirteen,
    fails_with MetBeforeLetters, RecordsBeforeMet, CountThoughBad);
fn eleven_before_twelve_before_thirteen<M: Machine>() {
    for (letters, met, good, expected) in [
        (false, false, false, Err((11, 0))),
        (false, false, true, Err((11, 0))),
        (false, true, false, Err((11, 0))),
        (false, true, true, Err((11, 0))),
        (true, false, false, Err((12, 0))),
        (true, false, true, Err((12, 0))),
        (true, true, false, Err((13, 2))),
        (true, true, true, Ok(3)),
    ] {
        let mut records = lined(&[1, 2, 3]);
        if !good {
            records[1].kind = 0;
        }
        let mut file = file_of(b"comment", &records);
        if !met {
            file.insert(0, b' ');
        }
        if !letters {
            *file.last_mut().unwrap() = b'k';
        }
        let count = opened::<M>(&file).map(|(_, records)| records.len());
        assert_eq!(count, expected);
    }
}

held!(thirteen_before_fourteen, fails_with RoomBeforeRecords, FullRoomRefused, BadRecordFrom0);
fn thirteen_before_fourteen<M: Machine>() {
    let (good, bad) = (lined(&[1, 2, 3]), lined(&[1, 2, 1]));
    let size = 7 + 3 * 8 + 12;
    for room in 0..size + 2 {
        let mut output = vec![0xEE; room];
        let written = M::take_write(b"comment", &numbers::<M>(&bad), &mut output);
        let refused = Written {
            answer: Answer::BadRecord,
            size: 0,
            bad: 3,
        };
        assert_eq!(written, refused, "room {room}");
        assert_eq!(output, vec![0xEE; room]);

        let written = M::take_write(b"comment", &numbers::<M>(&good), &mut output);
        let served = Written {
            answer: Answer::Done,
            size,
            bad: 0,
        };
        let expected = if room < size { NO_ROOM } else { served };
        assert_eq!(written, expected, "room {room}");
    }
}

held!(a_refused_write_leaves_every_byte, fails_with CommentThoughRefused);
fn a_refused_write_leaves_every_byte<M: Machine>() {
    for (lines, room) in [(&[1, 0][..], 100), (&[0, 1], 10), (&[0, 1], 33)] {
        let mut output = vec![0xEE; room];
        let written = M::take_write(b"comment", &numbers::<M>(&lined(lines)), &mut output);
        assert_ne!(written.answer, 0);
        assert_eq!(output, vec![0xEE; room]);
    }
}

held!(bytes_beyond_the_file_stay, fails_with BeyondTakeCleared);
fn bytes_beyond_the_file_stay<M: Machine>() {
    let mut output = *b"0123456789abcdefgh";
    let written = M::take_write(b"cd", &[], &mut output);
    let served = Written {
        answer: Answer::Done,
        size: 14,
        bad: 0,
    };
    assert_eq!(written, served);
    assert_eq!(output, *b"cd\0\0\0\0\x02\0\0\0PLTKefgh");
}

// The buffers are never looked at, so that they take no memory.
held!(an_offset_above_4_bytes_has_no_room, fails_with OffsetCut);
fn an_offset_above_4_bytes_has_no_room<M: Machine>() {
    let comment = vec![0; 1 << 32];
    let mut output = vec![0; (1 << 32) + 100];
    assert_eq!(M::take_write(&comment, &[], &mut output), NO_ROOM);
    let bad = Written {
        answer: Answer::BadRecord,
        size: 0,
        bad: 1,
    };
    assert_eq!(M::take_write(&comment, &[0], &mut output), bad);
}

held!(a_comment_may_look_like_a_take);
fn a_comment_may_look_like_a_take<M: Machine>() {
    let take = file_of(b"inner", &lined(&[1, 2]));
    for comment in [
        &take[..],
        b"PLTK",
        &trailer(0, 0),
        &trailer(9, 9),
        &[0xFF; 40],
    ] {
        let records = lined(&[3, 4, 5]);
        is_the_file_of::<M>(&file_of(comment, &records), comment, &records);
        is_the_file_of::<M>(&file_of(comment, &[]), comment, &[]);
    }
}

/// The records of a take have the numbers from 1; with any other the answer is 3.
fn are_numbered<M: Machine>(file: &[u8], records: &[Record]) {
    for (number, &record) in (1..).zip(records) {
        let answer = Answer::Done;
        let read = RecordRead { answer, record };
        assert_eq!(M::take_record(file, number), read, "{number}");
    }
    let past = records.len() + 1;
    for number in [0, past, past + 1, 1 << 32, 1 << 61, usize::MAX] {
        no_record::<M>(file, number, Answer::NothingThere);
    }
}

/// A record is refused, and nothing is given.
fn no_record<M: Machine>(file: &[u8], number: usize, answer: Answer) {
    let record = Record::default();
    let read = RecordRead { answer, record };
    assert_eq!(M::take_record(file, number), read, "{number}");
}

held!(records_count_from_1, fails_with RecordFrom0, NoSuchRecordServed);
fn records_count_from_1<M: Machine>() {
    let records = lined(&[3, 4, 5]);
    are_numbered::<M>(&file_of(b"comment", &records), &records);
    are_numbered::<M>(&file_of(b"comment", &[]), &[]);
}

held!(a_bad_record_is_given, fails_with NoRecordsThoughMet);
fn a_bad_record_is_given<M: Machine>() {
    let records = [undo(9), record(3, (10, 0x1234, 0x56)), undo(2)];
    are_numbered::<M>(&file_of(b"", &records), &records);
}

held!(records_are_refused_as_the_trailer_is, fails_with NumberBeforeTrailer);
fn records_are_refused_as_the_trailer_is<M: Machine>() {
    let file = file_of(b"comment", &lined(&[3, 4, 5]));
    let gap = [b" ", &file[..]].concat();
    for number in [0, 1, 3, 4, usize::MAX] {
        no_record::<M>(&gap, number, Answer::NotMet);
        no_record::<M>(&file[1..], number, Answer::NotMet);
        for short in [&file[..0], &file[..3], &file[..file.len() - 1]] {
            no_record::<M>(short, number, Answer::NoTrailer);
        }
    }
}

held!(random_takes_open_as_they_were, fails_with AddressHighFirst, SameLineBad);
fn random_takes_open_as_they_were<M: Machine>() {
    let mut random = Random(61);
    for _ in 0..5_000 {
        let comment = any_comment(&mut random);
        let count = random.either(10, 200, 8);
        let records = any_records(&mut random, count);
        is_the_file_of::<M>(&file_of(&comment, &records), &comment, &records);
    }
}

// What opens is the file of its own comment and records.
held!(what_opens_is_written_again, fails_with GapAllowed, EndBy32Bits);
fn what_opens_is_written_again<M: Machine>() {
    let mut random = Random(67);
    let mut served = 0;
    for _ in 0..200_000 {
        let count = random.below(3) as u32;
        let mut file = vec![0; 8 * count as usize + random.below(4) as usize];
        for byte in &mut file {
            *byte = random.either(8, 256, 2) as u8 * random.below(10) as u8;
        }
        let offset = file.len() as u32 - 8 * count;
        let high = random.pick(&[0, 0, 0, 0, 1, 0x2000_0000]);
        file.extend(trailer(count ^ high, offset));
        if let Ok((comment, records)) = opened::<M>(&file) {
            assert_eq!(written::<M>(comment, &records), Ok(file));
            served += 1;
        }
    }
    assert!(served >= 10_000, "{served}");
}
