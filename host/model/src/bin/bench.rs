//! bench: core against model, side by side in one run: nanoseconds a call, and
//! their ratio; then a frame of the core from Rust, and from C as `examples/c`
//! has it (`make -C examples/c frame` builds that).
//! bench CASE core|model COUNT: that many calls of one case and nothing else, to
//! be counted by callgrind. bench names: the cases, each with the calls of a timed
//! run. bench c: the second table alone.

use model::chip::{self, Model};
use model::random::{any_records, mixed_word, Random};
use model::under_test::UnderTest;
use plus::listing::{self, LONGEST_LINE};
use plus::mend::{self, CHANGE};
use plus::take::{self, kind, Record};
use plus::{Chip, Editor, Table, EXPORT, LINE, PLACES, RAM, STORE, UNLOCK};
use std::env;
use std::hint::black_box;
use std::process::{Command, ExitCode};
use std::time::{Duration, Instant};

/// What a case calls.
#[derive(Clone, Copy)]
enum Work {
    Line,
    PageWrite,
    PageRead,
    Undo,
    Place,
    Remove,
    Export,
    Frame,
    /// A frame at whose start every sprite is put somewhere else.
    Moving,
    Forecast,
    Print,
    Read,
    Mend,
    TakeWrite,
    TakeOpen,
    Replay,
    ByHand,
}

/// The take that is played enables the channels again and again, since they come to
/// a STOP: how often, and for how many lines.
const STRETCHES: u32 = 100;
const STRETCH: u32 = 10_000;

/// Lines of one sort in a timed run: 1,600 times those that a turn of the list takes.
const LINES: usize = 1_600 * 19;

/// A list is mended once, so there are as many of the same as a timed run mends.
const LISTS: usize = 20;

/// A list is placed and removed once, so there are as many chips as a timed run has of
/// these calls.
const CHIPS: usize = 2_000;

/// The lists that are placed before such a call.
#[derive(Clone, Copy)]
enum Placed {
    /// None, and no area.
    Nothing,
    /// 32 of 256 bytes by rising handles, with a gap as long in their middle.
    Between,
    /// 63, each a word longer than the one below it, by falling handles, and room for a
    /// word behind them, or none.
    Falling { room: bool },
}

/// A row of the table: how many calls one timed run makes, how many sprites are
/// on every line, and the screen mode.
struct Case {
    name: &'static str,
    work: Work,
    count: usize,
    sprites: u16,
    mode: u8,
    /// Every pixel of the sprites lets what is behind it show.
    transparent: bool,
    /// The sprites' magnification byte.
    magnification: u8,
    /// Positions from one sprite's left edge to the next one's.
    apart: u16,
    /// The sprite of the highest number stands leftmost, and not that of the lowest.
    falling: bool,
    /// All channels are muted.
    muted: bool,
    placed: Placed,
}

const fn case(name: &'static str, work: Work, count: usize, sprites: u16, mode: u8) -> Case {
    Case {
        name,
        work,
        count,
        sprites,
        mode,
        transparent: false,
        magnification: 0b1111,
        apart: 40,
        falling: false,
        muted: false,
        placed: Placed::Nothing,
    }
}

/// A call on lists, with some that are placed.
const fn lists(name: &'static str, work: Work, placed: Placed) -> Case {
    Case {
        placed,
        ..case(name, work, CHIPS, 0, 1)
    }
}

/// A line of one sort, again and again.
const fn line(name: &'static str, sprites: u16, mode: u8) -> Case {
    case(name, Work::Line, LINES, sprites, mode)
}

const CASES: [Case; 41] = [
    line("line, no sprite", 0, 1),
    Case {
        muted: true,
        ..line("line, no sprite, all muted", 0, 1)
    },
    line("line, no sprite, mode 0", 0, 0),
    line("line, no sprite, mode 2", 0, 2),
    line("line, 4 sprites", 4, 1),
    line("line, 4 sprites, mode 0", 4, 0),
    line("line, 4 sprites, mode 2", 4, 2),
    line("line, 16 sprites", 16, 1),
    line("line, 16 sprites, mode 0", 16, 0),
    line("line, 16 sprites, mode 2", 16, 2),
    Case {
        transparent: true,
        ..line("line, 16 transparent sprites", 16, 1)
    },
    Case {
        magnification: 0b0101,
        ..line("line, 16 sprites at magnification 1", 16, 1)
    },
    Case {
        magnification: 0b1010,
        ..line("line, 16 sprites at magnification 2", 16, 1)
    },
    Case {
        magnification: 0b0101,
        apart: 16,
        ..line("line, 16 edge to edge, magnification 1", 16, 1)
    },
    Case {
        apart: 0,
        ..line("line, 16 sprites in one place", 16, 1)
    },
    Case {
        apart: 0,
        transparent: true,
        ..line("line, 16 transparent in one place", 16, 1)
    },
    Case {
        apart: 1,
        transparent: true,
        ..line("line, 16 transparent, 1 apart", 16, 1)
    },
    Case {
        magnification: 0b0101,
        apart: 1,
        transparent: true,
        ..line("line, 16 transparent, 1 apart, magnification 1", 16, 1)
    },
    Case {
        falling: true,
        ..line("line, 16 sprites, highest leftmost", 16, 1)
    },
    Case {
        falling: true,
        transparent: true,
        ..line("line, 16 transparent, highest leftmost", 16, 1)
    },
    Case {
        apart: 1,
        falling: true,
        transparent: true,
        ..line("line, 16 transparent, 1 apart, highest leftmost", 16, 1)
    },
    Case {
        magnification: 0b0101,
        apart: 1,
        falling: true,
        transparent: true,
        ..line(
            "line, 16 transparent, 1 apart, magnification 1, highest leftmost",
            16,
            1,
        )
    },
    case("frame of 312 lines, no sprite", Work::Frame, 10, 0, 1),
    case("frame of 312 lines, 16 sprites", Work::Frame, 10, 16, 1),
    case("frame of 312 lines, 16 moving", Work::Moving, 10, 16, 1),
    case("page write", Work::PageWrite, 100_000, 0, 1),
    case("page read", Work::PageRead, 100_000, 0, 1),
    case("undo", Work::Undo, 100_000, 0, 1),
    lists(
        "place 256 bytes between 32 lists",
        Work::Place,
        Placed::Between,
    ),
    lists(
        "place a word behind 63 lists, highest handle lowest",
        Work::Place,
        Placed::Falling { room: true },
    ),
    lists(
        "the same with no gap",
        Work::Place,
        Placed::Falling { room: false },
    ),
    lists("remove one of 32 lists", Work::Remove, Placed::Between),
    case("export", Work::Export, 10_000, 0, 1),
    case("forecast, 32,767 words", Work::Forecast, 20, 0, 1),
    case("print, 30,000 words", Work::Print, 20, 0, 1),
    case("read, 30,000 words", Work::Read, 20, 0, 1),
    case("mend, 30,000 words", Work::Mend, LISTS, 0, 1),
    case("write, 100,000 records", Work::TakeWrite, 20, 0, 1),
    case("open, 100,000 records", Work::TakeOpen, 20, 0, 1),
    case("replay, 1,000,000 lines", Work::Replay, 1, 0, 1),
    case("the same calls by hand", Work::ByHand, 1, 0, 1),
];

/// What both are given: RAM with a screen and a list that never ends before its
/// last word, a store of opaque pixels, words of all kinds and their text, the same
/// words to be mended, records of all kinds and their take, room for these and for
/// the changes of the words, and a take to be played.
struct Lent {
    ram: Vec<u8>,
    store: Vec<u8>,
    line: Vec<u8>,
    export: Vec<u8>,
    words: Vec<u16>,
    text: Vec<u8>,
    text_room: Vec<u8>,
    words_room: Vec<u16>,
    lists: Vec<Vec<u16>>,
    report_room: Vec<u64>,
    records: Vec<u64>,
    take: Vec<u8>,
    take_room: Vec<u8>,
    played: Vec<u8>,
}

fn lent() -> Lent {
    let mut ram: Vec<u8> = (0..RAM as u32).map(|i| (i * 37 + i / 256) as u8).collect();
    for i in 0..32767 {
        let word: u16 = [0x0738, 0x2003, 0x1002, 0x080f, 0x4001, 0x3123][i % 6];
        ram[2 * i..2 * i + 2].copy_from_slice(&word.to_le_bytes());
    }
    ram[65532..65534].copy_from_slice(&0x4020u16.to_le_bytes());
    let store = (0..STORE)
        .map(|i| if i % 16 < 4 { 0 } else { (i % 15 + 1) as u8 })
        .collect();
    let mut random = Random(53);
    let words: Vec<u16> = (0..30_000).map(|_| mixed_word(&mut random)).collect();
    let records = any_records(&mut random, 100_000);
    let take = take::file_of(b"a comment", &records).expect("records are good");
    Lent {
        ram,
        store,
        line: vec![0; LINE],
        export: vec![0; EXPORT],
        text: listing::text_of(&words),
        text_room: vec![0; LONGEST_LINE * words.len()],
        words_room: vec![0; words.len()],
        lists: vec![words.clone(); LISTS],
        report_room: vec![0; CHANGE * words.len()],
        words,
        records: records.into_iter().map(take::pack).collect(),
        take_room: vec![0; take.len()],
        take,
        played: played(),
    }
}

/// A take that has all channels play, and ends after its lines.
fn played() -> Vec<u8> {
    let record = |line, kind, address, value| Record {
        line,
        kind,
        address,
        value,
    };
    let mut records: Vec<Record> = UNLOCK.map(|byte| record(0, kind::WRITE_BC, 0, byte)).into();
    records.push(record(0, kind::WRITE_7F, 0, 0xB8));
    for n in 0..STRETCHES {
        records.push(record(STRETCH * n, kind::PAGE_WRITE, 0x6C0F, 7));
    }
    records.push(record(STRETCH * STRETCHES, kind::WRITE_7F, 0, 0x80));
    take::file_of(b"", &records).expect("records are good")
}

/// The last row of a frame: for lines of one sort the last that its sprites are on,
/// 16 times their magnification being the lines from their Y on.
fn last_row(case: &Case) -> u8 {
    match (case.work, case.sprites, case.magnification & 3) {
        (Work::Line, 1.., 1) => 1,
        (Work::Line, 1.., 2) => 3,
        (Work::Line, 1.., _) => 7,
        _ => 38,
    }
}

/// 40 characters, 39 rows or fewer, the case's mode and sprites, all channels on,
/// muted or not, and a full record.
fn set_up<M: UnderTest>(case: &Case) -> M {
    let mut machine = M::open();
    machine.registers(&[(1, 40), (4, last_row(case)), (6, 39), (9, 7), (12, 0x30)]);
    machine.write_7f(0x80 | case.mode);
    for n in 0..case.sprites {
        let place = if case.falling {
            case.sprites - 1 - n
        } else {
            n
        };
        for (address, byte) in coordinates(n, place * case.apart, 0) {
            machine.poke(address, byte);
        }
        machine.poke(0x6004 + 8 * n, case.magnification);
    }
    machine.poke(0x6C0F, 7);
    for n in 0..3 {
        assert_eq!(machine.mute(n, case.muted), 0);
    }
    for i in 0..PLACES as u16 {
        machine.poke(0x6400 + i % 64, i as u8);
    }
    place_lists(&mut machine, case.placed);
    machine
}

/// The chips of a case on lists. Each has had a list more than it has, so that the
/// model's Vec has room for it again.
fn copies<M: UnderTest + Clone>(machine: &M, case: &Case) -> Vec<M> {
    if let Placed::Nothing = case.placed {
        return vec![];
    }
    let (mut ram, list) = (vec![0; RAM], vec![0; bytes_placed(case)]);
    let mut machines = vec![machine.clone(); CHIPS];
    for machine in &mut machines {
        let (answer, placed) = machine.place(&mut ram, &list);
        if answer == 0 {
            assert_eq!(machine.remove(placed.handle), 0);
        }
    }
    machines
}

/// How many bytes the list has that is placed.
fn bytes_placed(case: &Case) -> usize {
    match case.placed {
        Placed::Between => 256,
        _ => 2,
    }
}

fn place_lists<M: UnderTest>(machine: &mut M, placed: Placed) {
    let mut ram = vec![0; RAM];
    let mut place = |machine: &mut M, bytes: usize| {
        assert_eq!(machine.place(&mut ram, &vec![0; bytes]).0, 0);
    };
    match placed {
        Placed::Nothing => {}
        Placed::Between => {
            assert_eq!(machine.area(0x8000, 0xC000), 0);
            (0..33).for_each(|_| place(machine, 256));
            assert_eq!(machine.remove(16), 0);
        }
        Placed::Falling { room } => {
            let bytes = |slot: u32| 2 * (slot + 1) as usize;
            let all: usize = (0..63).map(bytes).sum();
            let upto = 0x8000 + all + 2 * usize::from(room);
            assert_eq!(machine.area(0x8000, upto as u32), 0);
            (0..63).for_each(|slot| place(machine, bytes(slot)));
            // Two handles changed for each other: the longer list goes first, to the room
            // that it has, since the other is too short.
            for (low, high) in (0..31).map(|slot| (slot, 62 - slot)) {
                assert_eq!([low, high].map(|slot| machine.remove(slot)), [0, 0]);
                place(machine, bytes(high));
                place(machine, bytes(low));
            }
            let falls = machine.lists().is_sorted_by(|a, b| a.address > b.address);
            assert!(falls, "the highest handle is lowest");
        }
    }
}

/// A sprite's coordinates, as writes to the page.
fn coordinates(sprite: u16, x: u16, y: u16) -> [(u16, u8); 4] {
    let at = 0x6000 + 8 * sprite;
    let ([x_low, x_high], [y_low, y_high]) = (x.to_le_bytes(), y.to_le_bytes());
    [
        (at, x_low),
        (at + 1, x_high),
        (at + 2, y_low),
        (at + 3, y_high),
    ]
}

/// Where a sprite is in a frame: each has a speed of its own.
fn moved(sprite: u16, frame: usize) -> [(u16, u8); 4] {
    let (n, frame) = (sprite, (frame % 1000) as u16);
    coordinates(
        n,
        (40 * n + (n + 1) * frame) % 640,
        (18 * n + 2 * frame) % 256,
    )
}

/// The calls of each case and the time they take, written once for both: they
/// have calls of the same names, and are called here with nothing between.
macro_rules! calls_of {
    (
        $run:ident, $machine:ident, $forecast:path, $print:path, $read:path, $mend:path,
        $write:path, $open:path, $replay:path, $off:path, $song:path, $table:path
    ) => {
        fn $run(case: &Case, count: usize) -> Duration {
            let (mut machine, mut lent) = (set_up::<$machine>(case), lent());
            if case.transparent {
                lent.store.fill(0);
            }
            let mut machines = copies(&machine, case);
            let list = vec![0x40; bytes_placed(case)];
            let start = Instant::now();
            match case.work {
                Work::Line => repeat(count, |_| {
                    black_box(machine.line(&lent.ram, &lent.store, &mut lent.line, [$off; 3]));
                }),
                Work::PageWrite => repeat(count, |i| {
                    let address = 0x6400 + i as u16 % 64;
                    black_box(machine.page_write($song, &mut lent.store, address, i as u8));
                }),
                Work::PageRead => repeat(count, |i| {
                    black_box(machine.page_read($song, &lent.store, 0x6400 + i as u16 % 64, 0));
                }),
                Work::Undo => {
                    let full = machine.clone();
                    repeat(count, |i| {
                        if i % PLACES == 0 {
                            machine = full.clone();
                        }
                        black_box(machine.undo($song, &mut lent.store));
                    });
                }
                Work::Place => repeat(count, |i| {
                    black_box(machines[i].place(&mut lent.ram, &list));
                }),
                Work::Remove => repeat(count, |i| {
                    black_box(machines[i].remove(20));
                }),
                Work::Export => repeat(count, |_| {
                    black_box(machine.export(&mut lent.export));
                }),
                Work::Frame => repeat(312 * count, |_| {
                    black_box(machine.line(&lent.ram, &lent.store, &mut lent.line, [$off; 3]));
                }),
                Work::Moving => repeat(count, |frame| {
                    for (address, byte) in (0..case.sprites).flat_map(|n| moved(n, frame)) {
                        black_box(machine.page_write($song, &mut lent.store, address, byte));
                    }
                    for _ in 0..312 {
                        black_box(machine.line(&lent.ram, &lent.store, &mut lent.line, [$off; 3]));
                    }
                }),
                Work::Forecast => repeat(count, |_| {
                    black_box($forecast(&lent.ram, 0, 0));
                }),
                Work::Print => repeat(count, |_| {
                    black_box($print(&lent.words, &mut lent.text_room));
                }),
                Work::Read => repeat(count, |_| {
                    black_box($read(&lent.text, &mut lent.words_room));
                }),
                Work::Mend => repeat(count, |i| {
                    let used = lent.words.len();
                    black_box($mend(&mut lent.lists[i], used, &mut lent.report_room));
                }),
                Work::TakeWrite => repeat(count, |_| {
                    black_box($write(b"a comment", &lent.records, &mut lent.take_room));
                }),
                Work::TakeOpen => repeat(count, |_| {
                    black_box($open(&lent.take));
                }),
                Work::Replay => repeat(count, |_| {
                    let table = <$table>::default();
                    black_box($replay(&lent.ram, &mut lent.store, table, &lent.played));
                }),
                Work::ByHand => repeat(count, |_| {
                    machine = $machine::new();
                    for byte in UNLOCK {
                        machine.write_bc(byte);
                    }
                    black_box(machine.write_7f(0xB8));
                    for _ in 0..STRETCHES {
                        black_box(machine.page_write($song, &mut lent.store, 0x6C0F, 7));
                        for _ in 0..STRETCH {
                            let (ram, store) = (&lent.ram, &lent.store);
                            black_box(machine.line(ram, store, &mut lent.line, [$off; 3]));
                        }
                    }
                    black_box(machine.write_7f(0x80));
                }),
            }
            black_box((
                &machine,
                &machines,
                &lent.line,
                &lent.export,
                &lent.text_room,
                &lent.words_room,
                &lent.lists,
                &lent.report_room,
                &lent.take_room,
            ));
            start.elapsed()
        }
    };
}

calls_of!(
    run_core,
    Chip,
    plus::forecast,
    listing::print,
    listing::read,
    mend::mend,
    take::write,
    take::open,
    take::replay,
    plus::Access::Off,
    Editor::Song,
    Table
);
calls_of!(
    run_model,
    Model,
    chip::forecast,
    chip::print,
    chip::read,
    chip::mend,
    chip::take_write,
    chip::take_open,
    chip::replay,
    chip::Access::Off,
    chip::Editor::Song,
    chip::Table
);

fn repeat(count: usize, call: impl FnMut(usize)) {
    (0..count).for_each(call);
}

/// Nanoseconds a call: the least of nine runs.
fn nanoseconds(run: fn(&Case, usize) -> Duration, case: &Case) -> f64 {
    (0..9)
        .map(|_| run(case, case.count).as_nanos() as f64 / case.count as f64)
        .fold(f64::MAX, f64::min)
}

fn table() {
    println!("| case | core, ns | model, ns | ratio |\n|---|---|---|---|");
    for case in &CASES {
        let (name, core) = (case.name, nanoseconds(run_core, case));
        let model = nanoseconds(run_model, case);
        println!("| {name} | {core:.0} | {model:.0} | {:.2} |", core / model);
    }
}

/// The program of `examples/c`.
const FROM_C: &str = concat!(env!("CARGO_MANIFEST_DIR"), "/../../target/examples/c/frame");

/// A sum over the last line of so many frames on the core, as the program in C has
/// it.
fn sum(case: &Case, frames: usize) -> u64 {
    let (mut chip, mut lent) = (set_up::<Chip>(case), lent());
    for _ in 0..312 * frames {
        let off = [plus::Access::Off; 3];
        black_box(chip.line(&lent.ram, &lent.store, &mut lent.line, off));
    }
    let address = u64::from(chip.sound.channels[0].address);
    let add = |sum: u64, &entry: &u8| sum.wrapping_mul(31).wrapping_add(entry.into());
    lent.line.iter().fold(address, add) & 0xFFFF_FFFF
}

/// The time that a frame takes from C, which has drawn what is drawn from Rust.
fn run_c(case: &Case, count: usize) -> Duration {
    let arguments = [case.sprites.to_string(), count.to_string()];
    let ran = Command::new(FROM_C).args(arguments).output();
    let ran = ran.expect("`make -C examples/c frame` has built it");
    let text = String::from_utf8_lossy(&ran.stdout);
    let mut numbers = text.split_whitespace().map(|word| word.parse::<u64>());
    let (Some(Ok(took)), Some(Ok(drawn))) = (numbers.next(), numbers.next()) else {
        panic!("{FROM_C}: {}", String::from_utf8_lossy(&ran.stderr));
    };
    assert_eq!(drawn, sum(case, count), "C and Rust draw the same");
    Duration::from_nanos(took)
}

fn table_of_c() {
    println!("\n| case | from Rust, ns | from C, ns | ratio |\n|---|---|---|---|");
    for case in CASES.iter().filter(|case| matches!(case.work, Work::Frame)) {
        let (name, rust) = (case.name, nanoseconds(run_core, case));
        let c = nanoseconds(run_c, case);
        println!("| {name} | {rust:.0} | {c:.0} | {:.2} |", c / rust);
    }
}

/// One case's run, as the arguments name it.
fn one_case(arguments: &[String]) -> Option<()> {
    let [case, which, count] = arguments else {
        return None;
    };
    let case = CASES.get(case.parse::<usize>().ok()?)?;
    let count = count.parse().ok()?;
    match which.as_str() {
        "core" => run_core(case, count),
        "model" => run_model(case, count),
        _ => return None,
    };
    Some(())
}

fn main() -> ExitCode {
    let arguments: Vec<String> = env::args().skip(1).collect();
    if arguments.is_empty() {
        table();
        table_of_c();
    } else if arguments == ["c"] {
        table_of_c();
    } else if arguments == ["names"] {
        for case in &CASES {
            println!("{}\t{}", case.name, case.count);
        }
    } else if one_case(&arguments).is_none() {
        eprintln!("bench [c | names | CASE core|model COUNT]");
        return ExitCode::from(2);
    }
    ExitCode::SUCCESS
}
