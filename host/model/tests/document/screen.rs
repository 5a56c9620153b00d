//! Document 01, "Drawing the current line": the main pens and the soft scroll.

use model::chip::byte_address;
use model::under_test::{runs, UnderTest};
use model::{held, Machine};
use plus::{LINE, RAM, STORE};

/// On a frame's first line, the screen at 3000h, in a mode, with R1.
fn screen<M: Machine>(mode: u8, r1: u8) -> M {
    let mut chip = M::framed(38, 0);
    assert_eq!(chip.write_7f(0x80 | mode), 0);
    chip.register(1, r1);
    chip
}

/// RAM of zeros with bytes in it.
fn ram_of(bytes: &[(usize, u8)]) -> Vec<u8> {
    let mut ram = vec![0; RAM];
    for &(at, byte) in bytes {
        ram[at] = byte;
    }
    ram
}

fn drawn<M: Machine>(chip: &mut M, ram: &[u8]) -> Vec<u8> {
    chip.drawn(ram, &[0; STORE])
}

/// The positions of a line that show pen 1.
fn ones_of(line: &[u8]) -> Vec<usize> {
    (0..LINE).filter(|&x| line[x] == 1).collect()
}

/// Those of the current line.
fn ones<M: Machine>(chip: &mut M, ram: &[u8]) -> Vec<usize> {
    ones_of(&drawn(chip, ram))
}

// The three numbers of the document, then one bit at a time.
held!(pens_of_bytes);
fn pens_of_bytes<M: Machine>() {
    let cases: [(u8, u8, &[u8]); 8] = [
        (1, 0x80, &[1, 0, 0, 0]),
        (0, 0x20, &[4, 0]),
        (0, 0x02, &[8, 0]),
        (0, 0x1B, &[10, 12]),
        (0, 0xE4, &[5, 3]),
        (1, 0x1B, &[2, 0, 2, 3]),
        (1, 0xE4, &[1, 3, 1, 0]),
        (2, 0xE4, &[1, 1, 1, 0, 0, 1, 0, 0]),
    ];
    for (mode, byte, pens) in cases {
        let line = drawn(&mut screen::<M>(mode, 40), &ram_of(&[(0xC000, byte)]));
        let wide: Vec<u8> = pens
            .iter()
            .flat_map(|&pen| vec![pen; 8 / pens.len()])
            .collect();
        assert_eq!(line[..8], wide, "mode {mode}, {byte:02X}");
        assert_eq!(line[8..], [0; LINE - 8]);
    }
}

/// The bits of a byte that make the pen at each place, lowest first.
const BITS: [&[&[u8]]; 3] = [
    &[&[7, 3, 5, 1], &[6, 2, 4, 0]],
    &[&[7, 3], &[6, 2], &[5, 1], &[4, 0]],
    &[&[7], &[6], &[5], &[4], &[3], &[2], &[1], &[0]],
];

// The rule bit by bit, as the first byte of a character and as the second.
held!(pens_of_all_bytes);
fn pens_of_all_bytes<M: Machine>() {
    for (mode, places) in BITS.iter().enumerate() {
        let mut chip = screen::<M>(mode as u8, 2);
        for byte in 0..=255u8 {
            let pen = |bits: &&[u8]| -> u8 {
                let each = bits.iter().enumerate();
                each.map(|(n, bit)| (byte >> bit & 1) << n).sum()
            };
            let wide = 8 / places.len();
            let pens = places.iter().flat_map(|bits| vec![pen(bits); wide]);
            let pens: Vec<u8> = pens.collect();
            for at in [0, 1, 3] {
                let line = drawn(&mut chip, &ram_of(&[(0xC000 + at, byte)]));
                let mut expected = vec![0; 32];
                expected[8 * at..][..8].copy_from_slice(&pens);
                expected.resize(LINE, 16);
                assert_eq!(line, expected, "mode {mode}, {byte:02X} at {at}");
            }
        }
    }
}

// A character of two bytes at each of R1 places.
held!(r1_characters_are_shown);
fn r1_characters_are_shown<M: Machine>() {
    let ram = ram_of(&[(0xC04F, 0x01)]);
    for (r1, expected) in [
        (0, vec![(640, 16)]),
        (1, vec![(16, 0), (624, 16)]),
        (39, vec![(624, 0), (16, 16)]),
        (40, vec![(639, 0), (1, 1)]),
        (41, vec![(639, 0), (1, 1)]),
        (255, vec![(639, 0), (1, 1)]),
    ] {
        assert_eq!(
            runs(&drawn(&mut screen::<M>(2, r1), &ram)),
            expected,
            "R1 {r1}"
        );
    }
}

/// Each place that a test asks for, with pen 1 at a position of its own.
const PLACES: [(usize, u8); 7] = [
    (0xC000, 0x80),
    (0xC800, 0x40),
    (0xC7FE, 0x20),
    (0x0000, 0x10),
    (0x4000, 0x08),
    (0x47FE, 0x04),
    (0xFFFE, 0x02),
];

// Two characters from a screen address, on the line with some RC. 3000h, 33FFh and
// 3400h are numbers of the document.
held!(where_a_characters_bytes_are);
fn where_a_characters_bytes_are<M: Machine>() {
    let ram = ram_of(&PLACES);
    let cases: [(u16, usize, &[usize]); 10] = [
        (0x3000, 0, &[0]),
        (0x3000, 1, &[1]),
        (0x33FF, 0, &[2, 16]),
        (0x33FF, 7, &[6]),
        (0x3400, 0, &[0]),
        (0x3400, 1, &[1]),
        (0x3FFF, 0, &[2, 19]),
        (0x0FFF, 0, &[20]),
        (0x1FFF, 0, &[5]),
        (0x0000, 0, &[3]),
    ];
    for (address, rc, expected) in cases {
        let mut chip = screen::<M>(2, 2);
        chip.change(|state| state.crtc.counters.address = address);
        chip.lines(rc, &ram);
        assert_eq!(ones(&mut chip, &ram), expected, "{address:04X}, RC {rc}");
    }
}

// The second byte is one above the first, also at the end of its block.
held!(a_block_wraps_in_its_place);
fn a_block_wraps_in_its_place<M: Machine>() {
    let four = [
        (0xC7FE, 0x80),
        (0xC7FF, 0x40),
        (0xC000, 0x20),
        (0xC001, 0x10),
    ];
    let mut chip = screen::<M>(2, 40);
    chip.change(|state| state.crtc.counters.address = 0x33FF);
    assert_eq!(ones(&mut chip, &ram_of(&four)), [0, 9, 18, 27]);
    // From the top of the last block on to the first.
    let three = [(0xC7FE, 0x80), (0xC7FF, 0x40), (0x0000, 0x08)];
    chip.change(|state| state.crtc.counters.address = 0x3FFF);
    assert_eq!(ones(&mut chip, &ram_of(&three)), [0, 9, 20]);
}

/// The model's own function, by the document's numbers.
#[test]
fn byte_addresses_of_the_model() {
    assert_eq!(byte_address(0x3000, 0), 0xC000);
    assert_eq!(byte_address(0x3000, 1), 0xC800);
    assert_eq!(byte_address(0x33FF, 0), 0xC7FE);
    assert_eq!(byte_address(0x3400, 0), 0xC000);
}

// Pens 1 at 0, 7 and the last eight positions, moved right; pen 0 before them.
held!(scrolled_across, fails_with ScrollOf3Bits);
fn scrolled_across<M: Machine>() {
    let ram = ram_of(&[(0xC000, 0x81), (0xC04F, 0xFF)]);
    let mut chip = screen::<M>(2, 40);
    for scroll in 0..16usize {
        let mut expected = vec![0; LINE + 16];
        expected[scroll] = 1;
        expected[scroll + 7] = 1;
        expected[scroll + 632..scroll + 640].fill(1);
        chip.poke(0x6804, scroll as u8);
        assert_eq!(drawn(&mut chip, &ram), expected[..LINE]);
        // Bit 7 makes the first sixteen border.
        expected[..16].fill(16);
        chip.poke(0x6804, scroll as u8 | 0x80);
        assert_eq!(drawn(&mut chip, &ram), expected[..LINE]);
    }
}

// Two and three characters: what is scrolled past the last one is not shown.
held!(scrolled_across_few_characters, fails_with ScrollOf3Bits);
fn scrolled_across_few_characters<M: Machine>() {
    let ram = ram_of(&[(0xC000, 0x80), (0xC002, 0x80)]);
    for scroll in 0..16usize {
        let mut chip = screen::<M>(2, 2);
        chip.poke(0x6804, scroll as u8);
        let mut expected = vec![0; 32];
        expected[scroll] = 1;
        expected[scroll + 16] = 1;
        expected.resize(LINE, 16);
        assert_eq!(drawn(&mut chip, &ram), expected);

        let mut chip = screen::<M>(2, 3);
        chip.poke(0x6804, scroll as u8 | 0x80);
        let mut expected = vec![0; 48];
        expected[..16].fill(16);
        expected[scroll + 16] = 1;
        expected.resize(LINE, 16);
        assert_eq!(drawn(&mut chip, &ram), expected);
    }
    let full = ram_of(&[
        (0xC000, 0xFF),
        (0xC001, 0xFF),
        (0xC002, 0xFF),
        (0xC003, 0xFF),
    ]);
    let mut chip = screen::<M>(2, 2);
    chip.poke(0x6804, 0x05);
    assert_eq!(runs(&drawn(&mut chip, &full)), [(5, 0), (27, 1), (608, 16)]);
    chip.poke(0x6804, 0x85);
    assert_eq!(
        runs(&drawn(&mut chip, &full)),
        [(16, 16), (16, 1), (608, 16)]
    );
}

/// Line k of the first row has pen 1 at position k, line k of the second at 8 + k.
fn stairs() -> Vec<u8> {
    let mut ram = vec![0; RAM];
    for k in 0..8 {
        ram[0xC000 + 2048 * k] = 0x80 >> k;
        ram[0xC051 + 2048 * k] = 0x80 >> k;
    }
    ram
}

// Scrolled by lines, the pen still moves by one a line, over the row's end too.
held!(scrolled_by_lines, fails_with AdvanceByRcAlone, SteppedBeforeDrawn);
fn scrolled_by_lines<M: Machine>() {
    for scroll in 0..8 {
        let mut chip = screen::<M>(2, 40);
        chip.poke(0x6804, scroll << 4);
        for position in usize::from(scroll)..16 {
            let line = chip.drawn_and_stepped(&stairs(), &[0; STORE]);
            assert_eq!(ones_of(&line), [position]);
        }
    }
}

// RC and the scroll lines are added mod 8: RC to 31, where R9 31 leads.
held!(a_line_of_a_character);
fn a_line_of_a_character<M: Machine>() {
    let mut chip = screen::<M>(2, 1);
    chip.register(9, 31);
    for rc in 0..32u8 {
        for scroll in 0..8u8 {
            chip.poke(0x6804, scroll << 4);
            let line = usize::from((rc + scroll) % 8);
            assert_eq!(ones(&mut chip, &stairs()), [line], "RC {rc}, {scroll}");
        }
        chip.poke(0x6804, 0);
        chip.lines(1, &stairs());
    }
}
