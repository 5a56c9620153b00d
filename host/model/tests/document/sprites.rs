//! Document 01, "Drawing the current line": the sprites.

use model::under_test::{runs, UnderTest};
use model::{held, Machine};
use plus::{LINE, RAM, STORE};

/// The screen's byte everywhere, for a main pen all over.
fn ram_of(byte: u8) -> Vec<u8> {
    vec![byte; RAM]
}

/// Row 0 of sprite 0 in colour 5, which is entry 21.
fn solid_row() -> [u8; STORE] {
    let mut store = [0; STORE];
    store[..16].fill(5);
    store
}

// At magnification 4, X -63 shows one column and -64 none: numbers of the document.
held!(the_left_and_right_edges);
fn the_left_and_right_edges<M: Machine>() {
    let cases = [
        (0b1101, -61, 0, 3),
        (0b1101, -62, 0, 2),
        (0b1101, -63, 0, 1),
        (0b1101, -64, 0, 0),
        (0b1101, -65, 0, 0),
        (0b1001, -31, 0, 1),
        (0b1001, -32, 0, 0),
        (0b0101, -15, 0, 1),
        (0b0101, -16, 0, 0),
        (0b0101, -256, 0, 0),
        (0b1101, 0, 0, 64),
        (0b1101, 575, 575, 64),
        (0b1101, 576, 576, 64),
        (0b1101, 600, 600, 40),
        (0b1101, 639, 639, 1),
        (0b1101, 640, 0, 0),
        (0b1101, 767, 0, 0),
    ];
    let mut chip = M::framed(38, 0);
    for (magnification, x, from, count) in cases {
        chip.sprite(0, x, 0, magnification);
        let mut expected = vec![0; LINE];
        expected[from..from + count].fill(21);
        let line = chip.drawn(&ram_of(0), &solid_row());
        assert_eq!(line, expected, "X {x}, magnification {magnification:04b}");
    }
}

held!(either_magnification_off_shows_nothing);
fn either_magnification_off_shows_nothing<M: Machine>() {
    let mut chip = M::framed(38, 0);
    for magnification in 0..16 {
        chip.sprite(5, 100, 0, magnification);
        let line = chip.drawn(&ram_of(0), &[1; STORE]);
        let on = magnification >> 2 != 0 && magnification & 3 != 0;
        assert_eq!(line.contains(&17), on, "{magnification:04b}");
    }
}

// A column is 1, 2 or 4 positions wide. Only 4 bits of a pixel count, and entry
// 16 + 0 is no colour but lets what is behind show.
held!(columns);
fn columns<M: Machine>() {
    let mut store = [0; STORE];
    for column in 0..16 {
        store[5 * 256 + column] = column as u8 | 0x70;
    }
    for (code, width) in [(1, 1), (2, 2), (3, 4)] {
        let mut chip = M::framed(38, 0);
        chip.sprite(5, 100, 0, code << 2 | 1);
        let mut expected = vec![(100 + width, 0)];
        expected.extend((17..32).map(|entry| (width, entry)));
        expected.push((LINE - 100 - 16 * width, 0));
        assert_eq!(runs(&chip.drawn(&ram_of(0), &store)), expected);
    }
}

// Row and entry are the same number here; row 0 is transparent.
held!(rows_at_each_magnification, fails_with SteppedBeforeDrawn);
fn rows_at_each_magnification<M: Machine>() {
    let mut store = [0; STORE];
    for (place, pixel) in store.iter_mut().enumerate() {
        *pixel = (place / 16) as u8 % 16;
    }
    for (code, height) in [(1u8, 1i32), (2, 2), (3, 4)] {
        for y in [-256i16, -64, -63, -16, -15, -1, 0, 5, 100, 199, 255] {
            let mut chip = M::framed(38, 0);
            chip.sprite(0, 8, y, 0b0100 | code);
            for here in 0..200 {
                let row = (here - i32::from(y)).div_euclid(height);
                let shown = if (1..16).contains(&row) {
                    16 + row as u8
                } else {
                    0
                };
                let line = chip.drawn_and_stepped(&ram_of(0), &store);
                let expected = [[0].as_slice(), &[shown; 16], &[0]].concat();
                assert_eq!(line[7..25], expected, "Y {y}, line {here}");
            }
        }
    }
}

// The line is VC x (R9 + 1) + RC, also where R9 was made less than RC.
held!(rows_at_other_heights);
fn rows_at_other_heights<M: Machine>() {
    let mut store = [0; STORE];
    store[..16].fill(1);
    store[16..32].fill(2);
    let cases = [
        (9, 10, 9, 10, 17),
        (9, 10, 9, 11, 18),
        (0, 10, 0, 10, 17),
        (31, 255, 31, 255, 17),
        (31, 255, 31, 256, 18),
        // VC 24, RC 31: line 799, and 24 x 8 + 31 is 223.
        (31, 0, 7, 799, 0),
        (31, 223, 7, 799, 17),
        (31, 222, 7, 799, 18),
    ];
    for (r9_before, y, r9, lines, entry) in cases {
        let mut chip = M::framed(38, 0);
        chip.register(9, r9_before);
        chip.sprite(0, 0, y, 0b0101);
        chip.lines(lines, &ram_of(0));
        chip.register(9, r9);
        let line = chip.drawn(&ram_of(0), &store);
        assert_eq!(line[0], entry, "Y {y}, R9 {r9}, {lines} lines");
    }
}

// Sprites 0, 1, 2 and 15 are opaque in columns 0 and 2, 0 to 3, 0 to 4, 0 to 5.
held!(the_lowest_opaque_sprite_is_shown, fails_with HighestSpriteFirst);
fn the_lowest_opaque_sprite_is_shown<M: Machine>() {
    let mut store = [0; STORE];
    store[..3].copy_from_slice(&[1, 0, 1]);
    store[256..][..4].fill(2);
    store[512..][..5].fill(3);
    store[3840..][..6].fill(4);
    let mut chip = M::framed(38, 0);
    for n in [0, 1, 2, 15] {
        chip.sprite(n, 100, 0, 0b0101);
    }
    let shown = |chip: &mut M| chip.drawn(&ram_of(0), &store)[99..107].to_vec();
    assert_eq!(shown(&mut chip), [0, 17, 18, 17, 18, 19, 20, 0]);
    chip.sprite(0, 100, 0, 0);
    assert_eq!(shown(&mut chip), [0, 18, 18, 18, 18, 19, 20, 0]);
    chip.sprite(0, 100, 0, 0b0101);
    chip.sprite(1, 101, 0, 0b0101);
    assert_eq!(shown(&mut chip), [0, 17, 18, 17, 18, 18, 20, 0]);
    chip.sprite(1, 400, 0, 0b0101);
    assert_eq!(shown(&mut chip), [0, 17, 19, 17, 19, 19, 20, 0]);
    let line = chip.drawn(&ram_of(0), &store);
    assert_eq!(line[399..405], [0, 18, 18, 18, 18, 0]);
}

// Sprite n in colour n, each two positions to the right of the one before it.
held!(sixteen_in_a_row, fails_with HighestSpriteFirst);
fn sixteen_in_a_row<M: Machine>() {
    let mut store = [0; STORE];
    for n in 0..16 {
        store[n * 256..][..256].fill(n as u8);
    }
    let mut chip = M::framed(38, 0);
    for n in 0..16 {
        chip.sprite(n, 2 * n as i16, 0, 0b0101);
    }
    // Sprite 0 is transparent. 1 shows whole, of each other the last two.
    let mut expected = vec![(2, 0), (16, 17)];
    expected.extend((18..32).map(|entry| (2, entry)));
    expected.push((LINE - 46, 0));
    assert_eq!(runs(&chip.drawn(&ram_of(0), &store)), expected);

    // All in one place: the lowest with a pixel there, by its low 4 bits.
    for n in 0..16 {
        chip.sprite(n, 40, 0, 0b0101);
    }
    store[256] = 0;
    store[2 * 256] = 0xF0;
    let line = chip.drawn(&ram_of(0), &store);
    assert_eq!(line[39..43], [0, 19, 17, 17]);
}

// Pen 1 all over, in mode 2: it shows through what is transparent.
held!(a_sprite_covers_the_screen);
fn a_sprite_covers_the_screen<M: Machine>() {
    let mut store = [0; STORE];
    store[3840..][..3].copy_from_slice(&[4, 0, 4]);
    let mut chip = M::framed(38, 0);
    chip.register(1, 1);
    assert_eq!(chip.write_7f(0x82), 0);
    chip.sprite(15, 2, 0, 0b0101);
    let expected = [(2, 1), (1, 20), (1, 1), (1, 20), (11, 1), (LINE - 16, 16)];
    assert_eq!(runs(&chip.drawn(&ram_of(0xFF), &store)), expected);
}

held!(the_border_hides_a_sprite);
fn the_border_hides_a_sprite<M: Machine>() {
    let mut chip = M::framed(38, 0);
    type Runs<'a> = &'a [(usize, u8)];
    // R1, SSCR, X, and the line.
    let cases: [(u8, u8, i16, Runs); 9] = [
        (2, 0x00, 24, &[(24, 0), (8, 21), (608, 16)]),
        (2, 0x00, 32, &[(32, 0), (608, 16)]),
        (40, 0x00, 8, &[(8, 0), (16, 21), (616, 0)]),
        (40, 0x80, 8, &[(16, 16), (8, 21), (616, 0)]),
        (40, 0x80, 0, &[(16, 16), (624, 0)]),
        (1, 0x80, 8, &[(640, 16)]),
        (40, 0x0F, 8, &[(8, 0), (16, 21), (616, 0)]),
        (40, 0x0F, 0, &[(16, 21), (624, 0)]),
        (40, 0x8F, 8, &[(16, 16), (8, 21), (616, 0)]),
    ];
    for (r1, sscr, x, expected) in cases {
        chip.register(1, r1);
        chip.poke(0x6804, sscr);
        chip.sprite(0, x, 0, 0b0101);
        let line = chip.drawn(&ram_of(0), &solid_row());
        assert_eq!(runs(&line), expected, "R1 {r1}, SSCR {sscr:02X}, X {x}");
    }
}
