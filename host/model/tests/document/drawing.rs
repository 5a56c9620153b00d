//! Document 01, "Drawing the current line": the border, the refusals, and every
//! position against a slow reading.

use model::random::{drawable_state, Random};
use model::under_test::UnderTest;
use model::{held, Machine};
use plus::{Access, Sprite, State, LINE, RAM, STORE};

held!(lengths_are_refused_and_then_mode_3,
    fails_with ModeThreeDrawn, DrawnThoughRefused, ModeBeforeLengths, SteppedThoughRefused);
fn lengths_are_refused_and_then_mode_3<M: Machine>() {
    let mut chip = M::framed(38, 0);
    for mode in 0..4 {
        assert_eq!(chip.write_7f(0x80 | mode), 0);
        let before = chip.state();
        let cases = [
            (RAM, STORE, LINE, if mode == 3 { 4 } else { 0 }),
            (RAM - 1, STORE, LINE, 1),
            (RAM + 1, STORE, LINE, 1),
            (0, STORE, LINE, 1),
            (RAM, STORE - 1, LINE, 1),
            (RAM, STORE + 1, LINE, 1),
            (RAM, 0, LINE, 1),
            (RAM, STORE, LINE - 1, 1),
            (RAM, STORE, LINE + 1, 1),
            (RAM, STORE, 0, 1),
        ];
        for (ram, store, length, answer) in cases {
            let mut line = vec![0xEE; length];
            let off = [Access::Off; 3];
            let (answered, _) = chip.line(&vec![0; ram], &vec![0; store], &mut line, off);
            assert_eq!(answered, answer, "{ram}, {store}, {length} in mode {mode}");
            let left = if answer == 0 { 0 } else { 0xEE };
            assert_eq!(line, vec![left; length]);
            assert_eq!(chip.state() == before, answer != 0);
            chip.put(before);
        }
    }
}

// On a line that would be all border.
held!(mode_3_is_refused_in_the_border, fails_with ModeThreeDrawn);
fn mode_3_is_refused_in_the_border<M: Machine>() {
    let mut chip = M::framed(38, 0);
    assert_eq!(chip.write_7f(0x83), 0);
    chip.register(6, 0);
    assert_eq!(chip.plain_step(&[0; RAM]).0, 4);
    chip.register(6, 25);
    chip.change(|state| state.crtc.counters.adjust = true);
    assert_eq!(chip.plain_step(&[0; RAM]).0, 4);
}

// A sprite of 64 positions over pen 1, both cut by R1 and by SSCR bit 7.
held!(the_border_of_a_line);
fn the_border_of_a_line<M: Machine>() {
    let mut chip = M::framed(38, 0);
    assert_eq!(chip.write_7f(0x82), 0);
    chip.sprite(3, 0, 0, 0b1111);
    for r1 in [0u8, 1, 2, 20, 39, 40, 41, 255] {
        for sscr in [0x00, 0x80] {
            chip.register(1, r1);
            chip.poke(0x6804, sscr);
            let line = chip.drawn(&[0xFF; RAM], &[1; STORE]);
            for (x, entry) in line.into_iter().enumerate() {
                let outside = x >= usize::from(r1) * 16 || (sscr != 0 && x < 16);
                let inside = if x < 64 { 17 } else { 1 };
                assert_eq!(entry, if outside { 16 } else { inside });
            }
        }
    }
}

// R6, the lines stepped since the frame's first, R4, and whether all is border.
// Pen 1 is everywhere.
held!(all_border_from_r6_on);
fn all_border_from_r6_on<M: Machine>() {
    let ram = vec![0xFF; RAM];
    let cases = [
        (25, 0, 38, false),
        (25, 24 * 8 + 7, 38, false),
        (25, 25 * 8, 38, true),
        (25, 26 * 8, 38, true),
        (0, 0, 38, true),
        (127, 126 * 8, 127, false),
        (127, 127 * 8, 127, true),
        // Adjust after row 127, where VC is 0 again.
        (25, 128 * 8, 127, true),
    ];
    for (r6, lines, r4, border) in cases {
        let mut chip = M::framed(r4, 8);
        assert_eq!(chip.write_7f(0x82), 0);
        chip.register(6, r6);
        chip.lines(lines, &ram);
        let expected = if border { 16 } else { 1 };
        let line = chip.drawn(&ram, &[0; STORE]);
        assert_eq!(line, [expected; LINE], "R6 {r6}, line {lines}");
    }
}

/// The pixel that a sprite shows at a position of the line, 0 for none.
fn sprite_pixel(state: &State, store: &[u8], n: usize, x: i32) -> u8 {
    let Sprite {
        x: left,
        y: top,
        magnification,
    } = state.sprites[n];
    let (counters, registers) = (state.crtc.counters, state.crtc.registers);
    let times = |code: u8| [0, 1, 2, 4][usize::from(code & 3)];
    let (wide, high) = (times(magnification >> 2), times(magnification));
    let line = i32::from(counters.vc) * (i32::from(registers.r9) + 1) + i32::from(counters.rc);
    let (down, across) = (line - i32::from(top), x - i32::from(left));
    if wide == 0 || high == 0 || down < 0 || across < 0 {
        return 0;
    }
    let (row, column) = (down / high, across / wide);
    if row >= 16 || column >= 16 {
        return 0;
    }
    store[n * 256 + row as usize * 16 + column as usize] & 15
}

/// The main pen at a position of the line.
fn main_pen(state: &State, ram: &[u8], x: i32) -> u8 {
    let sscr = i32::from(state.video.sscr);
    let counters = state.crtc.counters;
    let p = x - (sscr & 15);
    if p < 0 {
        return 0;
    }
    let a = (i32::from(counters.address) + p / 16) % 16_384;
    let row = (i32::from(counters.rc) + (sscr >> 4 & 7)) % 8;
    let byte = ram[(a / 4096 * 16_384 + row * 2048 + a % 1024 * 2 + p / 8 % 2) as usize];
    let within = (p % 8) as u8;
    let bits: &[u8] = match state.gate.mode {
        2 => &[7 - within],
        1 => [&[7, 3], &[6, 2], &[5, 1], &[4, 0]][usize::from(within / 2)],
        _ => [&[7, 3, 5, 1], &[6, 2, 4, 0]][usize::from(within / 4)],
    };
    let each = bits.iter().enumerate();
    each.map(|(n, bit)| (byte >> bit & 1) << n).sum()
}

/// One position, as the document says it and no faster.
fn entry(state: &State, ram: &[u8], store: &[u8], x: i32) -> u8 {
    let (counters, registers) = (state.crtc.counters, state.crtc.registers);
    if counters.adjust || counters.vc >= registers.r6 {
        return 16;
    }
    if x / 16 >= i32::from(registers.r1) || (state.video.sscr & 0x80 != 0 && x < 16) {
        return 16;
    }
    let opaque = (0..16)
        .map(|n| sprite_pixel(state, store, n, x))
        .find(|&pixel| pixel != 0);
    match opaque {
        Some(pixel) => 16 + pixel,
        None => main_pen(state, ram, x),
    }
}

/// Any state that can be drawn, in half of the cases with all sprites near its
/// line.
fn any_picture(random: &mut Random) -> State {
    let mut state = drawable_state(random);
    if random.chance(2) {
        let counters = state.crtc.counters;
        let height = i16::from(state.crtc.registers.r9) + 1;
        let line = i16::from(counters.vc) * height + i16::from(counters.rc);
        for sprite in &mut state.sprites {
            sprite.y = (line - random.below(70) as i16).clamp(-256, 255);
        }
    }
    state
}

held!(every_position_of_random_lines, fails_with HighestSpriteFirst, ScrollOf3Bits);
fn every_position_of_random_lines<M: Machine>() {
    let mut random = Random(23);
    let mut ram = vec![0; RAM];
    let mut store = [0; STORE];
    let mut chip = M::new();
    let mut with_sprites = 0;
    for round in 0..4000 {
        if round % 50 == 0 {
            random.fill(&mut ram);
            random.fill(&mut store);
            for pixel in &mut store {
                *pixel *= u8::from(random.chance(2));
            }
        }
        let state = any_picture(&mut random);
        chip.put(state);
        let line = chip.drawn(&ram, &store);
        with_sprites += u32::from(line.iter().any(|&entry| entry > 16));
        for (x, &shown) in line.iter().enumerate() {
            let expected = entry(&state, &ram, &store, x as i32);
            assert_eq!(shown, expected, "round {round}, x {x}");
        }
    }
    assert!(with_sprites > 500, "{with_sprites}");
}
