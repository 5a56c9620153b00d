//! Document 01, "The register page": what each register keeps and reads.

use model::under_test::UnderTest;
use model::{held, Machine};
use plus::Editor::Song;
use plus::STORE;

/// A sprite's X and Y.
fn place<M: Machine>(chip: &M, n: u16) -> (i16, i16) {
    let sprite = chip.state().sprites[n as usize];
    (sprite.x, sprite.y)
}

/// Each number of so many bits written to a coordinate of each sprite, with other
/// bits of the high byte set, which are dropped. From `negative` on it is below 0.
fn every_coordinate<M: Machine>(offset: u16, bits: u32, negative: u16, others: u8) {
    let mut chip = M::open();
    for n in 0..16 {
        let at = 0x6000 + 8 * n + offset;
        for number in 0..1u16 << bits {
            let [low, high] = number.to_le_bytes();
            chip.poke(at + 1, high | others);
            chip.poke(at, low);
            let below_0 = number >= negative;
            let value = number as i16 - if below_0 { 1 << bits } else { 0 };
            let expected = if offset == 0 { (value, 0) } else { (0, value) };
            assert_eq!(place(&chip, n), expected);
            assert_eq!(chip.peek(at, 0x5A), low);
            let high = if below_0 { 0xFF } else { high };
            assert_eq!(chip.peek(at + 1, 0x5A), high, "{value}");
        }
    }
}

held!(every_x_of_a_sprite, fails_with HighByteOfBits);
fn every_x_of_a_sprite<M: Machine>() {
    every_coordinate::<M>(0, 10, 768, 0xA4);
}

held!(every_y_of_a_sprite);
fn every_y_of_a_sprite<M: Machine>() {
    every_coordinate::<M>(2, 9, 256, 0x52);
}

// A low byte alone leaves the high bits, and the other way round.
held!(half_a_coordinate);
fn half_a_coordinate<M: Machine>() {
    let mut chip = M::open();
    let steps = [
        (0x6001, 0x03, (-256, 0)),
        (0x6000, 0xFF, (-1, 0)),
        (0x6001, 0x02, (767, 0)),
        (0x6000, 0x00, (512, 0)),
        (0x6003, 0x01, (512, -256)),
        (0x6002, 0x80, (512, -128)),
        (0x6003, 0x00, (512, 128)),
    ];
    for (address, byte, expected) in steps {
        chip.poke(address, byte);
        assert_eq!(place(&chip, 0), expected);
    }
}

// At +4 and at its mirrors up to +7, which change nothing else.
held!(magnification_is_written_only, fails_with NoMirrors);
fn magnification_is_written_only<M: Machine>() {
    let mut chip = M::open();
    let mut expected = chip.state();
    for n in 0..16u16 {
        for place in 4..8 {
            let at = 0x6000 + 8 * n + place;
            for value in 0..=255u8 {
                chip.poke(at, value);
                expected.sprites[n as usize].magnification = value & 0x0F;
                assert_eq!(chip.state(), expected, "{at:04X}");
                assert_eq!(chip.peek(at, 0x5A), 0x5A);
            }
        }
    }
}

held!(no_coordinate_sets_magnification);
fn no_coordinate_sets_magnification<M: Machine>() {
    let mut chip = M::open();
    for n in 0..16u16 {
        chip.poke(0x6004 + 8 * n, 0x0A);
        for place in 0..4 {
            chip.poke(0x6000 + 8 * n + place, 0x05);
        }
        assert_eq!(chip.state().sprites[n as usize].magnification, 0x0A);
    }
}

held!(palette_bytes);
fn palette_bytes<M: Machine>() {
    let mut chip = M::open();
    for place in 0..64u16 {
        for value in 0..=255u8 {
            chip.poke(0x6400 + place, value);
            let kept = if place % 2 == 1 { value & 0x0F } else { value };
            assert_eq!(chip.state().palette[place as usize], kept);
            assert_eq!(chip.peek(0x6400 + place, 0x5A), kept);
        }
    }
    // Each at its own place: the last value that all were given.
    for (place, byte) in chip.state().palette.into_iter().enumerate() {
        assert_eq!(byte, if place % 2 == 1 { 0x0F } else { 0xFF });
    }
}

// 9 green + 3 red + blue.
held!(grey_of_an_entry);
fn grey_of_an_entry<M: Machine>() {
    for (low, high, grey) in [
        (0x00, 0x00, 0),
        (0x01, 0x00, 1),
        (0x10, 0x00, 3),
        (0x00, 0x01, 9),
        (0x0F, 0x00, 15),
        (0xF0, 0x00, 45),
        (0x00, 0x0F, 135),
        (0x53, 0xF7, 9 * 7 + 3 * 5 + 3),
        (0xFF, 0xFF, 195),
    ] {
        assert_eq!(M::grey(low, high), grey, "{low:02X} {high:02X}");
    }
}

held!(video_registers_and_ivr_are_written_only);
fn video_registers_and_ivr_are_written_only<M: Machine>() {
    let mut chip = M::open();
    let mut expected = chip.state();
    for value in [0xFF, 0x00, 0xA5] {
        for address in 0x6800..=0x6805 {
            let byte = value ^ address as u8;
            chip.poke(address, byte);
            match address {
                0x6800 => expected.video.pri = byte,
                0x6801 => expected.video.split_line = byte,
                0x6802 => expected.video.split_high = byte & 0x3F,
                0x6803 => expected.video.split_low = byte,
                0x6804 => expected.video.sscr = byte,
                _ => expected.interrupts.ivr = byte,
            }
            assert_eq!(chip.state(), expected);
            assert_eq!(chip.peek(address, 0x5A), 0x5A);
        }
    }
}

held!(converters_read_0);
fn converters_read_0<M: Machine>() {
    let mut chip = M::open();
    for address in 0x6808..=0x680F {
        assert_eq!(chip.peek(address, 0x5A), 0);
        assert_eq!(chip.page_write(Song, &mut [0; STORE], address, 0xFF), 9);
        assert_eq!(chip.peek(address, 0x5A), 0);
    }
}

held!(start_address_and_prescale);
fn start_address_and_prescale<M: Machine>() {
    let mut chip = M::open();
    let mut expected = chip.state();
    for n in 0..3 {
        let channel = &mut expected.sound.channels[n];
        let base = 0x6C00 + 4 * n as u16;
        chip.poke(base, 0x35);
        channel.address = 0x0034;
        chip.poke(base + 1, 0x80);
        channel.address = 0x8034;
        chip.poke(base + 2, 200);
        channel.prescale = 200;
        assert_eq!(chip.state(), expected);
        chip.poke(base, 0xFF);
        expected.sound.channels[n].address = 0x80FE;
        assert_eq!(chip.state(), expected);
    }
}

held!(dcsr_written_and_read);
fn dcsr_written_and_read<M: Machine>() {
    for value in 0..=255u8 {
        for waiting in 0..8u8 {
            let mut chip = M::open();
            chip.change(|state| {
                for (n, channel) in state.sound.channels.iter_mut().enumerate() {
                    channel.interrupt = waiting >> n & 1 != 0;
                }
            });
            let mut expected = chip.state();
            chip.poke(0x6C0F, value);
            let mut byte = value & 7;
            for (n, bit) in [(0, 6), (1, 5), (2, 4)] {
                let channel = &mut expected.sound.channels[n];
                channel.enabled = value >> n & 1 != 0;
                channel.interrupt &= value >> bit & 1 == 0;
                byte |= u8::from(channel.interrupt) << bit;
            }
            assert_eq!(chip.state(), expected);
            for address in 0x6C00..=0x6C0F {
                assert_eq!(chip.peek(address, 0x5A), byte);
            }
            chip.change(|state| state.interrupts.last_raster = true);
            assert_eq!(chip.peek(0x6C03, 0x5A), byte | 0x80);
        }
    }
}
