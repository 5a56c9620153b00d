//! Document 01, "The register page": what is at each address, the pixels, and
//! the refusals.

use model::random::{any_state, Random};
use model::under_test::UnderTest;
use model::{held, Machine};
use plus::Editor::Song;
use plus::{Answer, RAM, STORE};

/// What a write answers where the page is mapped.
fn written(address: u16) -> u8 {
    match address {
        0x4000..=0x4FFF => 0,
        0x6000..=0x607F => 0,
        0x6400..=0x643F => 0,
        0x6800..=0x6805 => 0,
        0x6808..=0x680F => 9,
        0x6C00..=0x6C0A if address % 4 < 3 => 0,
        0x6C0F => 0,
        _ => 3,
    }
}

fn readable(address: u16) -> bool {
    match address {
        0x4000..=0x4FFF => true,
        0x6000..=0x607F => address % 8 <= 3,
        0x6400..=0x643F => true,
        0x6808..=0x680F => true,
        0x6C00..=0x6C0F => true,
        _ => false,
    }
}

/// A chip with the page mapped in, else in any state, and a store of any bytes.
fn mapped<M: Machine>() -> (M, [u8; STORE]) {
    let mut random = Random(3);
    let mut chip = M::new();
    chip.put(any_state(&mut random));
    chip.change(|state| state.gate.mapped = true);
    let mut store = [0; STORE];
    random.fill(&mut store);
    (chip, store)
}

held!(every_address_can_be_written_or_not, fails_with OneKindOfNothing);
fn every_address_can_be_written_or_not<M: Machine>() {
    let (mut chip, lent) = mapped::<M>();
    let (before, mut store) = (chip.state(), lent);
    let mut served = 0;
    for address in 0x4000..=0x7FFF {
        let answer = chip.page_write(Song, &mut store, address, 0xA5);
        assert_eq!(answer, written(address), "{address:04X}");
        if answer == 0 {
            served += 1;
            chip.put(before);
            store = lent;
        } else {
            assert_eq!(chip.state(), before, "{address:04X}");
            assert_eq!(store, lent, "{address:04X}");
        }
    }
    assert_eq!(served, 4096 + 16 * 8 + 64 + 6 + 9 + 1);
}

held!(every_address_can_be_read_or_gives_the_bus_byte);
fn every_address_can_be_read_or_gives_the_bus_byte<M: Machine>() {
    let (mut chip, store) = mapped::<M>();
    let before = chip.state();
    for address in 0x4000..=0x7FFF {
        let read = [0x00, 0x5A, 0xFF].map(|bus| chip.page_read(Song, &store, address, bus));
        if readable(address) {
            assert_eq!(read, [(Answer::Done, read[0].1); 3], "{address:04X}");
        } else {
            assert_eq!(
                read,
                [0x00, 0x5A, 0xFF].map(|bus| (Answer::Done, bus)),
                "{address:04X}"
            );
        }
    }
    assert_eq!(chip.state(), before);
}

held!(outside_the_page_is_refused);
fn outside_the_page_is_refused<M: Machine>() {
    let mut chip = M::open();
    let mut store = [0x77; STORE];
    for address in [0x0000, 0x3FFF, 0x8000, 0xC000, 0xFFFF] {
        assert_eq!(
            chip.page_read(Song, &store, address, 0x5A),
            (Answer::NotMapped, 0)
        );
        assert_eq!(chip.page_write(Song, &mut store, address, 1), 2);
    }
    assert_eq!(store, [0x77; STORE]);
    assert_eq!(
        chip.page_read(Song, &store, 0x4000, 0x5A),
        (Answer::Done, 0x07)
    );
    assert_eq!(
        chip.page_read(Song, &store, 0x7FFF, 0x5A),
        (Answer::Done, 0x5A)
    );
    assert_eq!(chip.page_write(Song, &mut store, 0x7FFF, 1), 3);
}

// Where nothing is, and outside the page, too.
held!(a_page_that_is_not_mapped_is_refused);
fn a_page_that_is_not_mapped_is_refused<M: Machine>() {
    let mut unmapped = M::open();
    assert_eq!(unmapped.write_7f(0xA0), 0);
    for mut chip in [M::new(), unmapped] {
        let before = chip.state();
        let mut store = [0x77; STORE];
        for address in [
            0x3FFF, 0x4000, 0x5000, 0x6000, 0x6808, 0x6C0F, 0x7FFF, 0x8000,
        ] {
            assert_eq!(
                chip.page_read(Song, &store, address, 0x5A),
                (Answer::NotMapped, 0)
            );
            assert_eq!(chip.page_write(Song, &mut store, address, 1), 2);
        }
        assert_eq!(chip.state(), before);
        assert_eq!(store, [0x77; STORE]);
    }
}

// Before the mapping, and before what is at the address.
held!(a_length_is_refused_first, fails_with LengthLast);
fn a_length_is_refused_first<M: Machine>() {
    for mapped in [true, false] {
        let mut chip = M::open();
        chip.change(|state| state.gate.mapped = mapped);
        let before = chip.state();
        for length in [0, 1, STORE - 1, STORE + 1, RAM] {
            let mut store = vec![0x33; length];
            for address in [0x3FFF, 0x4000, 0x5000, 0x6800, 0x7FFF, 0x8000] {
                assert_eq!(
                    chip.page_read(Song, &store, address, 0x5A),
                    (Answer::WrongLength, 0)
                );
                assert_eq!(chip.page_write(Song, &mut store, address, 0xFF), 1);
            }
            assert_eq!(store, vec![0x33; length]);
        }
        assert_eq!(chip.state(), before);
    }
}

held!(pixels_are_stored_and_read_by_4_bits, fails_with WholePixel);
fn pixels_are_stored_and_read_by_4_bits<M: Machine>() {
    let mut chip = M::open();
    let before = chip.state();
    let mut store = [0x77; STORE];
    for place in 0..STORE {
        let byte = (place * 7) as u8;
        assert_eq!(
            chip.page_write(Song, &mut store, 0x4000 + place as u16, byte),
            0
        );
        assert_eq!(store[place], byte & 0x0F);
        assert!(store[place + 1..].iter().all(|&other| other == 0x77));
    }
    for place in 0..STORE {
        let pixel = (place * 7) as u8 & 0x0F;
        assert_eq!(store[place], pixel);
        store[place] |= 0xC0;
        let read = chip.page_read(Song, &store, 0x4000 + place as u16, 0xFF);
        assert_eq!(read, (Answer::Done, pixel));
    }
    assert_eq!(chip.state(), before);
}
