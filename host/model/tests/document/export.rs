//! Document 02, L5: the export.

use crate::kept;
use model::under_test::UnderTest;
use model::{held, Machine};
use plus::Editor::Song;
use plus::{EXPORT, RAM, STORE};

/// An export in which each register holds what it is given for its address.
fn of_each(contents: impl Fn(u16) -> u8) -> Vec<u8> {
    let three = |address: u16| [address as u8, (address >> 8) as u8, contents(address)];
    kept::exported().into_iter().flat_map(three).collect()
}

// 5 bytes a sprite, 64 of the palette, 6 and 3 a channel.
#[test]
fn as_many_registers_as_the_document_says() {
    assert_eq!(kept::exported().len(), 16 * 5 + 64 + 6 + 3 * 3);
    assert_eq!(of_each(|_| 0).len(), EXPORT);
}

// A chip that is locked, with the page not mapped: no refusal.
held!(after_reset_all_is_0_but_ivr, fails_with HighAddressFirst, MagnificationAtMirror);
fn after_reset_all_is_0_but_ivr<M: Machine>() {
    let expected = of_each(|address| u8::from(address == 0x6805));
    assert_eq!(M::new().exported()[..], expected);
}

// Each register written with a byte of its own, and with all bits set, which makes
// every coordinate negative.
held!(the_bits_that_each_register_keeps, fails_with XHighAsRead, NoPrescales);
fn the_bits_that_each_register_keeps<M: Machine>() {
    let own = |address: u16| (address as u8 ^ (address >> 8) as u8).wrapping_mul(37);
    for byte in [own, |_| 0xFF, |address| !(address as u8)] {
        let mut chip = M::open();
        for address in kept::exported() {
            chip.poke(address, byte(address));
        }
        let (state, record) = (chip.state(), chip.record(Song));
        let expected = of_each(|address| byte(address) & kept::bits(address).unwrap());
        assert_eq!(chip.exported()[..], expected);
        assert_eq!((chip.state(), chip.record(Song)), (state, record));
    }
}

// X -1 is 3FFh and X -256 is 300h, Y -1 is 1FFh: two bits and one, where a read
// shows FFh.
held!(a_high_byte_as_it_is_kept, fails_with XHighAsRead);
fn a_high_byte_as_it_is_kept<M: Machine>() {
    let mut chip = M::open();
    for (x, y, high) in [(-1, -1, [3, 1]), (-256, -256, [3, 1]), (767, 255, [2, 0])] {
        chip.sprite(9, x, y, 0);
        assert_eq!([0x6049, 0x604B].map(|at| chip.holds(at)), high);
        let shown = if x < 0 { [0xFF, 0xFF] } else { high };
        assert_eq!([0x6049, 0x604B].map(|at| chip.peek(at, 0x5A)), shown);
    }
}

// Written at a mirror, it is at +4 all the same, with 4 bits.
held!(magnification_once, fails_with MagnificationAtMirror);
fn magnification_once<M: Machine>() {
    for place in 4..8 {
        let mut chip = M::open();
        chip.poke(0x6078 + place, 0xF6);
        let expected = of_each(|address| match address {
            0x607C => 0x06,
            0x6805 => 0x01,
            _ => 0,
        });
        assert_eq!(chip.exported()[..], expected);
    }
}

// Three words from 80FEh on: the address is 8104h then, bit 0 dropped at first.
held!(a_start_address_where_lines_have_moved_it, fails_with StartOneWordBack);
fn a_start_address_where_lines_have_moved_it<M: Machine>() {
    let nops = [0x00, 0x40].repeat(RAM / 2);
    for n in 0..3u16 {
        let base = 0x6C00 + 4 * n;
        let mut chip = M::open();
        chip.play(n.into(), 0x80FF, 7);
        for (lines, expected) in [(0, [0xFE, 0x80, 7]), (3, [0x04, 0x81, 7])] {
            chip.lines(lines, &nops);
            let registers = [base, base + 1, base + 2].map(|at| chip.holds(at));
            assert_eq!(registers, expected);
        }
    }
}

held!(a_buffer_of_another_length_is_refused, fails_with ExportedThoughRefused);
fn a_buffer_of_another_length_is_refused<M: Machine>() {
    let mut chip = M::open();
    let before = chip.state();
    for length in [0, 1, 3, EXPORT - 1, EXPORT + 1, STORE] {
        let mut out = vec![0xEE; length];
        assert_eq!(chip.export(&mut out), 1);
        assert_eq!(out, vec![0xEE; length]);
        assert_eq!(chip.state(), before);
    }
}
