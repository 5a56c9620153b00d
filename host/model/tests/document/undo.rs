//! Document 02, L5: the record of page writes, and undo.

use crate::kept;
use model::random::{any_state, Random};
use model::under_test::{ram_with, UnderTest};
use model::{held, Machine};
use plus::Editor::Song;
use plus::{Access, EXPORT, LINE, RAM, STORE, UNLOCK};
use std::collections::VecDeque;

/// A chip in any state that is drawn, with the page mapped in, and a store of any
/// bytes.
fn any_chip<M: Machine>(random: &mut Random) -> (M, [u8; STORE]) {
    let mut chip = M::new();
    let mut state = any_state(random);
    (state.gate.mapped, state.gate.mode) = (true, 1);
    state.crtc.counters.adjust = false;
    state.crtc.registers.r6 = 127;
    chip.put(state);
    let mut store = [0; STORE];
    random.fill(&mut store);
    (chip, store)
}

// With nothing between write and undo, chip and store are what they were.
held!(every_write_is_taken_back, fails_with WrittenByteBack, PixelBackBy4Bits, OtherByteToo);
fn every_write_is_taken_back<M: Machine>() {
    let mut random = Random(41);
    let (mut chip, mut store) = any_chip::<M>(&mut random);
    for address in kept::addresses() {
        let mut state = any_state(&mut random);
        state.gate.mapped = true;
        chip.put(state);
        let lent = store;
        for byte in [0x00, 0xFF, random.byte()] {
            assert_eq!(chip.page_write(Song, &mut store, address, byte), 0);
            assert_eq!(chip.undo(Song, &mut store), 0);
            assert_eq!(chip.state(), state, "{address:04X}");
            assert_eq!(store, lent, "{address:04X}");
            assert_eq!(chip.record(Song), [], "{address:04X}");
        }
    }
}

// First what reset leaves, or the pixel's whole byte, and then the bits kept of
// the first write, at the address that was written.
held!(a_write_is_kept_with_what_was_there, fails_with SameNotKept);
fn a_write_is_kept_with_what_was_there<M: Machine>() {
    for address in kept::addresses() {
        let mut chip = M::open();
        let mut store = [0xC5; STORE];
        let first = match address {
            0x4000..=0x4FFF => 0xC5,
            0x6805 => 0x01,
            _ => 0x00,
        };
        let second = kept::bits(address).unwrap();
        for byte in [0xFF, 0xFF] {
            assert_eq!(chip.page_write(Song, &mut store, address, byte), 0);
        }
        assert_eq!(chip.record(Song), [(address, second), (address, first)]);
        assert_eq!(chip.undo(Song, &mut store), 0);
        assert_eq!(chip.record(Song), [(address, first)]);
    }
}

/// What a chip shows: some addresses read, the current line, the export.
fn shown<M: Machine>(chip: &mut M, store: &[u8]) -> (Vec<u8>, Vec<u8>, [u8; EXPORT]) {
    let addresses = kept::addresses().into_iter().skip(4000);
    let read = addresses.map(|address| chip.page_read(Song, store, address, 0x5A).1);
    (
        read.collect(),
        chip.drawn(&[0x1B; RAM], store),
        chip.exported(),
    )
}

// All three at once, for every register and some pixels.
held!(what_is_shown_drawn_and_exported_goes_back, fails_with WrittenByteBack);
fn what_is_shown_drawn_and_exported_goes_back<M: Machine>() {
    let mut random = Random(43);
    let (mut chip, mut store) = any_chip::<M>(&mut random);
    let before = shown(&mut chip, &store);
    for address in kept::addresses().into_iter().skip(4000) {
        assert_eq!(chip.page_write(Song, &mut store, address, random.byte()), 0);
        assert_eq!(chip.undo(Song, &mut store), 0);
        assert!(shown(&mut chip, &store) == before, "{address:04X}");
    }
}

// A pixel of which 4 bits are drawn and read: the whole byte is put back.
held!(a_pixels_whole_byte, fails_with PixelBackBy4Bits);
fn a_pixels_whole_byte<M: Machine>() {
    let mut chip = M::open();
    let mut store = [0xA7; STORE];
    for (byte, pixel) in [(0x03, 0x03), (0xFC, 0x0C)] {
        assert_eq!(chip.page_write(Song, &mut store, 0x4ABC, byte), 0);
        assert_eq!(store[0x0ABC], pixel);
    }
    for pixel in [0x03, 0xA7] {
        assert_eq!(chip.undo(Song, &mut store), 0);
        assert_eq!(store[0x0ABC], pixel);
    }
    assert_eq!(store, [0xA7; STORE]);
}

// From 1234h to 80FEh, and three lines on: each byte goes back by itself, to what
// the write found, and lines that move the other one stay.
held!(one_byte_of_a_start_address, fails_with OtherByteToo, WrittenByteBack);
fn one_byte_of_a_start_address<M: Machine>() {
    let nops = [0x00, 0x40].repeat(RAM / 2);
    for n in 0..3 {
        let base = 0x6C00 + 4 * n as u16;
        let mut chip = M::open();
        chip.play(n, 0x1234, 0);
        chip.poke(base, 0xFE);
        chip.poke(base + 1, 0x80);
        chip.change(|state| {
            let channel = &mut state.sound.channels[n];
            (channel.interrupt, channel.counter, channel.mark) = (true, 5, 0x4444);
        });
        for (lines, moved, address) in [(3, 0x8104, 0x1204), (1, 0x1206, 0x1234)] {
            chip.lines(lines, &nops);
            let mut expected = chip.state();
            assert_eq!(expected.sound.channels[n].address, moved);
            chip.take_back();
            expected.sound.channels[n].address = address;
            assert_eq!(chip.state(), expected);
        }
    }
}

// Split 55 with R4 38 is captured on line 311 and held over line 0: by then as
// 1256h, whatever the registers are set back to.
held!(a_captured_split_address_stays, fails_with CapturedSplitBack);
fn a_captured_split_address_stays<M: Machine>() {
    let ram = vec![0; RAM];
    let mut chip = M::framed(38, 0);
    for (address, byte) in [(0x6801, 55), (0x6803, 0x34), (0x6802, 0x12), (0x6803, 0x56)] {
        chip.poke(address, byte);
    }
    chip.lines(312, &ram);
    let mut expected = chip.state();
    let counters = expected.crtc.counters;
    assert_eq!((counters.held, counters.split), (true, 0x1256));
    for (high, low) in [(0x12, 0x34), (0x00, 0x34)] {
        chip.take_back();
        (expected.video.split_high, expected.video.split_low) = (high, low);
        assert_eq!(chip.state(), expected);
    }
    chip.lines(1, &ram);
    assert_eq!(chip.state().crtc.counters.address, 0x1256);
}

// The enables stay, and the write before them is the newest.
held!(dcsr_is_not_kept, fails_with DcsrKept);
fn dcsr_is_not_kept<M: Machine>() {
    let mut chip = M::open();
    chip.poke(0x6410, 0x77);
    for byte in [0x07, 0x70, 0x05] {
        chip.poke(0x6C0F, byte);
    }
    assert_eq!(chip.record(Song), [(0x6410, 0x00)]);
    chip.take_back();
    assert_eq!(chip.peek(0x6410, 0), 0x00);
    assert_eq!(chip.peek(0x6C0F, 0), 0x05);
    assert_eq!(chip.undo(Song, &mut [0; STORE]), 10);
}

held!(a_refused_write_is_not_kept, fails_with RefusedKept);
fn a_refused_write_is_not_kept<M: Machine>() {
    let mut chip = M::open();
    let mut store = [0; STORE];
    chip.poke(0x6410, 0x77);
    for (address, answer) in [
        (0x3FFF, 2),
        (0x5000, 3),
        (0x6806, 3),
        (0x6C03, 3),
        (0x680F, 9),
    ] {
        assert_eq!(chip.page_write(Song, &mut store, address, 0xFF), answer);
        assert_eq!(chip.record(Song), [(0x6410, 0x00)], "{address:04X}");
    }
    assert_eq!(chip.page_write(Song, &mut store[1..], 0x6410, 0xFF), 1);
    assert_eq!(chip.write_7f(0xA0), 0);
    assert_eq!(chip.page_write(Song, &mut store, 0x6410, 0xFF), 2);
    assert_eq!(chip.record(Song), [(0x6410, 0x00)]);
}

// Two writes of one byte take two undos.
held!(a_write_that_changes_nothing_is_kept, fails_with SameNotKept);
fn a_write_that_changes_nothing_is_kept<M: Machine>() {
    let mut chip = M::open();
    for _ in 0..2 {
        chip.poke(0x6800, 0x64);
    }
    for pri in [0x64, 0x00] {
        chip.take_back();
        assert_eq!(chip.state().video.pri, pri);
    }
}

// Write number k puts k mod 251 there, so that no two that are 256 apart agree.
held!(the_257th_drops_the_oldest, fails_with RecordOf255);
fn the_257th_drops_the_oldest<M: Machine>() {
    for writes in [1, 255, 256, 257, 300, 512, 513, 1000] {
        let mut chip = M::open();
        for k in 1..=writes {
            chip.poke(0x6400, (k % 251) as u8);
        }
        let dropped = usize::saturating_sub(writes, 256);
        for k in (dropped..writes).rev() {
            chip.take_back();
            assert_eq!(chip.peek(0x6400, 0), (k % 251) as u8, "{writes}");
        }
        assert_eq!(chip.undo(Song, &mut [0; STORE]), 10, "{writes}");
        assert_eq!(chip.peek(0x6400, 0), (dropped % 251) as u8);
    }
}

// Each undo gives what the chip and the store were before the write it takes back,
// over a record that fills up and overflows; and then all the rest.
held!(writes_and_undos_in_any_order, fails_with RecordOf255, SameNotKept, PixelBackBy4Bits);
fn writes_and_undos_in_any_order<M: Machine>() {
    let mut random = Random(47);
    let (mut chip, mut store) = any_chip::<M>(&mut random);
    let addresses = kept::addresses();
    let mut before = VecDeque::new();
    for round in 0..3000 {
        if round < 2000 && !random.chance(3) {
            if before.len() == 256 {
                before.pop_front();
            }
            before.push_back((chip.state(), store));
            let (address, byte) = (random.pick(&addresses), random.byte());
            assert_eq!(chip.page_write(Song, &mut store, address, byte), 0);
        } else if let Some(expected) = before.pop_back() {
            assert_eq!(chip.undo(Song, &mut store), 0);
            assert!((chip.state(), store) == expected, "round {round}");
        } else {
            assert_eq!(chip.undo(Song, &mut store), 10);
        }
        assert_eq!(chip.record(Song).len(), before.len());
    }
    assert!(before.is_empty());
}

// Of a new chip, and of one whose writes are all taken back.
// A slider's gesture of 300 events: each undone before the next it is one entry, with
// what was there before the gesture; else it fills the record with itself.
held!(a_gesture_is_one_entry, fails_with WrittenByteBack);
fn a_gesture_is_one_entry<M: Machine>() {
    for (address, before) in [(0x6400, 0x70), (0x4123, 0x05), (0x6C02, 0x09)] {
        let (mut chip, mut store) = (M::open(), [0; STORE]);
        assert_eq!(chip.page_write(Song, &mut store, address, before), 0);
        let (state, pixels) = (chip.state(), store);
        for event in 1..=300 {
            if event > 1 {
                assert_eq!(chip.undo(Song, &mut store), 0);
            }
            assert_eq!(chip.page_write(Song, &mut store, address, event as u8), 0);
        }
        assert_eq!(chip.record(Song), [(address, before), (address, 0)]);
        assert_eq!(chip.undo(Song, &mut store), 0);
        assert_eq!((chip.state(), store), (state, pixels));
        for event in 1..=300 {
            assert_eq!(chip.page_write(Song, &mut store, address, event as u8), 0);
        }
        assert_eq!(chip.record(Song).len(), 256);
    }
}

held!(nothing_to_undo, fails_with EmptyServed);
fn nothing_to_undo<M: Machine>() {
    let mut store = [0x77; STORE];
    let mut emptied = M::open();
    emptied.poke(0x6C02, 9);
    emptied.take_back();
    for mut chip in [M::new(), emptied] {
        let before = chip.state();
        assert_eq!(chip.undo(Song, &mut store), 10);
        assert_eq!(chip.state(), before);
        assert_eq!(store, [0x77; STORE]);
    }
}

// Before an empty record, and before one that isn't.
held!(a_length_is_refused_first, fails_with EmptyFirst);
fn a_length_is_refused_first<M: Machine>() {
    for writes in 0..2 {
        let mut chip = M::open();
        for _ in 0..writes {
            chip.poke(0x6400, 0x33);
        }
        let before = (chip.state(), chip.record(Song));
        for length in [0, 1, EXPORT, STORE - 1, STORE + 1, RAM] {
            let mut store = vec![0x33; length];
            assert_eq!(chip.undo(Song, &mut store), 1);
            assert_eq!(store, vec![0x33; length]);
            assert_eq!((chip.state(), chip.record(Song)), before);
        }
    }
}

// The page mapped out, and then the chip locked.
held!(mapped_or_not_and_locked_or_not, fails_with UndoWhereMapped, UndoWhereUnlocked);
fn mapped_or_not_and_locked_or_not<M: Machine>() {
    let mut chip = M::open();
    for byte in [0x11, 0x22] {
        chip.poke(0x6400, byte);
    }
    assert_eq!(chip.write_7f(0xA0), 0);
    chip.take_back();
    assert_eq!(chip.state().palette[0], 0x11);
    chip.feed(&UNLOCK[..15]);
    chip.feed(&[0xCC]);
    assert!(!chip.state().lock.unlocked);
    chip.take_back();
    assert_eq!(chip.state().palette[0], 0x00);
}

held!(a_reset_empties_the_record, fails_with RecordThroughReset);
fn a_reset_empties_the_record<M: Machine>() {
    let mut chip = M::open();
    chip.poke(0x6400, 0x33);
    chip.reset();
    assert_eq!(chip.record(Song), []);
    assert_eq!(chip.undo(Song, &mut [0; STORE]), 10);
}

// A prescale is changed and undone, and all is as with a chip on which nobody
// touched it. PAUSE 2 takes 2 x 4 lines at prescale 3, LOAD and STOP one each.
held!(the_lost_pressing, fails_with WrittenByteBack, NoPrescales);
fn the_lost_pressing<M: Machine>() {
    let ram = ram_with(0x8000, &[0x1002, 0x0738, 0x4020]);
    let [mut untouched, mut chip] = [(), ()].map(|()| {
        let mut chip = M::framed(38, 0);
        assert_eq!(chip.write_7f(0x81), 0);
        chip.play(1, 0x8000, 3);
        chip
    });
    chip.poke(0x6C06, 9);
    chip.take_back();
    assert_eq!(chip.holds(0x6C06), 3);
    let mut lines = 0;
    while chip.state().sound.channels[1].enabled {
        assert_eq!(chip.peek(0x6C06, 0), 0x02);
        assert_eq!(chip.exported(), untouched.exported());
        let shown = [&mut untouched, &mut chip].map(|chip| {
            let mut line = [0xEE; LINE];
            let told = chip.line(&ram, &[0; STORE], &mut line, [Access::Off; 3]);
            (told, line)
        });
        assert_eq!(shown[0], shown[1]);
        lines += 1;
    }
    assert_eq!(lines, 10);
    assert_eq!(M::forecast(&ram, 0x8000, 3).lines, 10);
}
