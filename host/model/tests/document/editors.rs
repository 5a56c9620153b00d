//! Document 02, L9: the song editor beside the picture editor.

use crate::kept;
use model::under_test::{ram_with, UnderTest};
use model::{held, Machine};
use plus::Editor::{self, Picture, Song};
use plus::{Answer, Table, RAM, STORE, UNLOCK};

/// Every second palette entry, sprites 8 to 15 and channel 1 are the picture
/// editor's.
const TABLE: Table = Table {
    palette: 0xAAAA_AAAA,
    sprites: 0xFF00,
    channels: 0b010,
};

/// A chip under that table, with the page mapped in.
fn started<M: Machine>() -> M {
    let mut chip = M::open();
    assert_eq!(chip.start(TABLE), Answer::Done);
    chip
}

/// Who may write an address under it, if one of them may.
fn owner(address: u16) -> Option<Editor> {
    let picture = match address {
        0x4000..=0x47FF => false,
        0x4800..=0x4FFF => true,
        0x6000..=0x603F => false,
        0x6040..=0x607F => true,
        0x6400..=0x643F => (address - 0x6400) / 2 % 2 == 1,
        0x6800..=0x6804 => true,
        0x6C00..=0x6C02 | 0x6C08..=0x6C0A => false,
        0x6C04..=0x6C06 => true,
        _ => return None,
    };
    Some(Editor::from(u8::from(picture)))
}

/// Every address that a write can be kept of, its mirrors with it.
fn registers() -> Vec<u16> {
    kept::addresses()
}

// Pixels, sprites with their mirrors, palette entries with both bytes, start
// addresses and prescales by the table; PRI, split and scroll are the picture
// editor's; IVR is neither's.
held!(each_register_has_its_owner,
    fails_with NotYoursServed, NotYoursAsNothing, IvrOfBoth, ScreenOfSong, PixelOfNextSprite,
        HighByteOfNextEntry);
fn each_register_has_its_owner<M: Machine>() {
    let mut chip = started::<M>();
    let mut store = [0; STORE];
    for address in registers() {
        for editor in Editor::BOTH {
            let before = (chip.state(), store);
            let expected = match owner(address) == Some(editor) {
                true => 0,
                false => 15,
            };
            let answer = chip.page_write(editor, &mut store, address, 0x0F);
            assert_eq!(answer, expected, "{editor:?} {address:04X}");
            if expected != 0 {
                assert_eq!(chip.state(), before.0, "{address:04X}");
                assert!(store == before.1, "{address:04X}");
            }
        }
    }
    // IVR alone is neither's: all others have been written by one of them.
    assert_eq!(chip.state().interrupts.ivr, 0x01);
    assert_eq!(store, [0x0F; STORE]);
}

/// The kind of an address's register: pixels are sprites', by the table.
fn kind(address: u16) -> u16 {
    match address {
        0x4000..=0x4FFF => 0x6000,
        _ => address & 0xFC00,
    }
}

// Bit n names number n of its kind, for each n by itself.
held!(a_bit_a_number, fails_with PixelOfNextSprite, HighByteOfNextEntry, FirstTableStays);
fn a_bit_a_number<M: Machine>() {
    let mut chip = M::open();
    let mut store = [0; STORE];
    // Under a table these addresses are the picture editor's, and all others of their
    // kind the song editor's.
    let mut gives = |table: Table, addresses: &[u16]| {
        chip.start(table);
        let kind_of_all = kind(addresses[0]);
        let mut of_kind = registers();
        of_kind.retain(|&address| kind(address) == kind_of_all);
        for address in of_kind {
            let answers = match addresses.contains(&address) {
                true => [15, 0],
                false => [0, 15],
            };
            let gave = Editor::BOTH.map(|editor| chip.page_write(editor, &mut store, address, 1));
            assert_eq!(gave.map(Answer::number), answers, "{address:04X}");
        }
    };
    for n in 0..32 {
        let (palette, at) = (1 << n, 0x6400 + 2 * n as u16);
        let table = Table {
            palette,
            ..Table::default()
        };
        gives(table, &[at, at + 1]);
    }
    for n in 0..16 {
        let table = Table {
            sprites: 1 << n,
            ..Table::default()
        };
        let pixels = (0x4000 + 256 * n..).take(256);
        let addresses: Vec<u16> = pixels.chain((0x6000 + 8 * n..).take(8)).collect();
        gives(table, &addresses);
    }
    for n in 0..3 {
        let (channels, at) = (1 << n, 0x6C00 + 4 * n);
        let table = Table {
            channels,
            ..Table::default()
        };
        gives(table, &[at, at + 1, at + 2]);
    }
}

// Where nothing stands, or what stands there can only be read, nobody owns it.
held!(nobodys, fails_with ConverterOfNobody, NothingOfNobody);
fn nobodys<M: Machine>() {
    let mut chip = started::<M>();
    let mut store = [0; STORE];
    for (addresses, answer) in [
        (0x5000..=0x5FFF, 3),
        (0x6080..=0x63FF, 3),
        (0x6440..=0x67FF, 3),
        (0x6806..=0x6807, 3),
        (0x6808..=0x680F, 9),
        (0x6810..=0x6BFF, 3),
        (0x6C03..=0x6C03, 3),
        (0x6C07..=0x6C07, 3),
        (0x6C0B..=0x6C0E, 3),
        (0x6C10..=0x7FFF, 3),
    ] {
        for address in addresses {
            for editor in Editor::BOTH {
                let gave = chip.page_write(editor, &mut store, address, 0xFF);
                assert_eq!(gave, answer, "{editor:?} {address:04X}");
            }
        }
    }
}

// 15 is tested after 1 and 2.
held!(lengths_and_the_page_come_first, fails_with NotYoursUnmapped);
fn lengths_and_the_page_come_first<M: Machine>() {
    let mut chip = started::<M>();
    for address in [0x4000, 0x6000, 0x6400, 0x6800, 0x6805, 0x6C00] {
        for editor in Editor::BOTH {
            for length in [0, STORE - 1, STORE + 1] {
                let answer = chip.page_write(editor, &mut vec![0; length], address, 1);
                assert_eq!(answer, 1);
            }
        }
    }
    for address in [0x3FFF, 0x8000, 0x0000] {
        assert_eq!(chip.page_write(Song, &mut [0; STORE], address, 1), 2);
    }
    assert_eq!(chip.write_7f(0xA0), 0);
    for address in [0x4000, 0x6000, 0x6400, 0x6800, 0x6805, 0x6C00, 0x6C0F] {
        for editor in Editor::BOTH {
            assert_eq!(chip.page_write(editor, &mut [0; STORE], address, 1), 2);
            assert_eq!(
                chip.page_read(editor, &[0; STORE], address, 1),
                (Answer::NotMapped, 0)
            );
        }
    }
}

// Without a table all is as before, for both: either writes every register, IVR
// too, and reads all of DCSR; so it is again after a reset.
held!(without_a_table, fails_with TableThroughReset);
fn without_a_table<M: Machine>() {
    let mut chip = started::<M>();
    for after in [false, true] {
        if after {
            chip.reset();
            chip.feed(&UNLOCK);
            assert_eq!(chip.write_7f(0xB8), 0);
        } else {
            chip = M::open();
        }
        for editor in Editor::BOTH {
            let mut store = [0; STORE];
            for address in registers() {
                assert_eq!(chip.page_write(editor, &mut store, address, 0x0F), 0);
                assert_eq!(chip.record(editor)[0].0, address);
            }
            assert_eq!(store, [0x0F; STORE]);
            chip.change(|state| {
                state.interrupts.last_raster = true;
                for channel in &mut state.sound.channels {
                    (channel.enabled, channel.interrupt) = (false, true);
                }
            });
            // The interrupts of channels 0 and 2 cleared, all enabled.
            chip.poke_by(editor, 0x6C0F, 0b0101_0111);
            for reader in Editor::BOTH {
                assert_eq!(chip.peek_by(reader, 0x6C0F, 0), 0b1010_0111);
            }
        }
        if !after {
            chip.start(TABLE);
        }
    }
}

// Bits 6, 5, 4 are the interrupts of channels 0, 1, 2 and bits 2 to 0 the enables of
// channels 2 to 0; bit 7, and those of the other's channels, read 0.
held!(a_dcsr_read_shows_the_readers_channels,
    fails_with OthersChannelsShown, Bit7Shown, ChannelsBy8Bits);
fn a_dcsr_read_shows_the_readers_channels<M: Machine>() {
    for channels in 0..=255 {
        let mut chip = M::open();
        chip.start(Table { channels, ..TABLE });
        assert_eq!(chip.state().editing.table.channels, channels & 7);
        for (enables, interrupts) in [(0b111, 0b111), (0b101, 0b010), (0b000, 0b000)] {
            chip.change(|state| {
                state.interrupts.last_raster = true;
                for (n, channel) in state.sound.channels.iter_mut().enumerate() {
                    channel.enabled = enables >> n & 1 != 0;
                    channel.interrupt = interrupts >> n & 1 != 0;
                }
            });
            let own = [!channels & 7, channels & 7];
            for (editor, own) in Editor::BOTH.into_iter().zip(own) {
                let bit = |n: u8| 1 << n | 1 << (6 - n);
                let mask: u8 = (0..3).filter(|n| own >> n & 1 != 0).map(bit).sum();
                let shown: u8 = (0..3u8)
                    .map(|n| (enables >> n & 1) << n | (interrupts >> n & 1) << (6 - n))
                    .sum();
                for address in 0x6C00..=0x6C0F {
                    assert_eq!(chip.peek_by(editor, address, 0xFF), shown & mask);
                }
            }
        }
    }
}

// By hand: channel 1 is the picture editor's.
held!(dcsr_by_hand, fails_with OthersChannelsShown, OthersInterruptCleared, OthersEnabled);
fn dcsr_by_hand<M: Machine>() {
    let mut chip = started::<M>();
    chip.poke_by(Song, 0x6C0F, 0b111);
    assert_eq!(
        [Song, Picture].map(|e| chip.peek_by(e, 0x6C0F, 0)),
        [0b101, 0]
    );
    chip.poke_by(Picture, 0x6C0F, 0b111);
    assert_eq!(
        [Song, Picture].map(|e| chip.peek_by(e, 0x6C0F, 0)),
        [0b101, 0b010]
    );
    // INT and STOP on each channel: all three interrupts wait, none is enabled.
    chip.lines(1, &ram_with(0, &[0x4030]));
    assert_eq!(
        [Song, Picture].map(|e| chip.peek_by(e, 0x6C07, 0)),
        [0x50, 0x20]
    );
    // Each clears its own and no other.
    chip.poke_by(Picture, 0x6C0F, 0x70);
    assert_eq!(
        [Song, Picture].map(|e| chip.peek_by(e, 0x6C07, 0)),
        [0x50, 0x00]
    );
    chip.poke_by(Song, 0x6C0F, 0x40);
    assert_eq!(
        [Song, Picture].map(|e| chip.peek_by(e, 0x6C07, 0)),
        [0x10, 0x00]
    );
}

// DCSR writes of an editor without a channel are served, and do nothing.
held!(a_dcsr_write_is_served_for_both, fails_with DcsrOfOwners, OthersEnabled);
fn a_dcsr_write_is_served_for_both<M: Machine>() {
    for (channels, without) in [(0, Picture), (7, Song)] {
        let mut chip = M::open();
        chip.start(Table { channels, ..TABLE });
        chip.poke_by(without.other(), 0x6C0F, 0b011);
        let before = chip.state();
        for byte in [0x00, 0xFF, 0x74] {
            chip.poke_by(without, 0x6C0F, byte);
            assert_eq!(chip.state(), before);
        }
        assert_eq!(chip.peek_by(without, 0x6C0F, 0xFF), 0);
        for editor in Editor::BOTH {
            assert_eq!(chip.record(editor), []);
        }
    }
}

// No read is refused for ownership: the other's sprite and palette are shown.
held!(reads_are_not_refused, fails_with OthersNotRead);
fn reads_are_not_refused<M: Machine>() {
    let mut chip = started::<M>();
    let mut store = [0; STORE];
    for (address, byte) in [
        (0x4800, 0x07),
        (0x6040, 0x55),
        (0x6402, 0x31),
        (0x6403, 0x0A),
    ] {
        assert_eq!(chip.page_write(Picture, &mut store, address, byte), 0);
        for editor in Editor::BOTH {
            let read = chip.page_read(editor, &store, address, 0xEE);
            assert_eq!(read, (Answer::Done, byte), "{address:04X}");
        }
    }
    // Magnification, IVR and the like are written only, for both.
    for editor in Editor::BOTH {
        for address in [0x6004, 0x6044, 0x6800, 0x6805, 0x5000, 0x7FFF] {
            assert_eq!(chip.peek_by(editor, address, 0xEE), 0xEE);
        }
        assert_eq!(chip.peek_by(editor, 0x6808, 0xEE), 0);
    }
}

// Each has a record of its own, also without a table and also where both write one
// register.
held!(each_undoes_its_own, fails_with UndoOfOther, OneRecord);
fn each_undoes_its_own<M: Machine>() {
    let mut chip = M::open();
    let mut store = [0; STORE];
    for (editor, byte) in [(Song, 1), (Picture, 2), (Song, 3), (Picture, 4)] {
        chip.poke_by(editor, 0x6400, byte);
    }
    assert_eq!(chip.record(Song), [(0x6400, 2), (0x6400, 0)]);
    assert_eq!(chip.record(Picture), [(0x6400, 3), (0x6400, 1)]);
    for (editor, left) in [(Song, 2), (Song, 0), (Picture, 3), (Picture, 1)] {
        assert_eq!(chip.undo(editor, &mut store), 0);
        assert_eq!(chip.state().palette[0], left);
    }
    for editor in Editor::BOTH {
        assert_eq!(chip.undo(editor, &mut store), 10);
        assert_eq!(chip.undo(editor, &mut store[1..]), 1);
    }
}

// 256 places each: neither's writes push out the other's.
held!(each_has_256_places, fails_with RecordOf255, OneRecord);
fn each_has_256_places<M: Machine>() {
    let mut chip = started::<M>();
    for n in 0..300 {
        chip.poke_by(Song, 0x6C02, n as u8);
        if n % 2 == 0 {
            chip.poke_by(Picture, 0x6C06, n as u8);
        }
    }
    assert_eq!(
        (chip.record(Song).len(), chip.record(Picture).len()),
        (256, 150)
    );
    // The oldest left is the write of 44, over 43; 298 mod 256 is 42.
    assert_eq!(chip.record(Song)[255], (0x6C02, 43));
    for _ in 0..256 {
        chip.take_back();
    }
    assert_eq!(chip.undo(Song, &mut [0; STORE]), 10);
    assert_eq!(chip.state().sound.channels[0].prescale, 43);
    assert_eq!(chip.state().sound.channels[1].prescale, 42);
}

// A write that is refused with 15 is not kept.
held!(what_is_not_yours_is_not_kept, fails_with RefusedKept);
fn what_is_not_yours_is_not_kept<M: Machine>() {
    let mut chip = started::<M>();
    for address in [0x4800, 0x6040, 0x6402, 0x6800, 0x6805, 0x6C04] {
        assert_eq!(chip.page_write(Song, &mut [0; STORE], address, 1), 15);
    }
    for address in [0x4000, 0x6000, 0x6400, 0x6805, 0x6C00] {
        assert_eq!(chip.page_write(Picture, &mut [0; STORE], address, 1), 15);
    }
    for editor in Editor::BOTH {
        assert_eq!(chip.record(editor), []);
    }
}

// A start empties both records, and leaves all else; each start does.
held!(a_start_empties_both_records,
    fails_with RecordsThroughStart, PictureRecordThroughStart, FirstTableStays);
fn a_start_empties_both_records<M: Machine>() {
    let mut chip = M::open();
    for table in [TABLE, TABLE, Table::default()] {
        for (editor, address) in [(Song, 0x6400), (Song, 0x4001), (Picture, 0x6402)] {
            let answer = chip.page_write(editor, &mut [0; STORE], address, 0x0C);
            assert!(answer == 0 || answer == 15);
        }
        let mut expected = chip.state();
        assert_eq!(chip.start(table), Answer::Done);
        expected.editing.table = model::random::held(table);
        assert_eq!(chip.state(), expected);
        for editor in Editor::BOTH {
            assert_eq!(chip.record(editor), []);
            assert_eq!(chip.undo(editor, &mut [0; STORE]), 10);
        }
    }
    // The last one gives the song editor everything that a table names.
    assert_eq!(chip.page_write(Picture, &mut [0; STORE], 0x6402, 1), 15);
    assert_eq!(chip.page_write(Song, &mut [0; STORE], 0x6402, 1), 0);
    assert_eq!(chip.page_write(Song, &mut [0; STORE], 0x6800, 1), 15);
}

// It is served whether or not the page is mapped and the chip unlocked.
held!(a_start_is_always_served);
fn a_start_is_always_served<M: Machine>() {
    let mut chip = M::new();
    assert_eq!(chip.start(TABLE), Answer::Done);
    assert_eq!(chip.state().editing.table, model::random::held(TABLE));
    let every = Table {
        palette: u32::MAX,
        sprites: u16::MAX,
        channels: u8::MAX,
    };
    assert_eq!(chip.start(every), Answer::Done);
    let table = chip.state().editing.table;
    assert_eq!((table.palette, table.sprites), (u32::MAX, u16::MAX));
    assert_eq!(table.channels, 7);
}

// Undo works under a table as it does without: the song editor's write from before
// the picture editor's goes back to what it found.
held!(undo_beside_the_other, fails_with UndoOfOther, WrittenByteBack);
fn undo_beside_the_other<M: Machine>() {
    let mut chip = started::<M>();
    let mut store = [0xA5; STORE];
    assert_eq!(chip.page_write(Song, &mut store, 0x4000, 0x07), 0);
    assert_eq!(chip.page_write(Picture, &mut store, 0x4800, 0x08), 0);
    chip.poke_by(Picture, 0x6802, 0x3F);
    assert_eq!(chip.undo(Song, &mut store), 0);
    assert_eq!((store[0x000], store[0x800]), (0xA5, 0x08));
    for _ in 0..2 {
        assert_eq!(chip.undo(Picture, &mut store), 0);
    }
    assert_eq!(store, [0xA5; STORE]);
    assert_eq!(chip.state().video.split_high, 0);
}

// Demand 3, with writes of both editors between the lines. A list on channel 0,
// the song editor's, plays its forecast whatever the picture editor writes to its
// own; and IVR bit 0 stays, so that the interrupt does.
held!(a_list_plays_beside_the_other, fails_with OthersEnabled);
fn a_list_plays_beside_the_other<M: Machine>() {
    // LOAD 7 38h, PAUSE 2, INT and STOP: 1 + 2 + 1 lines.
    let ram = ram_with(0x8000, &[0x0738, 0x1002, 0x4030]);
    let lines = M::forecast(&ram, 0x8000, 0).lines;
    assert_eq!(lines, 4);
    let mut chip = M::open();
    chip.start(Table {
        channels: 0b110,
        ..TABLE
    });
    chip.poke_by(Song, 0x6C01, 0x80);
    chip.poke_by(Song, 0x6C0F, 1);
    for line in 0..lines {
        assert!(chip.state().sound.channels[0].enabled, "line {line}");
        chip.poke_by(Picture, 0x6C0F, 0x70);
        for address in [0x6C00, 0x6C01, 0x6C02] {
            assert_eq!(chip.page_write(Picture, &mut [0; STORE], address, 0x55), 15);
        }
        chip.poke_by(Picture, 0x6C06, 9);
        chip.lines(1, &ram);
    }
    chip.poke_by(Picture, 0x6C0F, 0x70);
    assert_eq!(chip.peek_by(Song, 0x6C0F, 0), 0x40);
    assert_eq!(chip.acknowledge(), (Answer::Done, 4));
    assert_eq!(chip.peek_by(Song, 0x6C0F, 0), 0x40);
    assert_eq!(ram.len(), RAM);
}
