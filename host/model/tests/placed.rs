//! The wrapper's own part of placed lists: what the state holds of them, what is shown,
//! and that a chip's places go with it.

use plus::{Answer, Area, Chip, List, Placed, LISTS, RAM};

fn list(handle: u32, address: u32, length: u32) -> List {
    List {
        handle,
        address,
        length,
    }
}

/// A chip with lists of 4, 6 and 8 bytes from 8000h on, and RAM.
fn three() -> (Chip, Vec<u8>) {
    let (mut chip, mut ram) = (Chip::new(), vec![0; RAM]);
    assert_eq!(chip.area(0x8000, 0x9000), Answer::Done);
    for length in [4, 6, 8] {
        assert_eq!(chip.place(&mut ram, &vec![7; length]).0, Answer::Done);
    }
    (chip, ram)
}

#[test]
fn what_the_state_holds() {
    let (mut chip, _) = three();
    // Words below each bound, and a bit a handle.
    let area = |used| Area {
        used,
        from: 0x4000,
        upto: 0x4800,
    };
    assert_eq!(chip.editing.lists, area(0b111));
    assert_eq!(chip.remove(1), Answer::Done);
    assert_eq!(chip.editing.lists, area(0b101));
    assert!(chip.lists().eq([list(0, 0x8000, 4), list(2, 0x800A, 8)]));
    chip.reset();
    assert_eq!(chip.editing.lists, Area::default());
    assert_eq!((chip.bounds(), chip.lists().count()), (None, 0));
}

/// 64 bits, and all of RAM.
#[test]
fn every_handle_and_the_end_of_ram() {
    let (mut chip, mut ram) = (Chip::new(), vec![0; RAM]);
    assert_eq!(chip.area(0, RAM as u32), Answer::Done);
    for handle in 0..LISTS as u32 {
        let (answer, placed) = chip.place(&mut ram, &[1; 1024]);
        let address = 1024 * handle;
        assert_eq!((answer, placed), (Answer::Done, Placed { address, handle }));
    }
    let whole = Area {
        used: u64::MAX,
        from: 0,
        upto: 0x8000,
    };
    assert_eq!(chip.editing.lists, whole);
    let last = chip.lists().last();
    assert_eq!(last, Some(list(63, 0xFC00, 1024)));
}

/// A state can be given any contents. What is no area shows none, as the core has it,
/// and a handle's list is shown by its place, whatever that is.
#[test]
fn any_contents() {
    let mut chip = Chip::new();
    for (from, upto) in [(5, 5), (6, 5), (0, 0x8001), (0xFFFF, 0xFFFF), (3, 0xFFFF)] {
        chip.editing.lists = Area {
            used: 0,
            from,
            upto,
        };
        assert_eq!(chip.bounds(), None);
        assert_eq!(chip.remove(0), Answer::WrongArea);
        assert_eq!(chip.area(2, 4), Answer::Done);
    }
    // No list was ever placed under these: their places are 0, which is the first word.
    chip.editing.lists.used = 1 << 63 | 1;
    assert!(chip.lists().eq([list(0, 0, 2), list(63, 0, 2)]));
}

/// A copy goes on by itself.
#[test]
fn a_clone_has_its_own_places() {
    let (mut chip, mut ram) = three();
    let mut copy = chip.clone();
    assert!(copy.lists().eq(chip.lists()));
    assert_eq!(copy.remove(0), Answer::Done);
    assert_eq!(copy.place(&mut ram, &[9; 2]).1.address, 0x8000);
    assert_eq!(chip.place(&mut ram, &[9; 2]).1.address, 0x8012);
    assert!(copy
        .lists()
        .eq([list(0, 0x8000, 2), list(1, 0x8004, 6), list(2, 0x800A, 8)]));
    assert!(chip.lists().eq([
        list(0, 0x8000, 4),
        list(1, 0x8004, 6),
        list(2, 0x800A, 8),
        list(3, 0x8012, 2)
    ]));
}

/// Places of a chip before a reset mean nothing after it.
#[test]
fn old_places_are_not_seen_after_a_reset() {
    let (mut chip, mut ram) = three();
    chip.reset();
    assert_eq!(chip.area(0x8000, 0x8004), Answer::Done);
    let (answer, placed) = chip.place(&mut ram, &[1; 4]);
    let expected = Placed {
        address: 0x8000,
        handle: 0,
    };
    assert_eq!((answer, placed), (Answer::Done, expected));
    assert_eq!(chip.remove(1), Answer::NoHandle);
}
