//! Request L9's claim: what one editor does is not felt by the other. Two runs that
//! differ in one editor's calls look the same to the other one, as long as the
//! claim's premises hold; and none of these can be left out.

use model::beside::{Pair, Premises, Seen};
use model::under_test::UnderTest;
use model::{held, Machine};
use plus::Editor::{Picture, Song};
use plus::{Table, RAM};

/// Pairs of runs in which nothing is felt, or the first in which something is.
fn pairs<M: Machine>(count: u64, premises: Premises) -> Result<Seen, String> {
    let mut seen = Seen::default();
    for seed in 1..=count {
        Pair::new(seed, premises).run::<M>(&mut seen)?;
    }
    Ok(seen)
}

held!(neither_editor_is_felt_by_the_other,
    fails_with OthersChannelsShown, Bit7Shown, NotYoursServed, OthersInterruptCleared,
        OthersEnabled, UndoOfOther, OneRecord, IvrOfBoth, PixelOfNextSprite,
        HighByteOfNextEntry, HeardByDcsr, HeardByUndo);
fn neither_editor_is_felt_by_the_other<M: Machine>() {
    if let Err(felt) = pairs::<M>(2_000, Premises::ALL) {
        panic!("{felt}");
    }
}

held!(the_pairs_are_of_all_sorts);
fn the_pairs_are_of_all_sorts<M: Machine>() {
    let seen = pairs::<M>(2_000, Premises::ALL).expect("nothing is felt");
    println!("{seen:?}");
    // The calls of the editor that watches gave each number that they can give, and so
    // did the host's mutes and its calls on lists, but for 19 and for 1.
    for (answers, numbers) in [
        (seen.writes, &[0, 1, 2, 3, 9, 15][..]),
        (seen.reads, &[0, 1, 2]),
        (seen.undos, &[0, 1, 10]),
        (seen.places, &[0, 18, 20]),
        (seen.removals, &[0, 18, 21, 22]),
        (seen.mutes, &[0, 3]),
    ] {
        for (number, &times) in answers.iter().enumerate() {
            assert_eq!(times >= 20, numbers.contains(&number), "{seen:?}");
        }
    }
    // The other one's were there, and led somewhere else.
    assert!(seen.others >= 50_000, "{seen:?}");
    assert!(seen.apart >= 1_500, "{seen:?}");
    // Some pairs had a removal that only one of the two was refused.
    assert!(seen.ended >= 20, "{seen:?}");
    assert!(seen.ended <= 500, "{seen:?}");
}

/// Without a premise some pair of runs differs.
fn is_needed<M: Machine>(without: Premises) {
    let felt = pairs::<M>(2_000, without).expect_err("nothing was felt");
    println!("{felt}");
}

// An acknowledge clears the interrupt that it serves, and which one that is may be
// up to the other editor.
held!(ivr_bit_0_is_needed);
fn ivr_bit_0_is_needed<M: Machine>() {
    is_needed::<M>(Premises {
        ivr_bit_0: false,
        ..Premises::ALL
    });
}

// A read of what the other one owns shows it.
held!(reading_ones_own_is_needed);
fn reading_ones_own_is_needed<M: Machine>() {
    is_needed::<M>(Premises {
        own_reads: false,
        ..Premises::ALL
    });
}

// Another table gives it what the other one has written.
held!(one_table_is_needed);
fn one_table_is_needed<M: Machine>() {
    is_needed::<M>(Premises {
        one_table: false,
        ..Premises::ALL
    });
}

// A list that only one run can remove leaves other room for the next, and so other
// words where a channel plays.
held!(the_same_removals_are_needed);
fn the_same_removals_are_needed<M: Machine>() {
    is_needed::<M>(Premises {
        same_removals: false,
        ..Premises::ALL
    });
}

// By hand: the song editor turns its channel on in one run, which stands in the only
// list. There the host can't remove it, and the next list goes behind it, to where the
// picture editor's channel plays: INT and STOP. In the other run it goes to the list's
// room, and that channel finds a LOAD.
held!(a_list_that_one_run_keeps);
fn a_list_that_one_run_keeps<M: Machine>() {
    let seen = [true, false].map(|turned_on| {
        let (mut chip, mut ram) = (M::open(), vec![0; RAM]);
        assert_eq!(chip.area(0x8000, 0x8004), 0);
        assert_eq!(chip.place(&mut ram, &[0x00, 0x40]).1.address, 0x8000);
        chip.start(Table {
            channels: 0b010,
            ..Table::default()
        });
        chip.poke_by(Song, 0x6C01, 0x80);
        chip.poke_by(Picture, 0x6C04, 0x02);
        chip.poke_by(Picture, 0x6C05, 0x80);
        chip.poke_by(Picture, 0x6C0F, 0b010);
        if turned_on {
            chip.poke_by(Song, 0x6C0F, 0b001);
        }
        let removed = chip.remove(0).number();
        let (answer, placed) = chip.place(&mut ram, &[0x30, 0x40]);
        assert_eq!(answer, 0);
        chip.lines(1, &ram);
        (removed, placed.address, chip.peek_by(Picture, 0x6C0F, 0))
    });
    // Its interrupt, and no enable; and the enable.
    assert_eq!(seen, [(22, 0x8002, 0x20), (0, 0x8000, 0x02)]);
}
