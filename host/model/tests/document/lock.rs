//! Document 01, "Lock and ports": the lock.

use model::random::Random;
use model::under_test::{UnderTest, KEY};
use model::{held, Machine};
use plus::UNLOCK;

/// Whether a chip is unlocked after bytes since reset.
fn unlocked_by<M: Machine>(bytes: &[u8]) -> bool {
    let mut chip = M::new();
    chip.feed(bytes);
    chip.state().lock.unlocked
}

held!(seventeen_bytes_unlock, fails_with UnlockedAtCd);
fn seventeen_bytes_unlock<M: Machine>() {
    for count in 0..17 {
        assert!(!unlocked_by::<M>(&UNLOCK[..count]), "{count}");
    }
    assert!(unlocked_by::<M>(&UNLOCK));
    // Any byte but zero does for the first, and any for the last.
    for byte in 0..=255 {
        let mut bytes = UNLOCK;
        bytes[0] = byte;
        assert_eq!(unlocked_by::<M>(&bytes), byte != 0, "{byte:02X}");
        bytes = UNLOCK;
        bytes[16] = byte;
        assert!(unlocked_by::<M>(&bytes), "{byte:02X}");
    }
}

held!(a_wrong_byte_opens_nothing);
fn a_wrong_byte_opens_nothing<M: Machine>() {
    for place in 1..16 {
        for wrong in [0x99, UNLOCK[place] ^ 0x10] {
            let mut bytes = UNLOCK;
            bytes[place] = wrong;
            assert!(!unlocked_by::<M>(&bytes), "{wrong:02X} in place {place}");
        }
    }
}

held!(the_zero_needs_a_byte_before_it);
fn the_zero_needs_a_byte_before_it<M: Machine>() {
    for start in [&[0][..], &[0, 0], &[1, 0, 0], &[1, 0, 0xFF, 0, 0]] {
        let mut chip = M::new();
        chip.feed(start);
        assert_eq!(chip.state().lock.stage, 0);
        chip.feed(KEY);
        chip.feed(&[0xEE]);
        assert!(!chip.state().lock.unlocked, "{start:02X?}");
    }
}

// A zero in each place of the key.
held!(a_bad_zero_begins_the_next_attempt, fails_with LostZero);
fn a_bad_zero_begins_the_next_attempt<M: Machine>() {
    for good in 1..=13 {
        let mut chip = M::new();
        chip.feed(&[1, 0]);
        chip.feed(&KEY[..good]);
        chip.feed(&[0]);
        assert_eq!(chip.state().lock.stage, 2);
        chip.feed(KEY);
        assert!(!chip.state().lock.unlocked);
        assert_eq!(chip.state().lock.stage, 16);
        chip.feed(&[0]);
        assert!(chip.state().lock.unlocked);
        assert_eq!(chip.state().lock.stage, 2);
    }
}

held!(a_bad_byte_and_a_zero_begin_the_next_attempt);
fn a_bad_byte_and_a_zero_begin_the_next_attempt<M: Machine>() {
    for good in 0..=13 {
        let bytes = [&[1, 0], &KEY[..good], &[5, 0], KEY, &[5]].concat();
        assert!(unlocked_by::<M>(&bytes), "{good}");
    }
}

// The zero that unlocks begins the attempt that locks, and the zero that locks
// the one that unlocks.
held!(a_last_zero_begins_the_next_attempt, fails_with LostZero);
fn a_last_zero_begins_the_next_attempt<M: Machine>() {
    let mut chip = M::new();
    for turn in 0..3 {
        chip.feed(if turn == 0 { &[1, 0] } else { &[] });
        chip.feed(KEY);
        assert!(!chip.state().lock.unlocked);
        chip.feed(&[0]);
        assert!(chip.state().lock.unlocked);
        chip.feed(&KEY[..13]);
        assert!(chip.state().lock.unlocked);
        chip.feed(&[0]);
        assert!(!chip.state().lock.unlocked);
        assert_eq!(chip.state().lock.stage, 2);
    }
    chip.feed(KEY);
    chip.feed(&[0x55]);
    assert!(chip.state().lock.unlocked);
    assert_eq!(chip.state().lock.stage, 1);
}

held!(only_a_wrong_byte_for_cd_locks);
fn only_a_wrong_byte_for_cd_locks<M: Machine>() {
    let again = |bytes: &[u8]| unlocked_by::<M>(&[&UNLOCK, bytes].concat());
    for count in 0..=15 {
        assert!(again(&UNLOCK[..count]), "{count}");
    }
    for last in 0..=255 {
        let bytes = [&UNLOCK[..15], &[last]].concat();
        assert_eq!(again(&bytes), last == 0xCD, "{last:02X}");
    }
    // A wrong byte before it changes nothing.
    for place in 2..15 {
        let mut bytes = UNLOCK[..16].to_vec();
        bytes[place] ^= 1;
        assert!(again(&bytes), "{place}");
        bytes[15] = 0xCC;
        assert!(again(&bytes), "{place}");
    }
}

// How much of the sequence the last bytes are, as a small machine of its own.
held!(over_many_bytes);
fn over_many_bytes<M: Machine>() {
    let mut random = Random(11);
    let mut chip = M::new();
    let (mut stage, mut unlocked, mut switches) = (0usize, false, 0);
    for _ in 0..200_000 {
        let byte = match random.below(40) {
            0 => 0,
            1 => random.byte(),
            _ if stage < 2 && random.chance(2) => random.below(2) as u8,
            _ => *KEY.get(stage.max(2) - 2).unwrap_or(&0),
        };
        let before = unlocked;
        match stage {
            16 => unlocked = true,
            15 if byte != 0xCD => unlocked = false,
            _ => {}
        }
        switches += u32::from(before != unlocked);
        stage = match stage {
            2..=15 if byte == KEY[stage - 2] => stage + 1,
            _ if byte != 0 => 1,
            0 | 2 => 0,
            _ => 2,
        };
        chip.feed(&[byte]);
        let lock = chip.state().lock;
        assert_eq!((lock.unlocked, lock.stage as usize), (unlocked, stage));
    }
    assert!(switches > 100, "{switches}");
}

held!(from_every_stage);
fn from_every_stage<M: Machine>() {
    for stage in 0..=16 {
        for unlocked in [false, true] {
            let mut chip = M::new();
            chip.change(|state| (state.lock.unlocked, state.lock.stage) = (unlocked, stage));
            let lock = chip.state().lock;
            assert_eq!((lock.unlocked, lock.stage), (unlocked, stage));
            let next = KEY.get(stage.max(2) as usize - 2).copied().unwrap_or(0xEE);
            chip.feed(&[next]);
            assert_eq!(chip.state().lock.unlocked, unlocked || stage == 16);
        }
    }
}
