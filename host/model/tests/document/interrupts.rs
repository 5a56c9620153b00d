//! Document 01, "Interrupts": acknowledge, and what DCSR shows of it.

use model::under_test::{ram_with, UnderTest};
use model::{held, Machine};
use plus::Answer;

held!(every_case_of_an_acknowledge, fails_with LowestFirst, AlwaysCleared);
fn every_case_of_an_acknowledge<M: Machine>() {
    for case in 0..32u8 {
        for ivr in 0..=255u8 {
            let mut chip = M::new();
            chip.change(|state| {
                state.interrupts.ivr = ivr;
                state.interrupts.raster = case & 8 != 0;
                state.interrupts.last_raster = case & 16 != 0;
                for (n, channel) in state.sound.channels.iter_mut().enumerate() {
                    channel.interrupt = case >> n & 1 != 0;
                }
            });
            let mut expected = chip.state();
            let top = ivr & 0xF8;
            let answer = match case & 15 {
                0 => (Answer::NoInterrupt, 0),
                8.. => {
                    expected.interrupts.raster = false;
                    expected.interrupts.last_raster = true;
                    (Answer::Done, top + 6)
                }
                channels => {
                    // The highest bit set.
                    let n = 7 - channels.leading_zeros() as usize;
                    expected.interrupts.last_raster = false;
                    expected.sound.channels[n].interrupt = ivr & 1 != 0;
                    (Answer::Done, top + [4, 2, 0][n])
                }
            };
            assert_eq!(chip.acknowledge(), answer);
            assert_eq!(chip.state(), expected);
        }
    }
}

/// The raster interrupt of line 1 waits, and those of the channels that a byte
/// to DCSR enabled, which have met INT and STOP. By the calls alone.
fn waiting<M: Machine>(ivr: u8, channels: u8) -> M {
    let ram = ram_with(0, &[0x4030]);
    let mut chip = M::open();
    chip.register(9, 7);
    chip.poke(0x6800, 1);
    chip.poke(0x6805, ivr);
    chip.poke(0x6C0F, channels);
    chip.lines(2, &ram);
    chip
}

// Numbers of the document for IVR A8h: AEh, ACh, AAh, A8h.
held!(vectors);
fn vectors<M: Machine>() {
    assert_eq!(M::new().acknowledge(), (Answer::NoInterrupt, 0));
    assert_eq!(waiting::<M>(0xA8, 0).acknowledge(), (Answer::Done, 0xAE));
    for (channels, vector) in [(1, 0xAC), (2, 0xAA), (4, 0xA8)] {
        let mut chip = waiting::<M>(0xA8, channels);
        assert_eq!(chip.acknowledge(), (Answer::Done, 0xAE));
        assert_eq!(chip.acknowledge(), (Answer::Done, vector));
    }
    // The low three bits of IVR have no part in it.
    assert_eq!(waiting::<M>(0x01, 0).acknowledge(), (Answer::Done, 0x06));
    assert_eq!(waiting::<M>(0xAF, 0).acknowledge(), (Answer::Done, 0xAE));
    let mut chip = waiting::<M>(0xFF, 1);
    assert_eq!(chip.acknowledge(), (Answer::Done, 0xFE));
    assert_eq!(chip.acknowledge(), (Answer::Done, 0xFC));
}

// Each vector with what DCSR reads after it: bit 7 for the raster, bits 6, 5, 4
// for channels 0, 1, 2.
held!(all_four_in_turn, fails_with LowestFirst);
fn all_four_in_turn<M: Machine>() {
    let mut chip = waiting::<M>(0xA8, 7);
    assert_eq!(chip.peek(0x6C0F, 0), 0x70);
    for (vector, dcsr) in [(0xAE, 0xF0), (0xA8, 0x60), (0xAA, 0x40), (0xAC, 0x00)] {
        assert_eq!(chip.acknowledge(), (Answer::Done, vector));
        assert_eq!(chip.peek(0x6C0F, 0), dcsr);
    }
    assert_eq!(chip.acknowledge(), (Answer::NoInterrupt, 0));
    assert_eq!(chip.peek(0x6C0F, 0), 0x00);
}

held!(ivr_bit_0_leaves_a_channels_interrupt, fails_with AlwaysCleared);
fn ivr_bit_0_leaves_a_channels_interrupt<M: Machine>() {
    let mut chip = waiting::<M>(0xA9, 7);
    for (vector, dcsr) in [(0xAE, 0xF0), (0xA8, 0x70), (0xA8, 0x70)] {
        assert_eq!(chip.acknowledge(), (Answer::Done, vector));
        assert_eq!(chip.peek(0x6C0F, 0), dcsr);
    }
    // DCSR clears it, and then channel 1 is next.
    chip.poke(0x6C0F, 0x10);
    assert_eq!(chip.acknowledge(), (Answer::Done, 0xAA));
}

held!(a_refused_acknowledge_is_not_the_last);
fn a_refused_acknowledge_is_not_the_last<M: Machine>() {
    let mut chip = waiting::<M>(0xA8, 0);
    assert_eq!(chip.acknowledge(), (Answer::Done, 0xAE));
    assert_eq!(chip.acknowledge(), (Answer::NoInterrupt, 0));
    assert_eq!(chip.peek(0x6C0F, 0), 0x80);
}

// INT on each channel and on all; then a 1 in bits 6, 5, 4 clears.
held!(dcsr_shows_and_clears_interrupts);
fn dcsr_shows_and_clears_interrupts<M: Machine>() {
    let ram = ram_with(0, &[0x4010]);
    let met = |channels| {
        let mut chip = M::open();
        chip.poke(0x6C0F, channels);
        chip.lines(1, &ram);
        chip
    };
    for (channels, dcsr) in [(1, 0x41), (2, 0x22), (4, 0x14), (7, 0x77)] {
        assert_eq!(met(channels).peek(0x6C0F, 0), dcsr);
    }
    for (byte, dcsr) in [(0x47, 0x37), (0x20, 0x50), (0x10, 0x60), (0x88, 0x70)] {
        let mut chip = met(7);
        chip.poke(0x6C0F, byte);
        assert_eq!(chip.peek(0x6C0F, 0), dcsr);
    }
}
