//! Document 01, "Lock and ports": the 6845's registers and the gate array.

use model::under_test::UnderTest;
use model::{held, Machine};
use plus::{Registers, UNLOCK};

held!(a_register_is_selected_by_5_bits);
fn a_register_is_selected_by_5_bits<M: Machine>() {
    for byte in 0..=255u8 {
        let mut chip = M::new();
        chip.feed(&[byte]);
        assert_eq!(chip.state().crtc.selected, byte % 32);
    }
}

/// A kept register, and how many of its bits.
fn kept(registers: &mut Registers, number: u8) -> Option<(&mut u8, u8)> {
    match number {
        1 => Some((&mut registers.r1, 8)),
        4 => Some((&mut registers.r4, 7)),
        5 => Some((&mut registers.r5, 5)),
        6 => Some((&mut registers.r6, 7)),
        9 => Some((&mut registers.r9, 5)),
        12 => Some((&mut registers.r12, 6)),
        13 => Some((&mut registers.r13, 8)),
        _ => None,
    }
}

held!(data_goes_to_the_kept_registers, fails_with WholeR4);
fn data_goes_to_the_kept_registers<M: Machine>() {
    for select in 0..=255u8 {
        for value in [0x00, 0xFF, 0xA5, 0x5A] {
            let mut chip = M::new();
            for number in 0..32 {
                chip.feed(&[number]);
                chip.write_bd(0x11);
            }
            chip.feed(&[select]);
            let mut expected = chip.state();
            let answer = chip.write_bd(value);
            match kept(&mut expected.crtc.registers, select % 32) {
                Some((register, bits)) => {
                    *register = (u16::from(value) % (1 << bits)) as u8;
                    assert_eq!(answer, 0, "{select:02X}");
                }
                None => assert_eq!(answer, 3, "{select:02X}"),
            }
            assert_eq!(chip.state(), expected, "{select:02X}");
        }
    }
}

held!(every_byte_to_the_gate_array, fails_with MappedAt10);
fn every_byte_to_the_gate_array<M: Machine>() {
    for case in 0..256 * 16u32 {
        let byte = case as u8;
        let [unlocked, mapped, raster] = [8, 9, 10].map(|bit| case >> bit & 1 == 1);
        let mut chip = M::new();
        chip.change(|state| {
            state.lock.unlocked = unlocked;
            state.gate.mapped = mapped;
            state.gate.mode = (case >> 11) as u8 + 1;
            state.interrupts.raster = raster;
        });
        let mut expected = chip.state();
        let answer = match byte >> 5 {
            0b101 if unlocked => {
                expected.gate.mapped = byte >> 3 & 3 == 3;
                0
            }
            0b100 | 0b101 => {
                expected.gate.mode = byte & 3;
                expected.interrupts.raster = raster && byte >> 4 & 1 == 0;
                0
            }
            _ => 3,
        };
        assert_eq!(chip.write_7f(byte), answer, "{byte:02X}");
        assert_eq!(chip.state(), expected, "{byte:02X}");
    }
}

// By the calls alone: the page mapped, then the chip locked.
held!(locking_unmaps_and_clears_nothing, fails_with LockingUnmaps);
fn locking_unmaps_and_clears_nothing<M: Machine>() {
    let mut chip = M::open();
    chip.poke(0x6800, 100);
    chip.poke(0x6C0F, 7);
    let mut expected = chip.state();
    chip.feed(&UNLOCK[..15]);
    chip.feed(&[0xCC]);
    expected.lock.unlocked = false;
    expected.lock.stage = 1;
    expected.crtc.selected = 0xCC % 32;
    assert_eq!(chip.state(), expected);
    assert_eq!(chip.peek(0x6C0F, 0), 7);
    // Nothing unmaps it now: the byte is a mode.
    for (byte, mode) in [(0x80, 0), (0xA1, 1)] {
        assert_eq!(chip.write_7f(byte), 0);
        expected.gate.mode = mode;
        assert_eq!(chip.state(), expected);
    }
}

held!(a_locked_chip_maps_no_page);
fn a_locked_chip_maps_no_page<M: Machine>() {
    let mut chip = M::new();
    assert_eq!(chip.write_7f(0xBA), 0);
    let gate = chip.state().gate;
    assert_eq!((gate.mapped, gate.mode), (false, 2));
}

// The raster interrupt of line 1 waits; which bytes clear it.
held!(bit_4_clears_a_raster_interrupt);
fn bit_4_clears_a_raster_interrupt<M: Machine>() {
    let ram = vec![0; plus::RAM];
    let cases = [
        (false, 0x8F, true),
        (false, 0x90, false),
        (false, 0xD0, true),
        (false, 0xB0, true),
        (true, 0xAF, true),
        (true, 0xB0, false),
    ];
    for (locked, byte, waits) in cases {
        let mut chip = M::open();
        chip.register(9, 7);
        chip.poke(0x6800, 1);
        chip.lines(2, &ram);
        if locked {
            chip.feed(&UNLOCK[..15]);
            chip.feed(&[0xCC]);
        }
        chip.write_7f(byte);
        assert_eq!(chip.state().interrupts.raster, waits, "{byte:02X}");
    }
}
