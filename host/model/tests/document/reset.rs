//! Document 01, "The chip we model": the chip after reset.

use model::under_test::{UnderTest, KEY};
use model::{held, Machine};
use plus::Editor::Song;
use plus::{Crtc, Editing, Gate, Interrupts, Lock, Sound, Sprite, State, Video, RAM, STORE};

// The defaults are all zero: locked, not mapped, sprites and channels off.
held!(all_is_zero_but_ivr);
fn all_is_zero_but_ivr<M: Machine>() {
    let expected = State {
        lock: Lock::default(),
        gate: Gate::default(),
        crtc: Crtc::default(),
        video: Video::default(),
        sprites: [Sprite::default(); 16],
        palette: [0; 64],
        sound: Sound::default(),
        interrupts: Interrupts {
            ivr: 0x01,
            ..Interrupts::default()
        },
        editing: Editing::default(),
    };
    assert_eq!(M::new().state(), expected);
    assert_eq!(M::new().record(Song), []);
}

held!(the_bytes_before_it_are_forgotten);
fn the_bytes_before_it_are_forgotten<M: Machine>() {
    let mut chip = M::new();
    chip.feed(&[1, 0]);
    chip.feed(KEY);
    chip.reset();
    chip.feed(&[0xEE]);
    assert!(!chip.state().lock.unlocked);
}

// R12 and R13 count from the next frame on.
held!(the_first_line_has_address_0);
fn the_first_line_has_address_0<M: Machine>() {
    let mut chip = M::new();
    chip.registers(&[(1, 1), (6, 1), (12, 0x30)]);
    assert_eq!(chip.state().crtc.counters.address, 0);
    assert_eq!(chip.write_7f(0x82), 0);
    let mut ram = vec![0; RAM];
    ram[0] = 0xFF;
    assert_eq!(
        chip.drawn(&ram, &[0; STORE])[..9],
        [1, 1, 1, 1, 1, 1, 1, 1, 0]
    );
    // R4, R5 and R9 are 0: every line ends a frame.
    chip.lines(1, &ram);
    assert_eq!(chip.state().crtc.counters.address, 0x3000);
}
