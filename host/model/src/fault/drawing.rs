//! Faults of the drawn line.

use plus::Answer;

lines! {
    /// The highest-numbered opaque sprite is shown.
    HighestSpriteFirst: |chip, lent| {
        let mut turned = chip.clone();
        turned.sprites.reverse();
        let pixels: Vec<u8> = lent.store.rchunks(256).flatten().copied().collect();
        lent.drawn_of(chip, turned, &pixels)
    };

    /// Soft scroll by 3 bits.
    ScrollOf3Bits: |chip, lent| {
        let mut scrolled = chip.clone();
        scrolled.video.sscr &= 0xF7;
        lent.drawn_of(chip, scrolled, lent.store)
    };

    /// The line drawn is the one that is stepped to.
    SteppedBeforeDrawn: |chip, lent| {
        let called = lent.undrawn(chip);
        let _ = lent.call(&mut chip.clone());
        called
    };

    /// A line in mode 3 is served, and drawn as in mode 2.
    ModeThreeDrawn: |chip, lent| {
        let mode = chip.gate.mode;
        chip.gate.mode = mode.min(2);
        let called = lent.call(chip);
        chip.gate.mode = mode;
        called
    };

    /// A line that is refused is all border.
    DrawnThoughRefused: |chip, lent| {
        let called = lent.call(chip);
        if called.0 != Answer::Done {
            lent.line.fill(16);
        }
        called
    };
}
