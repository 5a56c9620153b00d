//! Faults of the register page.

use plus::Answer;

writes! {
    /// The store keeps a pixel's whole byte: only the buffer shows it.
    WholePixel: |chip, editor, store, address, byte| {
        let answer = chip.page_write(editor, store, address, byte);
        if answer == Answer::Done && (0x4000..0x5000).contains(&address) {
            store[address as usize - 0x4000] = byte;
        }
        answer
    };

    /// Only +4 sets magnification: the base as document 01 had it.
    NoMirrors: |chip, editor, store, address, byte| {
        let before = chip.clone();
        let answer = chip.page_write(editor, store, address, byte);
        if answer == Answer::Done && (0x6000..0x6080).contains(&address) && address % 8 > 4 {
            *chip = before;
            return Answer::NothingThere;
        }
        answer
    };

    /// A converter is refused as an address with no register is.
    OneKindOfNothing: |chip, editor, store, address, byte| {
        match chip.page_write(editor, store, address, byte) {
            Answer::ConverterThere => Answer::NothingThere,
            answer => answer,
        }
    };

    /// A start address ends the pause.
    PauseEndedByStart: |chip, editor, store, address, byte| {
        let answer = chip.page_write(editor, store, address, byte);
        if answer == Answer::Done && (0x6C00..0x6C0C).contains(&address) && address % 4 < 2 {
            chip.sound.channels[address as usize % 16 / 4].pause = 0;
        }
        answer
    };

    /// A channel that is switched off loses the lines counted in its pause.
    PauseRestartedByDisable: |chip, editor, store, address, byte| {
        let before = chip.sound.channels;
        let answer = chip.page_write(editor, store, address, byte);
        for (was, channel) in before.iter().zip(&mut chip.sound.channels) {
            if was.enabled && !channel.enabled {
                channel.count = 0;
            }
        }
        answer
    };
}

reads! {
    /// A negative coordinate's high byte reads as its bits and not as FFh.
    HighByteOfBits: |chip, editor, store, address, bus| {
        match (chip.page_read(editor, store, address, bus), address % 8) {
            ((Answer::Done, 0xFF), 1) if (0x6000..0x6080).contains(&address) => (Answer::Done, 3),
            (read, _) => read,
        }
    };

    /// A page that isn't mapped is told before a store of another length.
    LengthLast: |chip, editor, store, address, bus| {
        match chip.page_read(editor, store, address, bus) {
            (Answer::WrongLength, _) if !chip.gate.mapped => (Answer::NotMapped, 0),
            read => read,
        }
    };
}
