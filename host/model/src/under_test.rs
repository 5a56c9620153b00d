//! What most tests begin with, on any machine. A call that isn't served here
//! ends the test.

use crate::machine::Machine;
use plus::{kind, Access, Answer, Editor, Report, State, EXPORT, LINE, RAM, STORE, UNLOCK};

/// What follows a byte that isn't zero and a zero, in the unlock sequence.
pub const KEY: &[u8] = UNLOCK.split_at(2).1.split_at(14).0;

/// What a refused line reports: no cycles, and each channel as sitting out.
pub const IDLE: Report = Report {
    cycles: 0,
    kinds: [kind::SAT_OUT; 3],
    lows: [0; 3],
};

/// Runs a test, `fn name<M: Machine>()`, on the core and on the model. Faults
/// named after it are cores that the test has to fail on.
#[macro_export]
macro_rules! held {
    ($test:ident $(, fails_with $($fault:ident),+)?) => {
        mod $test {
            #[test]
            fn core() {
                super::$test::<plus::Chip>();
            }

            #[test]
            fn model() {
                super::$test::<$crate::Model>();
            }

            $($(
                #[test]
                #[should_panic]
                #[allow(non_snake_case)]
                fn $fault() {
                    super::$test::<$crate::machine::Faulty<$crate::fault::$fault>>();
                }
            )+)?
        }
    };
}

/// The moves, for every machine.
pub trait UnderTest: Machine + Sized {
    /// Bytes to BCxx.
    fn feed(&mut self, bytes: &[u8]) {
        for &byte in bytes {
            assert_eq!(self.write_bc(byte), Answer::Done);
        }
    }

    /// Unlocked, with the page mapped in.
    fn open() -> Self {
        let mut chip = Self::new();
        chip.feed(&UNLOCK);
        assert_eq!(chip.write_7f(0xB8), Answer::Done);
        assert!(chip.state().gate.mapped);
        chip
    }

    /// The state changed in place.
    fn change(&mut self, change: impl FnOnce(&mut State)) {
        let mut state = self.state();
        change(&mut state);
        self.put(state);
    }

    /// A page write of the song editor where the pixels don't matter.
    fn poke(&mut self, address: u16, byte: u8) {
        self.poke_by(Editor::Song, address, byte);
    }

    /// The same of an editor.
    fn poke_by(&mut self, editor: Editor, address: u16, byte: u8) {
        let answer = self.page_write(editor, &mut [0; STORE], address, byte);
        assert_eq!(answer, Answer::Done, "{address:04X}");
    }

    /// A page read of the song editor where they don't.
    fn peek(&mut self, address: u16, bus: u8) -> u8 {
        self.peek_by(Editor::Song, address, bus)
    }

    /// The same of an editor.
    fn peek_by(&mut self, editor: Editor, address: u16, bus: u8) -> u8 {
        let (answer, byte) = self.page_read(editor, &[0; STORE], address, bus);
        assert_eq!(answer, Answer::Done, "{address:04X}");
        byte
    }

    /// An undo of the song editor where they don't.
    fn take_back(&mut self) {
        assert_eq!(self.undo(Editor::Song, &mut [0; STORE]), Answer::Done);
    }

    /// The export, over other bytes.
    fn exported(&mut self) -> [u8; EXPORT] {
        let mut out = [0xEE; EXPORT];
        assert_eq!(self.export(&mut out), Answer::Done);
        out
    }

    /// What the export says that an address holds.
    fn holds(&mut self, address: u16) -> u8 {
        let named = |three: &&[u8]| three[..2] == address.to_le_bytes();
        let three = self.exported();
        three.chunks(3).find(named).expect("a register")[2]
    }

    /// A 6845 register set through the ports.
    fn register(&mut self, number: u8, value: u8) {
        self.feed(&[number]);
        assert_eq!(self.write_bd(value), Answer::Done, "R{number}");
    }

    /// Several of them.
    fn registers(&mut self, values: &[(u8, u8)]) {
        for &(number, value) in values {
            self.register(number, value);
        }
    }

    /// A channel's address and prescale set through the page, and its enable.
    fn play(&mut self, channel: usize, start: u16, prescale: u8) {
        let base = 0x6C00 + 4 * channel as u16;
        let [low, high] = start.to_le_bytes();
        self.poke(base, low);
        self.poke(base + 1, high);
        self.poke(base + 2, prescale);
        let enables = self.peek(0x6C0F, 0) & 7;
        self.poke(0x6C0F, enables | 1 << channel);
    }

    /// On a frame's first line, with the screen at 3000h, rows of 8 lines and 40
    /// characters, and 25 of them shown.
    fn framed(r4: u8, r5: u8) -> Self {
        let mut chip = Self::open();
        chip.register(12, 0x30);
        // R4, R5 and R9 are 0 until here: this line ends a frame.
        chip.lines(1, &[0; RAM]);
        chip.registers(&[(1, 40), (4, r4), (5, r5), (6, 25), (9, 7)]);
        chip
    }

    /// A sprite set through the page.
    fn sprite(&mut self, n: usize, x: i16, y: i16, magnification: u8) {
        let base = 0x6000 + 8 * n as u16;
        let ([x_low, x_high], [y_low, y_high]) = (x.to_le_bytes(), y.to_le_bytes());
        for (place, byte) in [x_low, x_high, y_low, y_high, magnification]
            .into_iter()
            .enumerate()
        {
            self.poke(base + place as u16, byte);
        }
    }

    /// The line's call where what is drawn doesn't matter.
    fn step(&mut self, ram: &[u8], accesses: [Access; 3]) -> (Answer, Report) {
        self.line(ram, &[0; STORE], &mut [0; LINE], accesses)
    }

    /// The same with the processor off the 8255.
    fn plain_step(&mut self, ram: &[u8]) -> (Answer, Report) {
        self.step(ram, [Access::Off; 3])
    }

    /// Several of them.
    fn lines(&mut self, count: usize, ram: &[u8]) {
        for _ in 0..count {
            assert_eq!(self.plain_step(ram).0, Answer::Done);
        }
    }

    /// A line in any mode, as a replay steps it. The mode says nothing of a step, so
    /// that in mode 3, where the line's call does nothing, it is made in another.
    fn step_in_any_mode(&mut self, ram: &[u8]) {
        let mode = self.state().gate.mode;
        if mode == 3 {
            self.change(|state| state.gate.mode = 2);
        }
        self.lines(1, ram);
        if mode == 3 {
            self.change(|state| state.gate.mode = 3);
        }
    }

    /// The current line, drawn over other bytes, and stepped.
    fn drawn_and_stepped(&mut self, ram: &[u8], store: &[u8]) -> Vec<u8> {
        let mut line = vec![0xEE; LINE];
        let (answer, _) = self.line(ram, store, &mut line, [Access::Off; 3]);
        assert_eq!(answer, Answer::Done);
        line
    }

    /// The current line as it would be drawn: the chip stays on it.
    fn drawn(&mut self, ram: &[u8], store: &[u8]) -> Vec<u8> {
        let before = self.state();
        let line = self.drawn_and_stepped(ram, store);
        self.put(before);
        line
    }
}

impl<M: Machine> UnderTest for M {}

/// A drawn line as runs of equal entries: how many, and the entry.
pub fn runs(line: &[u8]) -> Vec<(usize, u8)> {
    line.chunk_by(|one, next| one == next)
        .map(|run| (run.len(), run[0]))
        .collect()
}

/// Puts words into RAM.
pub fn put_words(ram: &mut [u8], start: usize, words: &[u16]) {
    for (n, word) in words.iter().enumerate() {
        ram[start + 2 * n..][..2].copy_from_slice(&word.to_le_bytes());
    }
}

/// RAM of zeros with words in it.
pub fn ram_with(start: usize, words: &[u16]) -> Vec<u8> {
    let mut ram = vec![0; RAM];
    put_words(&mut ram, start, words);
    ram
}
