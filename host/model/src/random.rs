//! Random states, sound lists and bytes, the same on every run.

use plus::take::{kind, Record};
use plus::{Access, Channel, Chip, Counters, Held, Sprite, State, Table};

/// A plain random source (xorshift), the same on every run.
pub struct Random(pub u64);

impl Random {
    /// The source number `seed` of many, unlike its neighbours.
    pub fn new(seed: u64) -> Random {
        let mixed = (seed ^ seed >> 30).wrapping_mul(0xBF58_476D_1CE4_E5B9);
        let mixed = (mixed ^ mixed >> 27).wrapping_mul(0x94D0_49BB_1331_11EB);
        // A xorshift that is 0 stays 0.
        let mut random = Random((mixed ^ mixed >> 31).max(1));
        random.next();
        random
    }

    #[allow(clippy::should_implement_trait)]
    pub fn next(&mut self) -> u64 {
        self.0 ^= self.0 << 13;
        self.0 ^= self.0 >> 7;
        self.0 ^= self.0 << 17;
        self.0.wrapping_mul(0x2545_F491_4F6C_DD1D) >> 16
    }

    /// 0 to n - 1.
    pub fn below(&mut self, n: u64) -> u64 {
        self.next() % n
    }

    pub fn chance(&mut self, one_in: u64) -> bool {
        self.below(one_in) == 0
    }

    /// Below `few` one time in `one_in`, else below `often`.
    pub fn either(&mut self, one_in: u64, few: u64, often: u64) -> u64 {
        let n = if self.chance(one_in) { few } else { often };
        self.below(n)
    }

    pub fn byte(&mut self) -> u8 {
        self.next() as u8
    }

    pub fn word(&mut self) -> u16 {
        self.next() as u16
    }

    pub fn pick<T: Copy>(&mut self, from: &[T]) -> T {
        from[self.below(from.len() as u64) as usize]
    }

    pub fn fill(&mut self, bytes: &mut [u8]) {
        for byte in bytes {
            *byte = self.next() as u8;
        }
    }
}

/// Any state within the widths that document 01 gives, with no table.
pub fn any_state(random: &mut Random) -> State {
    let r = random;
    let mut state = *Chip::new();
    state.lock.unlocked = r.chance(2);
    state.lock.stage = r.below(17) as u8;
    state.gate.mode = r.below(4) as u8;
    state.gate.mapped = r.chance(2);
    state.interrupts.raster = r.chance(2);
    state.interrupts.last_raster = r.chance(2);
    state.interrupts.ivr = r.byte();
    any_video(r, &mut state);
    for sprite in &mut state.sprites {
        *sprite = Sprite {
            x: r.below(1024) as i16 - 256,
            y: r.below(512) as i16 - 256,
            magnification: r.below(16) as u8,
        };
    }
    for (n, byte) in state.palette.iter_mut().enumerate() {
        *byte = r.byte() & if n % 2 == 1 { 0x0F } else { 0xFF };
    }
    for channel in &mut state.sound.channels {
        *channel = any_channel(r);
    }
    r.fill(&mut state.sound.psg);
    state
}

/// Any state in which a line can be drawn, and so stepped: not in mode 3.
pub fn drawable_state(random: &mut Random) -> State {
    let mut state = any_state(random);
    state.gate.mode = random.below(3) as u8;
    state
}

/// A table: of any owners, or with all of a kind for one editor.
pub fn any_table(random: &mut Random) -> Table {
    let r = random;
    let any = r.next();
    Table {
        palette: r.pick(&[any as u32, any as u32, 0, u32::MAX]),
        sprites: r.pick(&[(any >> 8) as u16, (any >> 8) as u16, 0, u16::MAX]),
        channels: r.pick(&[(any >> 24) as u8, (any >> 24) as u8, 0, 7, 0xFF]),
    }
}

/// How a chip holds a table.
pub fn held(table: Table) -> Held {
    let Table {
        palette,
        sprites,
        channels,
    } = table.kept();
    Held {
        held: true,
        channels,
        sprites,
        palette,
    }
}

/// The 6845 and the registers for its lines.
fn any_video(r: &mut Random, state: &mut State) {
    state.crtc.selected = r.below(32) as u8;
    let registers = &mut state.crtc.registers;
    registers.r1 = r.either(4, 256, 48) as u8;
    registers.r4 = r.below(128) as u8;
    registers.r5 = r.below(32) as u8;
    registers.r6 = r.below(128) as u8;
    registers.r9 = r.either(2, 32, 9) as u8;
    registers.r12 = r.below(64) as u8;
    registers.r13 = r.byte();
    let held = r.chance(3);
    state.crtc.counters = Counters {
        vc: r.either(2, 128, 20) as u8,
        rc: r.either(2, 32, 8) as u8,
        adjust: r.chance(6),
        address: r.below(16_384) as u16,
        held,
        split: if held { r.below(16_384) as u16 } else { 0 },
    };
    state.video.pri = r.byte();
    state.video.split_line = r.byte();
    state.video.split_high = r.below(64) as u8;
    state.video.split_low = r.byte();
    state.video.sscr = r.byte();
}

fn any_channel(r: &mut Random) -> Channel {
    let pausing = r.chance(2);
    Channel {
        enabled: r.chance(2),
        interrupt: r.chance(2),
        address: r.word() & 0xFFFE,
        prescale: r.byte(),
        pause: if pausing { r.below(4096) as u16 } else { 0 },
        count: r.byte(),
        counter: r.below(4096) as u16,
        mark: r.word() & 0xFFFE,
        muted: r.chance(3),
    }
}

/// A channel of a mute, seldom one that there is not.
pub fn any_channel_number(random: &mut Random) -> u16 {
    let other = random.word();
    match random.chance(6) {
        true => random.pick(&[3, 4, 255, 256, 257, 512, 0x8000, 0xFFFF, other]),
        false => random.below(3) as u16,
    }
}

/// Whatever the processor may do at the 8255 on a line.
pub fn any_accesses(random: &mut Random) -> [Access; 3] {
    [(); 3].map(|()| random.pick(&[Access::Off, Access::On, Access::PsgWrite]))
}

/// A list that ends with a STOP, with short pauses and loops.
pub fn any_list(random: &mut Random) -> Vec<u16> {
    let length = random.either(10, 120, 16);
    let mut words: Vec<u16> = (0..length).map(|_| any_word(random)).collect();
    words.push(any_stop(random));
    words
}

/// A STOP, which may carry LOOP, INT and bits that mean nothing.
fn any_stop(random: &mut Random) -> u16 {
    match random.below(3) {
        0 => 0x4020,
        1 => 0x4021 | random.next() as u16 & 0x0FFF,
        _ => 0x4020 | random.next() as u16 & 0x0FFF,
    }
}

/// A list as an old tool may have left it, which can be empty. Half of the times a
/// STOP stands somewhere in it.
pub fn old_list(random: &mut Random) -> Vec<u16> {
    let length = random.either(10, 60, 10);
    let mut words: Vec<u16> = (0..length).map(|_| old_word(random)).collect();
    if random.chance(2) {
        let at = random.below(length + 1) as usize;
        words.insert(at, any_stop(random));
    }
    words
}

/// Any word but a STOP: also of each reserved code, some with a STOP's bit, 1000h,
/// and control words with bits that mean nothing.
fn old_word(random: &mut Random) -> u16 {
    const RESERVED: [u16; 12] = [3, 5, 6, 7, 8, 9, 10, 11, 12, 13, 14, 15];
    let low = random.next() as u16 & 0x0FFF;
    match random.below(8) {
        0 => 0x1000,
        1 => random.pick(&RESERVED) << 12 | low,
        2 => random.pick(&RESERVED) << 12 | 0x0020,
        3 => 0x4000 | low & 0x0FDF,
        4 => 0x4000 | low & 0x0011,
        5 => low,
        _ => any_word(random),
    }
}

/// Any word but a STOP.
pub fn any_word(random: &mut Random) -> u16 {
    match random.below(12) {
        0 | 1 => random.next() as u16 & 0x0FFF,
        2 | 3 => 0x1000 | random.below(7) as u16,
        4..=6 => 0x2000 | random.below(6) as u16,
        7..=9 => 0x4001 | random.next() as u16 & 0x0FDE,
        10 => 0x4000 | random.next() as u16 & 0x0FDE,
        _ => [0x3, 0x5, 0x8, 0xF][random.below(4) as usize] << 12 | random.next() as u16 & 0x0FFF,
    }
}

/// Such words over bytes of an even length.
pub fn put_any_words(random: &mut Random, bytes: &mut [u8]) {
    for place in bytes.chunks_exact_mut(2) {
        place.copy_from_slice(&any_word(random).to_le_bytes());
    }
}

/// Any word, with each form of its line about as often.
pub fn mixed_word(random: &mut Random) -> u16 {
    let low = random.next() as u16 & 0x0FFF;
    // Numbers of one to four digits.
    let count = random.pick(&[10, 100, 1000, 4096]);
    match random.below(6) {
        0 => low,
        1 => 0x1000 | (low % count),
        2 => 0x2000 | (low % count),
        3 => 0x4000 | low & 0x0031,
        4 => 0x4000 | low,
        _ => random.pick(&[0x3, 0x5, 0x6, 0x7, 0x8, 0xB, 0xE, 0xF]) << 12 | low,
    }
}

/// A text of a listing with one byte changed, put in or taken out.
pub fn changed(random: &mut Random, text: &[u8]) -> Vec<u8> {
    changed_by(random, text, listing_byte)
}

/// A take with one byte changed, put in or taken out.
pub fn changed_take(random: &mut Random, file: &[u8]) -> Vec<u8> {
    changed_by(random, file, take_byte)
}

/// Bytes with one changed, put in or taken out, where the new one is of a sort.
fn changed_by(random: &mut Random, bytes: &[u8], new: fn(&mut Random) -> u8) -> Vec<u8> {
    let mut bytes = bytes.to_vec();
    let at = random.below(bytes.len() as u64) as usize;
    match random.below(3) {
        0 => {
            let old = bytes[at];
            while bytes[at] == old {
                bytes[at] = new(random);
            }
        }
        1 => bytes.insert(at + random.below(2) as usize, new(random)),
        _ => {
            bytes.remove(at);
        }
    }
    bytes
}

/// Any byte, mostly one of a listing's own.
fn listing_byte(random: &mut Random) -> u8 {
    match random.below(8) {
        0 => random.byte(),
        1 => b' ',
        2 => b'\n',
        3 => random.pick(b"+\r-:@Gaf\0\xB2"),
        4 => random.pick(b"LOADPUSERTINW"),
        _ => random.pick(b"0123456789ABCDEF"),
    }
}

/// Records of a take, all of them good.
pub fn any_records(random: &mut Random, count: u64) -> Vec<Record> {
    let mut line = random.either(4, 1 << 32, 3) as u32;
    let mut records = Vec::new();
    for _ in 0..count {
        let step = random.pick(&[0, 0, 0, 1, 5, 312, 100_000]);
        line = line.saturating_add(step);
        records.push(any_record(random, line));
    }
    records
}

/// A good record of a line.
fn any_record(random: &mut Random, line: u32) -> Record {
    let kind = random.pick(&[
        kind::WRITE_BC,
        kind::WRITE_BD,
        kind::WRITE_7F,
        kind::PAGE_WRITE,
        kind::PAGE_WRITE,
        kind::ACKNOWLEDGE,
        kind::UNDO,
        kind::PICTURE_WRITE,
        kind::PICTURE_UNDO,
        kind::START,
        kind::MUTE,
    ]);
    let (address, value) = match kind {
        kind::WRITE_BC | kind::WRITE_BD | kind::WRITE_7F => (0, random.byte()),
        kind::PAGE_WRITE | kind::PICTURE_WRITE => (random.word(), random.byte()),
        kind::MUTE => (any_channel_number(random), random.below(2) as u8),
        _ => (0, 0),
    };
    Record {
        line,
        kind,
        address,
        value,
    }
}

/// Records of which one has a part changed, which makes it bad more often than
/// not.
pub fn spoilt(random: &mut Random, mut records: Vec<Record>) -> Vec<Record> {
    let at = random.below(records.len() as u64) as usize;
    let record = &mut records[at];
    match random.below(4) {
        0 => record.line = random.either(2, 1 << 32, 4) as u32,
        1 => record.kind = random.either(2, 256, 12) as u8,
        2 => record.address ^= 1 << random.below(16),
        _ => record.value ^= 1 << random.below(8),
    }
    records
}

/// A comment, which may look like the end of a take.
pub fn any_comment(random: &mut Random) -> Vec<u8> {
    let mut comment = vec![0; random.either(20, 300, 20) as usize];
    random.fill(&mut comment);
    if random.chance(4) {
        comment.extend(b"\0\0\0\0\0\0\0\0PLTK");
    }
    comment
}

/// Any byte, mostly one that means something in a take.
pub fn take_byte(random: &mut Random) -> u8 {
    match random.below(4) {
        0 => random.byte(),
        1 => random.pick(b"PLTK"),
        _ => random.below(12) as u8,
    }
}
