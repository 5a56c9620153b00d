//! Mended words played beside the old ones, line by line from a fresh channel: until
//! a STOP is executed, or the old words are at their end.

use crate::machine::Machine;
use crate::random::{any_accesses, drawable_state, old_list, Random};
use crate::under_test::{put_words, UnderTest};
use plus::mend::CHANGE;
use plus::{kind, Access, Answer, Channel, Report, RAM};

/// What was played: lists up to their first STOP, and up to the end of the words in
/// use; their lines, and how many of these had a LOAD and an INT; and how many
/// forecasts were compared.
#[derive(Clone, Copy, Debug, Default)]
pub struct Tally {
    pub stopped: u64,
    pub ended: u64,
    pub lines: u64,
    pub loads: u64,
    pub ints: u64,
    pub forecasts: u64,
}

/// So many lines of a list are played.
const LINES: u64 = 3_000;

/// Random lists played on a machine beside what mending makes of them there.
pub fn lists<M: Machine>(count: u64, seed: u64) -> Result<Tally, String> {
    let mut tally = Tally::default();
    let mut random = Random::new(seed);
    let mut rams = [vec![0; RAM], vec![0; RAM]];
    for n in 0..count {
        if n % 64 == 0 {
            rams.iter_mut().for_each(|ram| random.fill(ram));
        }
        let list = List::new::<M>(&mut random, &mut rams);
        let same = tally
            .play::<M>(&mut random, &list)
            .and_then(|()| tally.forecast::<M>(&mut random, &list));
        if let Err(how) = same {
            let List { words, mended, .. } = list;
            return Err(format!("{words:04X?} mended as {mended:04X?}: {how}"));
        }
    }
    Ok(tally)
}

/// A list, what it is mended to, and where both stand: each in a RAM that has nothing
/// else in common with the other's.
struct List<'a> {
    words: Vec<u16>,
    mended: Vec<u16>,
    start: usize,
    rams: &'a [Vec<u8>; 2],
}

impl<'a> List<'a> {
    fn new<M: Machine>(random: &mut Random, rams: &'a mut [Vec<u8>; 2]) -> List<'a> {
        let words = old_list(random);
        let mut mended = [&words[..], &[0]].concat();
        let mut report = vec![0; CHANGE * mended.len()];
        let used = M::mend(&mut mended, words.len(), &mut report).used;
        mended.truncate(used);
        // Anywhere, or just before the end of RAM.
        let room = (RAM / 2 - used) as u64;
        let anywhere = random.below(room + 1);
        let start = 2 * random.pick(&[anywhere, room]) as usize;
        put_words(&mut rams[0], start, &words);
        put_words(&mut rams[1], start, &mended);
        List {
            words,
            mended,
            start,
            rams,
        }
    }

    /// Whether the words in use end before an address.
    fn ends_before(&self, address: u16) -> bool {
        usize::from(address) >= self.start + 2 * self.words.len()
    }
}

impl Tally {
    /// Plays both from a fresh channel, line by line.
    fn play<M: Machine>(&mut self, random: &mut Random, list: &List) -> Result<(), String> {
        let mut pair = Pair::<M>::new(random, list.start as u16);
        for _ in 0..LINES {
            let before = pair.channel()?;
            let [old, mended] = pair.line(list.rams, any_accesses(random));
            if old.executed && list.ends_before(before.address) {
                self.ended += 1;
                return mended.stop.then_some(()).ok_or("it goes on".to_string());
            }
            if old != mended {
                return Err(format!("{before:?}: {old:?} and {mended:?}"));
            }
            pair.channel()?;
            self.lines += 1;
            self.loads += u64::from(old.load.is_some());
            self.ints += u64::from(old.int);
            if old.stop {
                self.stopped += 1;
                return Ok(());
            }
        }
        Ok(())
    }

    /// A list that has a STOP is forecast as before.
    fn forecast<M: Machine>(&mut self, random: &mut Random, list: &List) -> Result<(), String> {
        if list.mended.len() > list.words.len() {
            return Ok(());
        }
        let (start, prescale) = (list.start as u16, random.byte());
        let [old, mended] = [0, 1].map(|n| M::forecast(&list.rams[n], start, prescale));
        self.forecasts += 1;
        match old == mended && old.answer == Answer::Done {
            true => Ok(()),
            false => Err(format!("{old:?} and {mended:?}")),
        }
    }
}

/// What a channel did on a line: whether it executed a word, the register and data
/// of a LOAD, whether there was an INT or a STOP; and if no other channel is on, the
/// PSG after it and the cycles.
#[derive(Clone, Debug, PartialEq, Eq)]
struct Deed {
    executed: bool,
    load: Option<u16>,
    int: bool,
    stop: bool,
    alone: Option<([u8; 16], u8)>,
}

/// Two chips whose channel `n` is the same: the one plays the old words, the other
/// the mended ones. The others are off, with the same PSG, or else as they like.
struct Pair<M> {
    n: usize,
    alone: bool,
    chips: [M; 2],
}

impl<M: Machine> Pair<M> {
    /// With a fresh channel at the start.
    fn new(random: &mut Random, start: u16) -> Pair<M> {
        let (n, alone) = (random.below(3) as usize, random.chance(2));
        let mut states = [drawable_state(random), drawable_state(random)];
        let fresh = Channel {
            enabled: true,
            address: start,
            pause: 0,
            counter: 0,
            prescale: random.either(8, 256, 3) as u8,
            muted: false,
            ..states[0].sound.channels[n]
        };
        if alone {
            for other in &mut states[0].sound.channels {
                other.enabled = false;
            }
            states[1].sound = states[0].sound;
        }
        let chips = states.map(|mut state| {
            state.sound.channels[n] = fresh;
            let mut chip = M::new();
            chip.put(state);
            chip
        });
        Pair { n, alone, chips }
    }

    /// The channel, which is the same of both.
    fn channel(&self) -> Result<Channel, String> {
        let channel = |chip: &M| chip.state().sound.channels[self.n];
        let (old, mended) = (channel(&self.chips[0]), channel(&self.chips[1]));
        match old == mended {
            true => Ok(old),
            false => Err(format!("{old:?} and {mended:?}")),
        }
    }

    /// A line of both.
    fn line(&mut self, rams: &[Vec<u8>; 2], accesses: [Access; 3]) -> [Deed; 2] {
        [0, 1].map(|which| {
            let chip = &mut self.chips[which];
            let (answer, report) = chip.step(&rams[which], accesses);
            assert_eq!(answer, Answer::Done);
            let alone = self.alone.then(|| (chip.state().sound.psg, report.cycles));
            Deed::of(&report, self.n, alone)
        })
    }
}

impl Deed {
    fn of(report: &Report, n: usize, alone: Option<([u8; 16], u8)>) -> Deed {
        let (done, low) = (report.kinds[n], report.lows[n]);
        let control = |bit: u16| done == kind::CONTROL && low & bit != 0;
        Deed {
            executed: done != kind::SAT_OUT,
            load: (done == kind::LOAD).then_some(low),
            int: control(0x010),
            stop: control(0x020),
            alone,
        }
    }
}
