//! Faults of lists placed in RAM.

use crate::machine::Fault;
use plus::{Answer, Area, Channel, Chip, List, Placed, Table, RAM};

type Give = fn(&mut Chip, u32, u32) -> Answer;
type Place = fn(&mut Chip, &mut [u8], &[u8]) -> (Answer, Placed);
type Remove = fn(&mut Chip, u32) -> Answer;

/// A fault of giving the area: the call in its place.
macro_rules! areas {
    ($($(#[$about:meta])* $fault:ident: $give:expr;)+) => {$(
        $(#[$about])*
        pub struct $fault;

        impl Fault for $fault {
            fn area(chip: &mut Chip, from: u32, upto: u32) -> Answer {
                let give: Give = $give;
                give(chip, from, upto)
            }
        }
    )+};
}

/// A fault of placing: the call in its place.
macro_rules! places {
    ($($(#[$about:meta])* $fault:ident: $place:expr;)+) => {$(
        $(#[$about])*
        pub struct $fault;

        impl Fault for $fault {
            fn place(chip: &mut Chip, ram: &mut [u8], list: &[u8]) -> (Answer, Placed) {
                let place: Place = $place;
                place(chip, ram, list)
            }
        }
    )+};
}

/// A fault of where a list goes, by the gaps that are long enough, of which there is
/// one: the address in the place of the lowest, if there is one.
macro_rules! addresses {
    ($($(#[$about:meta])* $fault:ident: $address:expr;)+) => {
        places! {$(
            $(#[$about])*
            $fault: |chip, ram, list| {
                if trial(chip, ram, list).0 != Answer::Done {
                    return chip.place(ram, list);
                }
                let bytes = list.len() as u32;
                let mut gaps = gaps(chip);
                gaps.retain(|gap| gap.upto - gap.from >= bytes);
                let address: fn(&Chip, &[Gap], u32) -> Option<u32> = $address;
                match address(chip, &gaps, bytes) {
                    Some(address) => place_at(chip, ram, list, address),
                    None => nowhere(Answer::NoGap),
                }
            };
        )+}
    };
}

/// A fault of removing: the call in its place.
macro_rules! removals {
    ($($(#[$about:meta])* $fault:ident: $remove:expr;)+) => {$(
        $(#[$about])*
        pub struct $fault;

        impl Fault for $fault {
            fn remove(chip: &mut Chip, handle: u32) -> Answer {
                let remove: Remove = $remove;
                remove(chip, handle)
            }
        }
    )+};
}

/// A fault of what is in use: each channel as it is taken for.
macro_rules! uses {
    ($($(#[$about:meta])* $fault:ident: $taken:expr;)+) => {
        removals! {$(
            $(#[$about])*
            $fault: |chip, handle| {
                let list = chip.lists().find(|list| list.handle == handle);
                let taken: fn(&mut Channel, Option<List>) = $taken;
                beside(chip, |channel| taken(channel, list), |chip| chip.remove(handle))
            };
        )+}
    };
}

/// Room between lists, from one address up to another.
#[derive(Clone, Copy)]
struct Gap {
    from: u32,
    upto: u32,
}

/// An answer with no list.
fn nowhere(answer: Answer) -> (Answer, Placed) {
    (answer, Placed::default())
}

/// What the core would answer, with everything left as it is.
fn trial(chip: &Chip, ram: &[u8], list: &[u8]) -> (Answer, Placed) {
    chip.clone().place(&mut ram.to_vec(), list)
}

/// The gaps of the area by rising addresses, some of which are of no length.
fn gaps(chip: &Chip) -> Vec<Gap> {
    let (from, upto) = chip.bounds().unwrap_or_default();
    let mut lists: Vec<List> = chip.lists().collect();
    lists.sort_by_key(|list| list.address);
    let ends = lists.iter().map(|list| list.address + list.length);
    let starts = lists.iter().map(|list| list.address);
    let begun = [from].into_iter().chain(ends);
    let ended = starts.chain([upto]);
    let gap = |(from, upto)| Gap { from, upto };
    begun.zip(ended).map(gap).collect()
}

/// Places a list at an address where it fits: it is the only one in an area that is
/// just as long.
fn place_at(chip: &mut Chip, ram: &mut [u8], list: &[u8], address: u32) -> (Answer, Placed) {
    let Area { from, upto, .. } = chip.editing.lists;
    let end = address + list.len() as u32;
    chip.editing.lists.from = (address / 2) as u16;
    chip.editing.lists.upto = (end / 2) as u16;
    let placed = chip.place(ram, list);
    (chip.editing.lists.from, chip.editing.lists.upto) = (from, upto);
    placed
}

/// A call beside channels that are taken for others.
fn beside(
    chip: &mut Chip,
    taken: impl Fn(&mut Channel),
    call: impl FnOnce(&mut Chip) -> Answer,
) -> Answer {
    let sound = chip.sound;
    chip.sound.channels.iter_mut().for_each(taken);
    let answer = call(chip);
    chip.sound = sound;
    answer
}

areas! {
    /// Odd bounds are brought down to even ones.
    OddBoundsTaken: |chip, from, upto| chip.area(from & !1, upto & !1);

    /// An area of nothing is served.
    EmptyAreaServed: |chip, from, upto| {
        let first = chip.bounds().is_none();
        match first && from == upto && from % 2 == 0 && from <= RAM as u32 {
            true => Answer::Done,
            false => chip.area(from, upto),
        }
    };

    /// Bounds are taken in either order.
    ReversedTaken: |chip, from, upto| chip.area(from.min(upto), from.max(upto));

    /// A bound above the end of RAM is brought down to it.
    HighBoundTaken: |chip, from, upto| chip.area(from, upto.min(RAM as u32));

    /// Of bounds 16 bits count, and all of them 0 is the end of RAM.
    BoundsBy16Bits: |chip, from, upto| {
        chip.area(from & 0xFFFF, (upto.wrapping_sub(1) & 0xFFFF) + 1)
    };

    /// No area goes up to the end of RAM.
    EndOfRamRefused: |chip, from, upto| match upto as usize {
        RAM => Answer::WrongArea,
        _ => chip.area(from, upto),
    };

    /// A second area takes the place of the first one, whose lists stay.
    GivenTwice: |chip, from, upto| {
        let before = chip.editing.lists;
        chip.editing.lists = Area::default();
        let answer = chip.area(from, upto);
        match answer {
            Answer::Done => chip.editing.lists.used = before.used,
            _ => chip.editing.lists = before,
        }
        answer
    };

    /// One that is refused stands all the same, as all of RAM.
    RefusedAreaStands: |chip, from, upto| {
        let answer = chip.area(from, upto);
        if answer != Answer::Done {
            let _ = chip.area(0, RAM as u32);
        }
        answer
    };
}

/// A reset leaves the area and its lists.
pub struct ListsThroughReset;

impl Fault for ListsThroughReset {
    fn reset(chip: &mut Chip) {
        let lists = chip.editing.lists;
        chip.reset();
        chip.editing.lists = lists;
    }
}

/// A start forgets the area and its lists.
pub struct ListsLostByStart;

impl Fault for ListsLostByStart {
    fn start(chip: &mut Chip, table: Table) -> Answer {
        let answer = chip.start(table);
        chip.editing.lists = Area::default();
        answer
    }
}

addresses! {
    /// A list that ends where another begins is in its way, and one behind its end.
    TouchingIsOverlap: |chip, gaps, bytes| {
        let (from, upto) = chip.bounds()?;
        let inner = |gap: &Gap| Gap {
            from: if gap.from == from { from } else { gap.from + 2 },
            upto: if gap.upto == upto { upto } else { gap.upto - 2 },
        };
        let mut inner = gaps.iter().map(inner);
        let found = inner.find(|gap| gap.from + bytes <= gap.upto);
        found.map(|gap| gap.from)
    };

    /// Of two gaps and more the second is taken.
    SecondGap: |_, gaps, _| gaps.get(1).or(gaps.first()).map(|gap| gap.from);

    /// The highest address is taken.
    HighestAddress: |_, gaps, bytes| gaps.last().map(|gap| gap.upto - bytes);

    /// The shortest gap is taken.
    ShortestGap: |_, gaps, _| {
        let shortest = gaps.iter().min_by_key(|gap| gap.upto - gap.from);
        shortest.map(|gap| gap.from)
    };
}

places! {
    /// A list of an odd length is placed, without its last byte.
    OddLengthPlaced: |chip, ram, list| chip.place(ram, &list[..list.len() & !1]);

    /// A list of no bytes is placed where the area begins.
    EmptyListServed: |chip, ram, list| match chip.bounds() {
        Some((address, _)) if list.is_empty() && ram.len() == RAM => {
            (Answer::Done, Placed { address, handle: 0 })
        }
        _ => chip.place(ram, list),
    };

    /// A list longer than the area is refused as if there were no gap.
    TooLongAsNoGap: |chip, ram, list| match (chip.place(ram, list), chip.bounds()) {
        ((Answer::WrongArea, _), Some((from, upto)))
            if list.len() % 2 == 0 && list.len() > (upto - from) as usize =>
        {
            nowhere(Answer::NoGap)
        }
        (placed, _) => placed,
    };

    /// 18 is tested before 1.
    LengthBeforeRam: |chip, ram, list| match trial(chip, &[0; RAM], list) {
        (Answer::WrongArea, _) => nowhere(Answer::WrongArea),
        _ => chip.place(ram, list),
    };

    /// RAM may be longer than it is.
    LongerRamTaken: |chip, ram, list| match ram.get_mut(..RAM) {
        Some(ram) => chip.place(ram, list),
        None => chip.place(ram, list),
    };

    /// 20 is tested before 19.
    GapBeforeHandles: |chip, ram, list| {
        let fits = |gap: &Gap| (gap.upto - gap.from) as usize >= list.len();
        match chip.place(ram, list) {
            (Answer::AllPlaced, _) if !gaps(chip).iter().any(fits) => nowhere(Answer::NoGap),
            placed => placed,
        }
    };

    /// The last handle is never given.
    HandlesTo62: |chip, ram, list| match trial(chip, ram, list) {
        (Answer::Done, Placed { handle: 63, .. }) => nowhere(Answer::AllPlaced),
        _ => chip.place(ram, list),
    };

    /// A gap that is a word short is long enough: the last word goes over what follows.
    GapOneWordShort: |chip, ram, list| {
        let short = &list[..list.len().saturating_sub(2)];
        match (trial(chip, ram, short), trial(chip, ram, list)) {
            ((Answer::Done, lower), whole)
                if whole != (Answer::Done, lower) && lower.address as usize + list.len() <= RAM =>
            {
                let placed = chip.place(ram, short);
                ram[lower.address as usize..][..list.len()].copy_from_slice(list);
                placed
            }
            _ => chip.place(ram, list),
        }
    };

    /// The word at the higher bound is the area's too.
    UpperBoundUsed: |chip, ram, list| match chip.place(ram, list) {
        (Answer::NoGap, _) if chip.bounds().is_some_and(|(_, upto)| upto < RAM as u32) => {
            chip.editing.lists.upto += 1;
            let placed = chip.place(ram, list);
            chip.editing.lists.upto -= 1;
            placed
        }
        placed => placed,
    };

    /// The last word below the higher bound is not the area's.
    LastWordUnused: |chip, ram, list| match trial(chip, ram, list) {
        (Answer::Done, Placed { address, .. })
            if chip.bounds().is_some_and(|(_, upto)| address + list.len() as u32 == upto) =>
        {
            nowhere(Answer::NoGap)
        }
        _ => chip.place(ram, list),
    };

    /// The handle after the lowest free one is given.
    NextHandle: |chip, ram, list| {
        let mut after = chip.clone();
        let (answer, _) = after.place(&mut ram.to_vec(), list);
        let is_free = |&at: &u32| {
            let mut lists = after.lists();
            !lists.any(|list| (list.address..list.address + list.length).contains(&at))
        };
        let spare = (0..RAM as u32).step_by(2).find(is_free);
        let (Answer::Done, Some(spare)) = (answer, spare) else {
            return chip.place(ram, list);
        };
        // A word holds the lowest handle meanwhile.
        let mut held = chip.clone();
        let (_, Placed { handle, .. }) = place_at(&mut held, &mut ram.to_vec(), &[0; 2], spare);
        match held.place(ram, list) {
            (Answer::Done, placed) => {
                *chip = held;
                chip.editing.lists.used &= !(1 << handle);
                (Answer::Done, placed)
            }
            _ => chip.place(ram, list),
        }
    };

    /// Handles are told from 1.
    HandlesFrom1: |chip, ram, list| match chip.place(ram, list) {
        (Answer::Done, Placed { address, handle }) => {
            let handle = handle + 1;
            (Answer::Done, Placed { address, handle })
        }
        refused => refused,
    };

    /// A list that has no gap is told the handle that it would have had.
    HandleThoughRefused: |chip, ram, list| {
        let handle = chip.editing.lists.used.trailing_ones();
        match chip.place(ram, list) {
            (Answer::NoGap, _) => (Answer::NoGap, Placed { address: 0, handle }),
            placed => placed,
        }
    };

    /// A list that has no handle is told where the area begins.
    AddressThoughRefused: |chip, ram, list| match (chip.place(ram, list), chip.bounds()) {
        ((Answer::AllPlaced, _), Some((address, _))) => {
            (Answer::AllPlaced, Placed { address, handle: 0 })
        }
        (placed, _) => placed,
    };

    /// A list that has no gap is copied to the lower bound.
    CopiedThoughRefused: |chip, ram, list| match (chip.place(ram, list), chip.bounds()) {
        ((Answer::NoGap, placed), Some((from, _))) => {
            ram[from as usize..][..list.len()].copy_from_slice(list);
            (Answer::NoGap, placed)
        }
        (placed, _) => placed,
    };

    /// The word behind a list is cleared.
    WordBehindCleared: |chip, ram, list| {
        let (answer, placed) = chip.place(ram, list);
        let end = placed.address as usize + list.len();
        if answer == Answer::Done && end < RAM {
            ram[end..end + 2].fill(0);
        }
        (answer, placed)
    };

    /// The last byte of a list is not copied.
    LastByteLost: |chip, ram, list| {
        let before = ram.to_vec();
        let (answer, placed) = chip.place(ram, list);
        let end = placed.address as usize + list.len();
        if answer == Answer::Done {
            ram[end - 1] = before[end - 1];
        }
        (answer, placed)
    };

    /// The bytes of each word are swapped on the way.
    WordsSwapped: |chip, ram, list| {
        let swapped: Vec<u8> = list.chunks(2).flat_map(|word| word.iter().rev()).copied().collect();
        chip.place(ram, &swapped)
    };
}

uses! {
    /// The address of a channel that has no pass left is not asked.
    AddressNotAsked: |channel, _| channel.enabled &= channel.counter > 0;

    /// A channel at the list's first word does not use it.
    StartNotAsked: |channel, list| {
        let at_start = list.is_some_and(|list| u32::from(channel.address) == list.address);
        channel.enabled &= !at_start;
    };

    /// A channel at the word behind the list uses it.
    EndAsked: |channel, list| {
        let end = list.map(|list| list.address + list.length);
        if end == Some(channel.address.into()) {
            channel.address -= 2;
        }
    };

    /// The mark itself is not asked.
    MarkNotAsked: |channel, _| {
        channel.mark = match channel.mark < channel.address {
            true => channel.mark + 2,
            false => channel.address,
        }
    };

    /// Neither the mark nor a word between is asked.
    LoopNotAsked: |channel, _| channel.counter = 0;

    /// The mark is asked of a channel that has no pass left.
    CounterNotAsked: |channel, _| channel.counter = channel.counter.max(1);

    /// Words are asked from the address up to a mark above it too.
    MarkAboveAsked: |channel, _| {
        let Channel { address, mark, .. } = *channel;
        if channel.counter > 0 && mark > address {
            (channel.address, channel.mark) = (mark, address);
        }
    };

    /// A channel that is off uses a list.
    UsedWhileOff: |channel, _| channel.enabled = true;
}

removals! {
    /// Of a loop its mark and its address are asked, and no word between.
    WordsNotAsked: |chip, handle| {
        let at_mark = |channel: &mut Channel| {
            channel.enabled &= channel.counter > 0;
            channel.address = channel.mark;
        };
        let mut trial = chip.clone();
        if beside(&mut trial, at_mark, |chip| chip.remove(handle)) == Answer::ListInUse {
            return Answer::ListInUse;
        }
        beside(chip, |channel| channel.counter = 0, |chip| chip.remove(handle))
    };

    /// Channel 0 alone is asked.
    OneChannelAsked: |chip, handle| {
        let sound = chip.sound;
        (chip.sound.channels[1].enabled, chip.sound.channels[2].enabled) = (false, false);
        let answer = chip.remove(handle);
        chip.sound = sound;
        answer
    };

    /// 22 is tested before 21, by where the handle's last list was.
    UseBeforeHandle: |chip, handle| {
        let mut placed = chip.clone();
        placed.editing.lists.used |= 1 << (handle & 63);
        match (chip.remove(handle), placed.remove(handle)) {
            (Answer::NoHandle, Answer::ListInUse) => Answer::ListInUse,
            (answer, _) => answer,
        }
    };

    /// Before an area is given no handle has a list.
    NoAreaAsNoHandle: |chip, handle| match chip.remove(handle) {
        Answer::WrongArea => Answer::NoHandle,
        answer => answer,
    };

    /// Of a handle 6 bits count.
    HandleBy6Bits: |chip, handle| chip.remove(handle & 63);

    /// A removed list keeps its handle and its room.
    RemovedHandleKept: |chip, handle| {
        let lists = chip.editing.lists;
        let answer = chip.remove(handle);
        chip.editing.lists = lists;
        answer
    };

    /// A list in use is removed, and refused.
    RemovedThoughRefused: |chip, handle| {
        let answer = chip.remove(handle);
        if answer == Answer::ListInUse {
            chip.editing.lists.used &= !(1 << handle);
        }
        answer
    };
}
