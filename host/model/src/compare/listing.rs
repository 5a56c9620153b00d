//! The printer and the reader compared: the same words and the same texts given
//! to the core and to another machine, with what they answer and leave in the
//! whole buffer compared.

use crate::machine::Machine;
use crate::random::{changed, mixed_word, Random};
use plus::listing::{self, ReadBack};

/// How often reading a changed text gave each answer number.
pub type Answers = [u64; 9];

/// Every word printed and read back by itself.
pub fn each_word<M: Machine>() -> Result<(), String> {
    (0..=0xFFFF).try_for_each(|word| list::<M>(&[word]).map(drop))
}

/// Random lists printed and read back, and then the text of each with one byte
/// changed, put in or taken out.
pub fn changed_texts<M: Machine>(count: u64, seed: u64) -> Result<Answers, String> {
    let mut random = Random::new(seed);
    let mut answers = Answers::default();
    for _ in 0..count {
        let length = random.either(50, 100, 6) as usize;
        let mut words = vec![mixed_word(&mut random)];
        words.resize_with(1 + length, || mixed_word(&mut random));
        let text = changed(&mut random, &list::<M>(&words)?);
        let back = read::<M>(&text, length + random.below(3) as usize)?;
        answers[back.answer as usize] += 1;
    }
    Ok(answers)
}

/// A list printed and read back, each with just its room, with one place more
/// and with one too few. Gives its text.
fn list<M: Machine>(words: &[u16]) -> Result<Vec<u8>, String> {
    let text = listing::text_of(words);
    for room in text.len() - 1..=text.len() + 1 {
        print::<M>(words, room)?;
    }
    for room in words.len() - 1..=words.len() + 1 {
        read::<M>(&text, room)?;
    }
    Ok(text)
}

/// Prints on both, with so much room.
fn print<M: Machine>(words: &[u16], room: usize) -> Result<(), String> {
    let (mut core, mut other) = (vec![0xEE; room], vec![0xEE; room]);
    let printed = listing::print(words, &mut core);
    let expected = M::print(words, &mut other);
    if (printed, &core) == (expected, &other) {
        return Ok(());
    }
    let (text, not) = (core.escape_ascii(), other.escape_ascii());
    Err(format!(
        "{words:04X?}: core gives {printed:?} {text}\nand not {expected:?} {not}"
    ))
}

/// Reads on both, with so much room, and gives what they answer.
fn read<M: Machine>(text: &[u8], room: usize) -> Result<ReadBack, String> {
    let (mut core, mut other) = (vec![0xEEEE; room], vec![0xEEEE; room]);
    let read = listing::read(text, &mut core);
    let expected = M::read(text, &mut other);
    if (read, &core) == (expected, &other) {
        return Ok(read);
    }
    let text = text.escape_ascii();
    Err(format!(
        "{text}: core gives {read:?} {core:04X?}\nand not {expected:?} {other:04X?}"
    ))
}
