//! The line of text for what a record gave, as the proved runner prints it.

use crate::player::Outcome;
use plus::{kind, Answer, Length, Placed, Report};
use std::fmt;

/// The line for input that ends early.
pub const SHORT: &str = "short";

impl fmt::Display for Outcome {
    fn fmt(&self, f: &mut fmt::Formatter) -> fmt::Result {
        match self {
            Outcome::Answer(answer) => write!(f, "{}", answer.number()),
            Outcome::Byte(answer, byte) => write!(f, "{} {byte}", answer.number()),
            Outcome::Placed(answer, placed) => {
                let Placed { address, handle } = placed;
                write!(f, "{} {address} {handle}", answer.number())
            }
            Outcome::Line(answer, report) => {
                write!(f, "{} ", answer.number())?;
                reported(f, report)
            }
            Outcome::Shown(Answer::Done, line, report) => {
                drawn(f, &line[..])?;
                reported(f, report)
            }
            Outcome::Exported(Answer::Done, out) => shown(f, &out[..]),
            Outcome::Psg(registers) => shown(f, registers),
            Outcome::Shown(answer, ..) | Outcome::Exported(answer, _) => {
                write!(f, "{}", answer.number())
            }
            Outcome::Forecast(told) => forecast(f, told),
            Outcome::Bad => f.write_str("bad"),
        }
    }
}

/// The cycles, and for each channel a dash or the kind and low 12 bits of its word.
fn reported(f: &mut fmt::Formatter, report: &Report) -> fmt::Result {
    write!(f, "{}", report.cycles)?;
    for (&kind, low) in report.kinds.iter().zip(report.lows) {
        match kind {
            kind::SAT_OUT => f.write_str(" -")?,
            kind => write!(f, " {} {low}", name_of(kind))?,
        }
    }
    Ok(())
}

fn name_of(kind: u8) -> &'static str {
    match kind {
        kind::LOAD => "load",
        kind::PAUSE => "pause",
        kind::REPEAT => "repeat",
        kind::CONTROL => "control",
        _ => "nothing",
    }
}

/// The answer, a character for each palette entry, 0 to 9 and then a to v, and a
/// blank.
fn drawn(f: &mut fmt::Formatter, line: &[u8]) -> fmt::Result {
    let character = |&entry: &u8| char::from_digit(entry.into(), 32).unwrap_or('?');
    let text: String = line.iter().map(character).collect();
    write!(f, "{} {text} ", Answer::Done.number())
}

/// The answer, and the bytes.
fn shown(f: &mut fmt::Formatter, bytes: &[u8]) -> fmt::Result {
    write!(f, "{} {}", Answer::Done.number(), digits(bytes))
}

/// Two hexadecimal digits a byte.
pub fn digits(bytes: &[u8]) -> String {
    bytes.iter().map(|byte| format!("{byte:02x}")).collect()
}

/// The answer, lines, the least cycles, how many bytes the list has, and the most
/// cycles.
fn forecast(f: &mut fmt::Formatter, told: &Length) -> fmt::Result {
    let Length {
        answer,
        lines,
        cycles,
        most,
        length,
        ..
    } = told;
    let number = answer.number();
    write!(f, "{number} {lines} {cycles} {length} {most}")
}
