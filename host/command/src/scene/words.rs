//! The words of which a scene's text is made. A further one is a row here.

use super::text::{shown, split, Making};
use crate::failure::Failure;
use crate::numbers::{decimal, hexadecimal};
use plus::{Table, UNLOCK};
use std::ffi::OsStr;
use std::os::unix::ffi::OsStrExt;
use std::path::{Path, PathBuf};
use std::str;

/// The words of the language: what stands after each, and what it becomes.
pub const WORDS: &[Word] = &[
    word("ram", &[ADDRESS, FILE], |making, line| making.ram(line)),
    word("list", &[ADDRESS, FILE], |making, line| making.list(line)),
    word("pixels", &[FILE], |making, line| making.pixels(line)),
    word("unlock", &[], |making, _| making.each(b'B', &UNLOCK)),
    word("map", &[], |making, _| making.call(b'G', 0, 0xB8)),
    word("poke", &[ADDRESS, BYTE], |making, line| {
        making.call(b'W', line.number(0), line.number(1))
    }),
    // Where nothing can be read the bus is taken to have FFh.
    word("peek", &[ADDRESS], |making, line| {
        making.call(b'R', line.number(0), 0xFF)
    }),
    word("crtc", &[REGISTER, BYTE], |making, line| {
        making.call(b'B', 0, line.number(0))?;
        making.call(b'D', 0, line.number(1))
    }),
    // Bit 4 is 0, so that a waiting raster interrupt stays.
    word("mode", &[MODE], |making, line| {
        making.call(b'G', 0, 0x80 + line.number(0))
    }),
    word("lines", &[LINES, ACCESSES], |making, line| {
        making.lines(line)
    }),
    word("undo", &[], |making, _| making.call(b'U', 0, 0)),
    word("picture poke", &[ADDRESS, BYTE], |making, line| {
        making.call(b'w', line.number(0), line.number(1))
    }),
    word("picture peek", &[ADDRESS], |making, line| {
        making.call(b'r', line.number(0), 0xFF)
    }),
    word("picture undo", &[], |making, _| making.call(b'u', 0, 0)),
    word("table", &[PALETTE, SPRITES, CHANNELS], |making, line| {
        making.table(Table {
            palette: line.number(0),
            sprites: line.number(1) as u16,
            channels: line.number(2) as u8,
        })
    }),
    word("area", &[FROM, UPTO], |making, line| {
        making.area(line.number(0), line.number(1))
    }),
    word("place", &[ADDRESS, LENGTH], |making, line| {
        making.place(line.number(0), line.number(1))
    }),
    word("remove", &[HANDLE], |making, line| {
        making.call(b'X', 0, line.number(0))
    }),
    word("mute", &[CHANNEL], |making, line| {
        making.call(b'Q', line.number(0), 1)
    }),
    word("unmute", &[CHANNEL], |making, line| {
        making.call(b'Q', line.number(0), 0)
    }),
    word("psg", &[], |making, _| making.call(b'H', 0, 0)),
    word("export", &[], |making, _| making.call(b'E', 0, 0)),
    word("acknowledge", &[], |making, _| making.call(b'A', 0, 0)),
    word("draw", &[ACCESSES], |making, line| {
        making.call(b'P', 0, line.number(0))
    }),
    word("forecast", &[ADDRESS, PRESCALE], |making, line| {
        making.call(b'F', line.number(0), line.number(1))
    }),
    word("reset", &[], |making, _| making.call(b'Z', 0, 0)),
];

const ADDRESS: Argument = argument("ADDRESS", "one to four hexadecimal digits", |digits| {
    hexadecimal(digits, 4)
});
const BYTE: Argument = argument("BYTE", "one or two hexadecimal digits", |digits| {
    hexadecimal(digits, 2)
});
/// What the processor does at the 8255, as the value of the runner's `L` and `P` has
/// it.
const ACCESSES: Argument = Argument {
    name: "[BYTE]",
    ..BYTE
};
/// The picture editor's palette entries, sprites and channels, a bit each.
const PALETTE: Argument = argument("PALETTE", "one to eight hexadecimal digits", |digits| {
    hexadecimal(digits, 8)
});
const SPRITES: Argument = Argument {
    name: "SPRITES",
    ..ADDRESS
};
const CHANNELS: Argument = argument("CHANNELS", "a number from 0 to 7", |digits| {
    decimal(digits, 7)
});
/// The bounds of the area for lists.
const FROM: Argument = Argument {
    name: "FROM",
    ..PALETTE
};
const UPTO: Argument = Argument {
    name: "UPTO",
    ..PALETTE
};
const LENGTH: Argument = argument("LENGTH", "a number from 0 to 65535", |digits| {
    decimal(digits, 65_535)
});
const HANDLE: Argument = argument("HANDLE", "a number from 0 to 255", |digits| {
    decimal(digits, 255)
});
/// One that there is not is the chip's to refuse.
const CHANNEL: Argument = Argument {
    name: "CHANNEL",
    ..LENGTH
};
const REGISTER: Argument = argument("REGISTER", "a number from 0 to 31", |digits| {
    decimal(digits, 31)
});
const MODE: Argument = argument("N", "a number from 0 to 3", |digits| decimal(digits, 3));
const LINES: Argument = argument("N", "a number from 0 to 1000000", |digits| {
    decimal(digits, 1_000_000)
});
const PRESCALE: Argument = argument("PRESCALE", "a number from 0 to 255", |digits| {
    decimal(digits, 255)
});
/// The rest of the line, since a name may have blanks.
const FILE: Argument = argument("FILE", "a file's name", |_| None);

/// A word of the language, or two.
pub struct Word {
    pub name: &'static str,
    arguments: &'static [Argument],
    pub make: fn(&mut Making, &Line) -> Result<(), Failure>,
}

const fn word(
    name: &'static str,
    arguments: &'static [Argument],
    make: fn(&mut Making, &Line) -> Result<(), Failure>,
) -> Word {
    Word {
        name,
        arguments,
        make,
    }
}

/// What a word takes: its name, in brackets if it may be left out, and its form.
#[derive(Clone, Copy)]
struct Argument {
    name: &'static str,
    form: &'static str,
    parse: fn(&str) -> Option<u32>,
}

const fn argument(
    name: &'static str,
    form: &'static str,
    parse: fn(&str) -> Option<u32>,
) -> Argument {
    Argument { name, form, parse }
}

/// A line's numbers, in their order, and the file that it names.
#[derive(Default)]
pub struct Line {
    numbers: Vec<u32>,
    pub file: PathBuf,
}

impl Line {
    pub fn number(&self, place: usize) -> u32 {
        self.numbers.get(place).copied().unwrap_or(0)
    }
}

impl Word {
    /// What stands behind the word on a line that begins with it.
    pub fn behind<'a>(&self, line: &'a [u8]) -> Option<&'a [u8]> {
        self.name.split(' ').try_fold(line, |line, part| {
            let (first, rest) = split(line);
            (first == part.as_bytes()).then_some(rest)
        })
    }

    /// What stands behind the word taken apart, with its file in a folder. Or why
    /// it isn't what the word takes.
    pub fn parsed(&self, folder: &Path, rest: &[u8]) -> Result<Line, String> {
        self.line(folder, rest).map_err(|why| {
            let names: Vec<&str> = self.arguments.iter().map(|a| a.name).collect();
            let takes = match &names[..] {
                [] => "nothing".to_string(),
                names => names.join(" "),
            };
            format!("{} takes {takes}, and {why}", self.name)
        })
    }

    fn line(&self, folder: &Path, mut rest: &[u8]) -> Result<Line, String> {
        let mut line = Line::default();
        for argument in self.arguments {
            let (name, form) = (argument.name.trim_matches(['[', ']']), argument.form);
            if rest.is_empty() {
                if argument.name == name {
                    return Err(format!("{name} is missing, {form}"));
                }
            } else if name == FILE.name {
                line.file = folder.join(OsStr::from_bytes(rest));
                rest = &[];
            } else {
                let (digits, after) = split(rest);
                let number = str::from_utf8(digits).ok().and_then(argument.parse);
                let wrong = || format!("'{}' is no {name}, {form}", shown(digits));
                line.numbers.push(number.ok_or_else(wrong)?);
                rest = after;
            }
        }
        match rest {
            [] => Ok(line),
            _ => Err(format!("'{}' is too much", shown(rest))),
        }
    }
}
