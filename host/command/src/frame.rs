//! A whole frame in colour.

use crate::player::Player;
use plus::{Access, Answer, LINE};

/// The most lines that a frame can have: 128 rows of 32, and 31 of adjust.
const LONGEST: usize = 128 * 32 + 31;

/// Rows of pixels, three bytes each: red, green, blue.
pub type Rows = Vec<Vec<u8>>;

/// The whole frame after this one, each position in its colour. The number that a
/// line answered, if it was refused.
pub fn next_frame(player: &mut Player) -> Result<Rows, Answer> {
    let mut entries = [0; LINE];
    // A row can be past its last line, which takes a wrap of 32 lines more.
    for _ in 0..32 + LONGEST {
        if line(player, &mut entries)? {
            break;
        }
    }
    let mut rows = Rows::new();
    for _ in 0..LONGEST {
        let ended = line(player, &mut entries)?;
        rows.push(entries.iter().flat_map(|&e| colour(player, e)).collect());
        if ended {
            break;
        }
    }
    Ok(rows)
}

/// One line, drawn and stepped. Whether it ended the frame: VC and RC also wrap to 0,
/// which ends none.
fn line(player: &mut Player, entries: &mut [u8; LINE]) -> Result<bool, Answer> {
    let before = player.chip.crtc;
    player.line(entries, [Access::Off; 3]).0.served()?;
    let (old, new) = (before.counters, player.chip.crtc.counters);
    let last_row = old.vc == before.registers.r4 && old.rc == before.registers.r9;
    let first_line = (new.vc, new.rc, new.adjust) == (0, 0, false);
    Ok(first_line && (old.adjust || last_row))
}

/// A palette entry's red, green and blue, 4 bits each made 8.
fn colour(player: &Player, entry: u8) -> [u8; 3] {
    let at = 2 * usize::from(entry);
    let (low, high) = (player.chip.palette[at], player.chip.palette[at + 1]);
    [low >> 4, high & 15, low & 15].map(|part| part * 17)
}
