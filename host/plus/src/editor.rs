//! The two editors, and the table of which of them may write what.

/// Who makes a page read, a page write or an undo.
///
/// Its number is that of the C interface, where any above 1 is the picture editor
/// too:
///
/// ```
/// # use plus::Editor;
/// assert_eq!(Editor::from(0), Editor::Song);
/// assert_eq!([1, 2, 255].map(Editor::from), [Editor::Picture; 3]);
/// ```
#[repr(u8)]
#[derive(Clone, Copy, Debug, PartialEq, Eq, PartialOrd, Ord, Hash)]
pub enum Editor {
    /// The song editor.
    Song = 0,
    /// The picture editor.
    Picture = 1,
}

impl Editor {
    /// Both, each at its number's place.
    pub const BOTH: [Editor; 2] = [Editor::Song, Editor::Picture];

    /// The other one.
    pub const fn other(self) -> Editor {
        match self {
            Editor::Song => Editor::Picture,
            Editor::Picture => Editor::Song,
        }
    }
}

impl From<u8> for Editor {
    fn from(number: u8) -> Editor {
        match number {
            0 => Editor::Song,
            _ => Editor::Picture,
        }
    }
}

/// How many bytes a table has in a file.
pub const TABLE: usize = 7;

/// Which editor may write what: bit n is palette entry, sprite or channel n, and
/// set for the picture editor. Every number is a table; of the channels 3 bits
/// count.
///
/// In a file it has [`TABLE`] bytes: four for the palette entries, two for the
/// sprites and one for the channels, low byte first.
///
/// ```
/// use plus::Table;
///
/// let table = Table { palette: 0xFFFE_0000, sprites: 0x00FF, channels: 0b100 };
/// assert_eq!(table.bytes(), [0, 0, 0xFE, 0xFF, 0xFF, 0, 4]);
/// assert_eq!(Table::from(table.bytes()), table);
/// ```
#[repr(C)]
#[derive(Clone, Copy, Debug, Default, PartialEq, Eq, Hash)]
pub struct Table {
    /// The palette entries, each with both of its bytes.
    pub palette: u32,
    /// The sprites, each with its registers and its pixels.
    pub sprites: u16,
    /// The channels, each with its start address and its prescale, and its bits of
    /// DCSR.
    pub channels: u8,
}

impl Table {
    /// Its bytes in a file.
    pub fn bytes(&self) -> [u8; TABLE] {
        let [p0, p1, p2, p3] = self.palette.to_le_bytes();
        let [s0, s1] = self.sprites.to_le_bytes();
        [p0, p1, p2, p3, s0, s1, self.channels]
    }

    /// With no bits but those that count: tables of the same owners are then equal.
    pub const fn kept(self) -> Table {
        Table {
            channels: self.channels & 7,
            ..self
        }
    }
}

/// The table of a file's bytes.
impl From<[u8; TABLE]> for Table {
    fn from([p0, p1, p2, p3, s0, s1, channels]: [u8; TABLE]) -> Table {
        Table {
            palette: u32::from_le_bytes([p0, p1, p2, p3]),
            sprites: u16::from_le_bytes([s0, s1]),
            channels,
        }
    }
}
