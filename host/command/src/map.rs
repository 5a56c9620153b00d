//! The area for lists as a picture: rows of words, in which a list is a stretch of its
//! handle's colour, and below them the handles with their colours.

use crate::canvas::{Canvas, Colour, DIGIT, TALL};
use plus::List;

/// A row, which is some words, is so many pixels wide.
const ROW: usize = 768;

/// Where rows begin: right of the address of their first byte, four digits.
const LEFT: usize = MARGIN + 4 * DIGIT + MARGIN / 2;

const MARGIN: usize = 12;

/// Handles below the rows: so many beside each other, each so wide and so tall, with a
/// patch of its colour.
const BESIDE: usize = 12;
const ENTRY: [usize; 2] = [ROW / BESIDE, 20];
const PATCH: [usize; 2] = [24, 14];

const PAPER: Colour = [0xFF; 3];
const FREE: Colour = [0xDD; 3];
const INK: Colour = [0x22; 3];

/// The colour of each handle. They were chosen one after the other, each as far as could
/// be from those before it and from the greys, as an eye sees them: near ones are high.
const COLOURS: [u32; 64] = [
    0x0066CC, 0xFF00FF, 0x00FF00, 0xFF0000, 0x880088, 0x00AA11, 0xDD9900, 0x00BBFF, 0x882200,
    0x000099, 0xDD88CC, 0x006600, 0x8822FF, 0xEEEE44, 0x33DDAA, 0xDD0088, 0x0000FF, 0x115566,
    0x440066, 0x8888FF, 0xBB5500, 0x5500BB, 0x00AA99, 0xAA55BB, 0x99CC00, 0x888811, 0x66FFFF,
    0xFFAA99, 0x774466, 0x554400, 0xAABB99, 0xBBBBFF, 0xDD6677, 0xAA0055, 0x9999BB, 0x660033,
    0x99FFAA, 0xCC66FF, 0x118855, 0x4488BB, 0xBB00DD, 0x004499, 0xFF55CC, 0x443355, 0xEECC77,
    0xBB8866, 0xFFAAFF, 0x004400, 0x6655AA, 0x0088FF, 0x5555FF, 0xAA5577, 0xFF7733, 0xCC0022,
    0x666611, 0x77CCDD, 0x66BB66, 0x007788, 0xAAFF33, 0x8833BB, 0x11CC00, 0x552200, 0x553388,
    0x8877BB,
];

fn colour(handle: u32) -> Colour {
    let [_, red, green, blue] = COLOURS[handle as usize].to_be_bytes();
    [red, green, blue]
}

/// How the area is laid out: rows of so many bytes, the first of which begins at or
/// below its lower bound.
struct Layout {
    first: usize,
    rows: usize,
    bytes: usize,
    /// From one row to the next, and of that the part that is filled.
    pitch: usize,
    height: usize,
    /// Of so many rows one has its address.
    named: usize,
}

impl Layout {
    /// Short rows for a short area, so that a word is as wide as can be.
    fn of((from, upto): (usize, usize)) -> Layout {
        let laid = |(bytes, pitch, named): (usize, usize, usize)| {
            let first = from - from % bytes;
            Layout {
                first,
                rows: (upto - first).div_ceil(bytes),
                bytes,
                pitch,
                height: pitch - pitch.div_ceil(8),
                named,
            }
        };
        let short = [(32, 24, 1), (64, 20, 1), (128, 16, 1), (256, 14, 1)].map(laid);
        let fits = short.into_iter().find(|layout| layout.rows <= 32);
        fits.unwrap_or_else(|| laid((512, 6, 4)))
    }

    /// The stretches of rows from an address up to another, as rectangles.
    fn stretches(&self, from: usize, upto: usize) -> impl Iterator<Item = [usize; 4]> + '_ {
        let rows = (from - self.first) / self.bytes..self.rows;
        let stretch = move |row| {
            let start = self.first + row * self.bytes;
            let left = from.max(start) - start;
            let right = upto.clamp(start, start + self.bytes) - start;
            let x = LEFT + left * ROW / self.bytes;
            let width = (right - left.min(right)) * ROW / self.bytes;
            [x, self.y(row), width, self.height]
        };
        rows.map(stretch).take_while(|[_, _, width, _]| *width > 0)
    }

    /// The upper edge of a row.
    fn y(&self, row: usize) -> usize {
        MARGIN + row * self.pitch
    }
}

/// The picture of an area with lists in it.
pub fn drawn((from, upto): (u32, u32), lists: &[List]) -> Canvas {
    let (from, upto) = (from as usize, upto as usize);
    let layout = Layout::of((from, upto));
    let below = layout.y(layout.rows) + MARGIN;
    let height = below + lists.len().div_ceil(BESIDE) * ENTRY[1] + MARGIN;
    let mut canvas = Canvas::new(LEFT + ROW + MARGIN, height, PAPER);
    for stretch in layout.stretches(from, upto) {
        canvas.fill(stretch, FREE);
    }
    for list in lists {
        draw_list(&mut canvas, &layout, list);
    }
    for row in (0..layout.rows).step_by(layout.named) {
        let address = format!("{:04X}", layout.first + row * layout.bytes);
        let middle = layout.y(row) + layout.height.saturating_sub(TALL) / 2;
        canvas.write(MARGIN, middle, &address, INK);
    }
    for (n, list) in lists.iter().enumerate() {
        let (x, y) = (n % BESIDE * ENTRY[0], n / BESIDE * ENTRY[1]);
        name_handle(&mut canvas, LEFT + x, below + y, list.handle);
    }
    canvas
}

/// A list, with a line at its start, which one that touches another is told by.
fn draw_list(canvas: &mut Canvas, layout: &Layout, list: &List) {
    let from = list.address as usize;
    let upto = from + list.length as usize;
    for stretch in layout.stretches(from, upto) {
        canvas.fill(stretch, colour(list.handle));
    }
    if let Some([x, y, _, height]) = layout.stretches(from, upto).next() {
        canvas.fill([x, y, 1, height], INK);
    }
}

/// A handle beside a patch of its colour.
fn name_handle(canvas: &mut Canvas, x: usize, y: usize, handle: u32) {
    let [width, height] = PATCH;
    canvas.fill([x, y, width, height], colour(handle));
    let text = handle.to_string();
    let middle = y + (height - TALL) / 2;
    canvas.write(x + width + MARGIN / 2, middle, &text, INK);
}
