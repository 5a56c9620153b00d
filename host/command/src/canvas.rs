//! A picture of filled rectangles and hexadecimal digits.

/// Red, green, blue.
pub type Colour = [u8; 3];

/// Rows of pixels, three bytes each.
pub struct Canvas {
    pub width: usize,
    pub rows: Vec<Vec<u8>>,
}

/// The pixels of a digit's dot, and the width and height of a digit with the gap behind
/// it.
const DOT: usize = 2;
pub const DIGIT: usize = 4 * DOT;
pub const TALL: usize = 5 * DOT;

/// Each digit as five rows of three dots, the left one highest.
const DIGITS: [[u8; 5]; 16] = [
    [7, 5, 5, 5, 7],
    [2, 6, 2, 2, 7],
    [7, 1, 7, 4, 7],
    [7, 1, 7, 1, 7],
    [5, 5, 7, 1, 1],
    [7, 4, 7, 1, 7],
    [7, 4, 7, 5, 7],
    [7, 1, 2, 2, 2],
    [7, 5, 7, 5, 7],
    [7, 5, 7, 1, 7],
    [2, 5, 7, 5, 5],
    [6, 5, 6, 5, 6],
    [3, 4, 4, 4, 3],
    [6, 5, 5, 5, 6],
    [7, 4, 6, 4, 7],
    [7, 4, 6, 4, 4],
];

impl Canvas {
    /// All of one colour.
    pub fn new(width: usize, height: usize, colour: Colour) -> Canvas {
        Canvas {
            width,
            rows: vec![colour.repeat(width); height],
        }
    }

    /// A rectangle: its left and its upper edge, its width and its height.
    pub fn fill(&mut self, [x, y, width, height]: [usize; 4], colour: Colour) {
        for row in &mut self.rows[y..y + height] {
            row[3 * x..3 * (x + width)].copy_from_slice(&colour.repeat(width));
        }
    }

    /// A text of digits, upper case where they are letters.
    pub fn write(&mut self, x: usize, y: usize, text: &str, colour: Colour) {
        let digits = text.chars().filter_map(|digit| digit.to_digit(16));
        for (n, digit) in digits.enumerate() {
            self.digit(x + n * DIGIT, y, DIGITS[digit as usize], colour);
        }
    }

    fn digit(&mut self, x: usize, y: usize, dots: [u8; 5], colour: Colour) {
        for (down, row) in dots.into_iter().enumerate() {
            for right in (0..3).filter(|right| row >> (2 - right) & 1 == 1) {
                self.fill([x + right * DOT, y + down * DOT, DOT, DOT], colour);
            }
        }
    }
}
