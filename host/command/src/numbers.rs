//! Numbers as a person writes them.

/// One to so many hexadecimal digits, of either case.
pub fn hexadecimal(digits: &str, most: usize) -> Option<u32> {
    if digits.len() > most || !digits.bytes().all(|digit| digit.is_ascii_hexdigit()) {
        return None;
    }
    u32::from_str_radix(digits, 16).ok()
}

/// Decimal digits, for at most this number.
pub fn decimal(digits: &str, most: u32) -> Option<u32> {
    if !digits.bytes().all(|digit| digit.is_ascii_digit()) {
        return None;
    }
    digits.parse().ok().filter(|&number| number <= most)
}
