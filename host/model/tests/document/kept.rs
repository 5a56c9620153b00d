//! Document 02, L5: which writes can be undone, and what a register keeps of one.

/// The bits kept of a byte that is written to an address, where that can be
/// undone.
pub fn bits(address: u16) -> Option<u8> {
    match address {
        0x4000..=0x4FFF => Some(0x0F),
        0x6000..=0x607F => {
            Some([0xFF, 0x03, 0xFF, 0x01, 0x0F, 0x0F, 0x0F, 0x0F][address as usize % 8])
        }
        0x6400..=0x643F => Some([0xFF, 0x0F][address as usize % 2]),
        0x6802 => Some(0x3F),
        0x6800..=0x6805 => Some(0xFF),
        0x6C00..=0x6C0A if address % 4 < 3 => Some([0xFE, 0xFF, 0xFF][address as usize % 4]),
        _ => None,
    }
}

/// Every address at which a write can be undone.
pub fn addresses() -> Vec<u16> {
    let undone = |address: &u16| bits(*address).is_some();
    (0..=0xFFFF).filter(undone).collect()
}

/// Those that are exported: no pixel, and magnification once.
pub fn exported() -> Vec<u16> {
    let mut addresses = addresses();
    addresses.retain(|address| !(0x4000..=0x4FFF).contains(address));
    addresses.retain(|address| *address >= 0x6400 || address % 8 < 5);
    addresses
}
