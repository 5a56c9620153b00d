//! A PNG of true-colour pixels, with its data stored and not compressed.

/// The most bytes that a stored block holds.
const BLOCK: usize = 65_535;

/// The file for rows of `width` pixels, three bytes each.
pub fn encode(width: usize, rows: &[Vec<u8>]) -> Vec<u8> {
    let mut header = Vec::new();
    header.extend((width as u32).to_be_bytes());
    header.extend((rows.len() as u32).to_be_bytes());
    // 8 bits a part, true colour, and no choice in the rest.
    header.extend([8, 2, 0, 0, 0]);
    // Each row as it is, which filter 0 says.
    let raw: Vec<u8> = rows
        .iter()
        .flat_map(|row| [&[0], &row[..]].concat())
        .collect();

    let mut file = b"\x89PNG\r\n\x1a\n".to_vec();
    chunk(&mut file, b"IHDR", &header);
    chunk(&mut file, b"IDAT", &stored(&raw));
    chunk(&mut file, b"IEND", &[]);
    file
}

/// One chunk: length, name, data, and the CRC of name and data.
fn chunk(file: &mut Vec<u8>, name: &[u8; 4], data: &[u8]) {
    file.extend((data.len() as u32).to_be_bytes());
    let from = file.len();
    file.extend(name);
    file.extend(data);
    let crc = crc(&file[from..]);
    file.extend(crc.to_be_bytes());
}

/// A zlib stream of stored blocks.
fn stored(raw: &[u8]) -> Vec<u8> {
    let mut stream = vec![0x78, 0x01];
    let blocks = raw.chunks(BLOCK);
    let last = blocks.len() - 1;
    for (n, block) in blocks.enumerate() {
        let length = block.len() as u16;
        stream.push(u8::from(n == last));
        stream.extend(length.to_le_bytes());
        stream.extend((!length).to_le_bytes());
        stream.extend(block);
    }
    stream.extend(adler(raw).to_be_bytes());
    stream
}

fn crc(data: &[u8]) -> u32 {
    !data.iter().fold(!0, |crc, &byte| {
        (0..8).fold(crc ^ u32::from(byte), |c, _| match c & 1 {
            1 => 0xEDB8_8320 ^ (c >> 1),
            _ => c >> 1,
        })
    })
}

fn adler(data: &[u8]) -> u32 {
    let (a, b) = data.iter().fold((1, 0), |(a, b), &byte| {
        let a = (a + u32::from(byte)) % 65_521;
        (a, (b + a) % 65_521)
    });
    b << 16 | a
}
