"""png.py FILE: takes a PNG apart, with every chunk's CRC and the data's sum checked, and prints its size and its rows' length."""
import struct
import sys
import zlib

data = open(sys.argv[1], 'rb').read()
assert data[:8] == b'\x89PNG\r\n\x1a\n'
at, chunks = 8, []
while at < len(data):
    length, = struct.unpack('>I', data[at:at + 4])
    name, body = data[at + 4:at + 8], data[at + 8:at + 8 + length]
    crc, = struct.unpack('>I', data[at + 8 + length:at + 12 + length])
    assert crc == zlib.crc32(name + body), name
    chunks.append((name, body))
    at += 12 + length
assert [name for name, _ in chunks] == [b'IHDR', b'IDAT', b'IEND']
width, height, *rest = struct.unpack('>IIBBBBB', chunks[0][1])
assert rest == [8, 2, 0, 0, 0]
rows = zlib.decompress(chunks[1][1])
assert len(rows) == height * (1 + 3 * width)
print('%d x %d, %d bytes of rows' % (width, height, len(rows)))
