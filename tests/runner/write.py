"""Writes the pairs beside this file, and the stored run of the crate plus_run.

The lines of the stored run stand here by hand, from documents 01 and 02; the model has to agree with them."""
import os
import random

import model

HERE = os.path.dirname(os.path.abspath(__file__))
CRATE = os.path.join(HERE, '..', '..', 'crates', 'plus_run')
STORE = bytes(4096)
UNLOCK = [0xFF, 0x00] + model.KEY + [0xCD, 0x01]


def ram_of(lists):
    ram = bytearray(65536)
    for start, words in lists.items():
        for i, word in enumerate(words):
            ram[start + 2 * i] = word & 255
            ram[start + 2 * i + 1] = word >> 8
    return bytes(ram)


def rec(op, a=0, value=0):
    return bytes([ord(op), a & 255, a >> 8, value])


# the addresses of an export, rising
EXPORTED = [0x6000 + 8 * n + place for n in range(16) for place in range(5)] + [0x6400 + place for place in range(64)] \
    + [0x6800 + place for place in range(6)] + [0x6C00 + 4 * n + place for n in range(3) for place in range(3)]


def exported(held):
    """The line of an export in which these registers hold these bytes, and the others 0."""
    assert set(held) <= set(EXPORTED)
    return '0 ' + ''.join('%02x%02x%02x' % (a & 255, a >> 8, held.get(a, 0)) for a in EXPORTED)


LISTS = {0x8000: [0x0738, 0x1002, 0x4020], 0x9000: [0x2005, 0x4031], 0xA002: [0x3123], 0xB000: [0x2003, 0x080F, 0x4001, 0x4020]}
# what the processor does at the 8255, and the cycles of a line on which all three channels LOAD: channel 0 alone, 1 alone, 2 alone, then
# together, then with the two highest bits, which say nothing
PROCESSOR = [
    (0x00, 28), (0x01, 29), (0x02, 30), (0x03, 30), (0x04, 29), (0x08, 30), (0x0C, 30), (0x10, 29), (0x20, 30), (0x30, 30),
    (0x05, 30), (0x06, 31), (0x07, 31), (0x09, 31), (0x0A, 32), (0x0B, 32), (0x0D, 31), (0x0E, 32), (0x0F, 32),
    (0x11, 30), (0x12, 31), (0x14, 30), (0x15, 31), (0x16, 32), (0x18, 31), (0x19, 32), (0x1A, 33), (0x1B, 33),
    (0x21, 31), (0x22, 32), (0x24, 31), (0x25, 32), (0x26, 33), (0x28, 32), (0x29, 33), (0x2A, 34), (0x3F, 34),
    (0x40, 28), (0x80, 28), (0xC0, 28), (0xD5, 31), (0xFF, 34),
]
MAPPED = [(rec('B', 0, byte), '0') for byte in UNLOCK] + [(rec('G', 0, 0xB8), '0')]
# after a reset: both editors at one chip
EDITORS = MAPPED + [
    # no table: each writes and reads all, IVR too, and takes back its own writes
    (rec('W', 0x6400, 0x11), '0'), (rec('w', 0x6400, 0x22), '0'), (rec('R', 0x6400), '0 34'), (rec('r', 0x6400), '0 34'),
    (rec('w', 0x6805, 0x41), '0'), (rec('W', 0x6805, 0x51), '0'), (rec('U'), '0'), (rec('E'), exported({0x6400: 0x22, 0x6805: 0x41})),
    (rec('u'), '0'), (rec('U', 0x6400, 1), '0'), (rec('R', 0x6400), '0 0'), (rec('u', 0x6400, 1), '0'), (rec('r', 0x6400), '0 17'),
    (rec('E'), exported({0x6400: 0x11, 0x6805: 1})), (rec('U'), '10'), (rec('u'), '10'),
    # palette entries 1, 8, 16, 31, sprites 2 and 15, channel 1 for the picture editor; there are 16 places, of which the last 9 say
    # nothing to a start, and so do bits 3 to 7 of the channels
    (rec('T', 0, 0x02), '0'), (rec('T', 1, 0x01), '0'), (rec('T', 2, 0x01), '0'), (rec('T', 3, 0x80), '0'), (rec('T', 4, 0x04), '0'),
    (rec('T', 5, 0x80), '0'), (rec('T', 6, 0xFA), '0'), (rec('T', 7, 0xFF), '0'), (rec('T', 15, 0xFF), '0'), (rec('T', 16, 0xFF), '0'),
    (rec('T', 0x0100, 0xFF), '0'), (rec('T', 0xFFFF, 0xFF), '0'),
    # waiting bytes are no table yet; the start empties both records
    (rec('W', 0x6402, 9), '0'), (rec('w', 0x6404, 8), '0'), (rec('S', 0x1234, 0x56), '0'), (rec('U'), '10'), (rec('u'), '10'),
    # palette
    (rec('W', 0x6400, 1), '0'), (rec('w', 0x6400, 2), '15'), (rec('W', 0x6402, 3), '15'), (rec('w', 0x6402, 4), '0'),
    (rec('W', 0x6403, 5), '15'), (rec('w', 0x6403, 0xF6), '0'), (rec('W', 0x6404, 7), '0'), (rec('w', 0x6405, 7), '15'),
    (rec('w', 0x6410, 8), '0'), (rec('W', 0x6410, 8), '15'), (rec('w', 0x6420, 9), '0'), (rec('W', 0x6420, 9), '15'),
    (rec('w', 0x643F, 10), '0'), (rec('W', 0x643F, 11), '15'), (rec('W', 0x643D, 12), '0'), (rec('w', 0x643D, 13), '15'),
    # sprites, their mirrors and pixels; a read is refused to nobody
    (rec('W', 0x6010, 1), '15'), (rec('w', 0x6010, 2), '0'), (rec('W', 0x6017, 3), '15'), (rec('w', 0x6017, 4), '0'),
    (rec('W', 0x600F, 5), '0'), (rec('w', 0x600F, 6), '15'), (rec('W', 0x6078, 7), '15'), (rec('w', 0x6078, 8), '0'),
    (rec('W', 0x41FF, 9), '0'), (rec('w', 0x41FF, 10), '15'), (rec('W', 0x4200, 11), '15'), (rec('w', 0x4200, 0xFC), '0'),
    (rec('w', 0x4300, 1), '15'), (rec('w', 0x4FFF, 2), '0'), (rec('R', 0x4200), '0 12'), (rec('r', 0x41FF), '0 9'),
    (rec('R', 0x6010), '0 2'), (rec('r', 0x6404), '0 7'),
    # the screen is the picture editor's, IVR neither's, and what can't be written nobody's
    (rec('W', 0x6800, 5), '15'), (rec('w', 0x6800, 5), '0'), (rec('W', 0x6801, 1), '15'), (rec('W', 0x6803, 1), '15'),
    (rec('W', 0x6804, 1), '15'), (rec('w', 0x6804, 0x10), '0'), (rec('W', 0x6805, 3), '15'), (rec('w', 0x6805, 3), '15'),
    (rec('W', 0x6808, 1), '9'), (rec('w', 0x680F, 1), '9'), (rec('W', 0x6806, 1), '3'), (rec('w', 0x6C03, 1), '3'),
    (rec('W', 0x6C0C, 1), '3'), (rec('w', 0x6C0E, 1), '3'), (rec('W', 0x3FFF, 1), '2'), (rec('w', 0x8000, 1), '2'),
    # the list at 9000h on channels 0 and 1, each by its owner; a DCSR write reaches the writer's channels alone
    (rec('W', 0x6C01, 0x90), '0'), (rec('w', 0x6C01, 0xA0), '15'), (rec('W', 0x6C05, 0xA0), '15'), (rec('w', 0x6C05, 0x90), '0'),
    (rec('W', 0x6C06, 1), '15'), (rec('W', 0x6C0A, 1), '0'), (rec('w', 0x6C0A, 1), '15'),
    (rec('W', 0x6C0F, 7), '0'), (rec('R', 0x6C0F), '0 5'), (rec('r', 0x6C0F), '0 0'), (rec('w', 0x6C0F, 2), '0'),
    (rec('R', 0x6C00), '0 5'), (rec('r', 0x6C0E), '0 2'), (rec('W', 0x6C0F, 1), '0'), (rec('R', 0x6C0F), '0 1'), (rec('r', 0x6C0F), '0 2'),
    (rec('L'), '0 5 repeat 5 repeat 5 -'), (rec('L'), '0 5 control 49 control 49 -'),
    (rec('R', 0x6C0F), '0 64'), (rec('r', 0x6C0F), '0 32'), (rec('W', 0x6C0F, 0x70), '0'), (rec('R', 0x6C0F), '0 0'),
    (rec('r', 0x6C0F), '0 32'), (rec('w', 0x6C0F, 0x20), '0'), (rec('r', 0x6C0F), '0 0'),
    # a raster interrupt on the line with RC 1; bit 7 is not shown while a table holds
    (rec('B', 0, 9), '0'), (rec('D', 0, 7), '0'), (rec('w', 0x6800, 1), '0'), (rec('L'), '0 1 - - -'), (rec('L'), '0 1 - - -'),
    (rec('A'), '0 6'), (rec('R', 0x6C0F), '0 0'), (rec('r', 0x6C0F), '0 0'),
    # each takes back its own: the song editor 1 to 6C0Ah and 90h to 6C01h, the picture editor 1 to 6800h, 90h to 6C05h, 10h to 6804h
    (rec('U'), '0'), (rec('u'), '0'), (rec('U'), '0'), (rec('u'), '0'), (rec('u'), '0'),
    (rec('E'), exported({0x6400: 1, 0x6402: 4, 0x6403: 6, 0x6404: 7, 0x6410: 8, 0x6420: 9, 0x643D: 12, 0x643F: 10, 0x600C: 5, 0x6010: 2,
                         0x6014: 4, 0x6078: 8, 0x6800: 5, 0x6805: 1, 0x6C00: 2, 0x6C04: 2})),
    # what waits stays after a start: the next one gives channel 1 to the song editor and leaves the rest
    (rec('T', 6, 0), '0'), (rec('w', 0x6C05, 0x80), '0'), (rec('S'), '0'), (rec('u'), '10'), (rec('w', 0x6C05, 0), '15'),
    (rec('W', 0x6C05, 0), '0'), (rec('W', 0x6402, 0), '15'), (rec('W', 0x6010, 0), '15'), (rec('U'), '0'), (rec('U'), '10'),
    # a reset ends the table and clears what waits: all is the song editor's then, but for the screen
    (rec('T', 0, 0xFF), '0'), (rec('Z'), '0'), (rec('w', 0x6400, 1), '2'), (rec('W', 0x6805, 1), '2'),
] + MAPPED + [
    (rec('w', 0x6805, 3), '0'), (rec('w', 0x6400, 1), '0'), (rec('S'), '0'), (rec('w', 0x6400, 2), '15'), (rec('W', 0x6402, 3), '0'),
    (rec('w', 0x6010, 4), '15'), (rec('w', 0x4F00, 5), '15'), (rec('W', 0x6C05, 6), '0'), (rec('w', 0x6C05, 6), '15'),
    (rec('w', 0x6803, 7), '0'), (rec('W', 0x6803, 8), '15'), (rec('w', 0x6C0F, 7), '0'), (rec('R', 0x6C0F), '0 0'), (rec('u'), '0'),
    (rec('u'), '10'), (rec('U'), '0'), (rec('E'), exported({0x6400: 1, 0x6402: 3, 0x6805: 3})),
]


def given(low, high, answer):
    """Bounds that wait at places 7 to 14, and the area given by them; the address and the value say nothing."""
    waits = low.to_bytes(4, 'little') + high.to_bytes(4, 'little')
    return [(rec('T', 7 + i, byte), '0') for i, byte in enumerate(waits)] + [(rec('N', 0x1234, 0x56), '%d' % answer)]


# after a reset: room for lists
PLACED = MAPPED + [
    # no area yet, and bounds that are none
    (rec('N'), '18'), (rec('K', 0x8000, 6), '18 0 0'), (rec('X', 0, 0), '18'), (rec('X', 0, 64), '18'),
] + given(0xC001, 0xC020, 18) + given(0xC000, 0xC01F, 18) + given(0xC000, 0xC000, 18) + given(0xC020, 0xC000, 18) \
  + given(0xFFF0, 0x10002, 18) + given(0xC000, 0x100C020, 18) + given(0x1000C000, 0xC020, 18) + given(0xC000, 0xC020, 0) + [
    # another area, and lengths that are none or above the area
    (rec('N'), '18'), (rec('T', 7, 2), '0'), (rec('N'), '18'),
    (rec('K', 0x8000, 0), '18 0 0'), (rec('K', 0x8000, 7), '18 0 0'), (rec('K', 0x8000, 34), '18 0 0'),
    (rec('T', 15, 1), '0'), (rec('K', 0x8000, 6), '18 0 0'), (rec('T', 15, 0), '0'),
    # lists that touch, and their words
    (rec('K', 0x8000, 6), '0 49152 0'), (rec('K', 0x9000, 4), '0 49158 1'), (rec('K', 0xB000, 8), '0 49162 2'),
    (rec('F', 0xC000), '0 4 13 6 15'), (rec('F', 0xC006), '0 2 4 4 4'), (rec('F', 0xC00A), '0 10 48 8 56'),
    # up to but not at the higher bound
    (rec('K', 0x8000, 16), '20 0 0'), (rec('K', 0xA000, 14), '0 49170 3'), (rec('K', 0x8000, 2), '20 0 0'),
    # a list gone; its words stay in RAM until the next list comes there
    (rec('X', 0, 4), '21'), (rec('X', 0, 63), '21'), (rec('X', 0, 64), '21'), (rec('X', 1, 255), '21'), (rec('X', 0xFFFF, 1), '0'),
    (rec('X', 0, 1), '21'), (rec('F', 0xC006), '0 2 4 4 4'), (rec('K', 0x8000, 6), '20 0 0'),
    # lower addresses and lower handles first
    (rec('X', 0, 2), '0'), (rec('X', 0, 0), '0'), (rec('K', 0xB000, 8), '0 49152 0'), (rec('K', 0x9000, 4), '0 49160 1'),
    (rec('K', 0x8000, 6), '0 49164 2'), (rec('K', 0x8000, 2), '20 0 0'),
    # channel 0 plays the second of them: that one stays, and the others can go; once it is off, that one too
    (rec('W', 0x6C00, 0x08), '0'), (rec('W', 0x6C01, 0xC0), '0'), (rec('W', 0x6C0F, 1), '0'),
    (rec('X', 0, 1), '22'), (rec('X', 0, 2), '0'), (rec('K', 0x8000, 6), '0 49164 2'), (rec('X', 0, 0), '0'), (rec('K', 0xB000, 8), '0 49152 0'),
    (rec('L'), '0 3 repeat 5 - -'), (rec('X', 0, 1), '22'), (rec('X', 0, 65), '21'),
    (rec('L'), '0 3 control 49 - -'), (rec('X', 0, 1), '0'), (rec('K', 0x9000, 4), '0 49160 1'),
    # all of RAM, and a loop over three lists on channel 1: the words since the mark stay, with the lists before and at the address
    (rec('Z'), '0'),
] + MAPPED + given(0, 65536, 0) + [
    (rec('K', 0xB000, 4), '0 0 0'), (rec('K', 0xA004, 2), '0 4 1'), (rec('K', 0xB004, 4), '0 6 2'), (rec('F', 0), '0 14 84 10 100'),
    (rec('W', 0x6C0F, 2), '0'), (rec('X', 0, 0), '22'), (rec('X', 0, 1), '0'), (rec('K', 0xA004, 2), '0 4 1'),
    (rec('L'), '0 3 - repeat 3 -'), (rec('L'), '0 10 - load 2063 -'), (rec('X', 0, 0), '22'), (rec('X', 0, 1), '22'), (rec('X', 0, 2), '0'),
    (rec('K', 0xB004, 4), '0 6 2'), (rec('L'), '0 10 - load 0 -'), (rec('X', 0, 0), '22'), (rec('X', 0, 1), '22'), (rec('X', 0, 2), '22'),
    # back at the mark: the lists behind it are free to go
    (rec('L'), '0 3 - control 1 -'), (rec('X', 0, 0), '22'), (rec('X', 0, 2), '0'), (rec('X', 0, 1), '0'),
    (rec('K', 0xA004, 2), '0 4 1'), (rec('K', 0xB004, 4), '0 6 2'), (rec('K', 0x9000, 4), '0 10 3'),
    # a mark above the address: these two lists, and none between them
    (rec('W', 0x6C08, 0x0A), '0'), (rec('W', 0x6C0F, 4), '0'), (rec('L'), '0 3 - - repeat 5'), (rec('W', 0x6C08, 0x04), '0'),
    (rec('X', 0, 3), '22'), (rec('X', 0, 1), '22'), (rec('X', 0, 2), '0'), (rec('X', 0, 0), '0'),
    # 64 lists fill an area of 128 bytes: no handle comes before no gap
    (rec('Z'), '0'),
] + given(0xE000, 0xE080, 0) + [(rec('K', 0xB000 + 2 * n, 2), '0 %d %d' % (0xE000 + 2 * n, n)) for n in range(64)] + [
    (rec('K', 0xB000, 2), '19 0 0'), (rec('K', 0xB000, 3), '18 0 0'), (rec('K', 0xB000, 130), '18 0 0'),
    (rec('X', 0, 17), '0'), (rec('K', 0xB000, 4), '20 0 0'), (rec('K', 0xB000, 2), '0 57378 17'),
    (rec('X', 0, 63), '0'), (rec('X', 0, 5), '0'), (rec('K', 0xB000, 2), '0 57354 5'), (rec('K', 0xB000, 2), '0 57470 63'),
    # a list that goes round the end of RAM, and one whose words stand where it goes: it is copied out first
    (rec('Z'), '0'),
] + given(0xFFF0, 65536, 0) + [
    (rec('M', 0xFFFC, 0x38), '0'), (rec('M', 0xFFFD, 0x07), '0'), (rec('M', 0xFFFE, 0x02), '0'), (rec('M', 0xFFFF, 0x10), '0'),
    (rec('M', 2, 0x20), '0'), (rec('M', 3, 0x40), '0'),
    (rec('K', 0xFFFC, 8), '0 65520 0'), (rec('F', 0xFFF0), '0 5 15 8 17'),
    (rec('K', 0xFFF4, 8), '0 65528 1'), (rec('F', 0xFFF8), '0 2 4 4 4'), (rec('F', 0xFFFC), '6 0 0 0 0'),
    # a reset leaves RAM, and forgets area, lists and what waits
    (rec('T', 15, 0xFF), '0'), (rec('Z'), '0'), (rec('F', 0xFFF0), '0 5 15 8 17'), (rec('X', 0, 0), '18'), (rec('K', 0xFFF0, 8), '18 0 0'),
    (rec('N'), '18'),
    # the longest lists
] + given(0, 65536, 0) + [
    (rec('T', 15, 0xFF), '0'), (rec('K', 0x1234, 0xFF), '18 0 0'), (rec('K', 0, 0xFE), '0 0 0'), (rec('K', 0, 0xFE), '20 0 0'),
    (rec('T', 15, 0), '0'), (rec('K', 0xFFF2, 2), '0 65534 1'), (rec('X', 0, 0), '0'), (rec('K', 0x9000, 0xFE), '0 0 0'),
    (rec('K', 0xFFFE, 2), '0 254 2'), (rec('Z'), '0'),
]


def psg(held):
    """The line of the PSG in which these registers hold these bytes, and the others 0."""
    return '0 ' + ''.join('%02x' % held.get(n, 0) for n in range(16))


# after a reset: the host mutes channels, which play on
MUTED = MAPPED + [
    (rec('M', 0x8000, 0x38), '0'), (rec('H', 0x1234, 0x56), psg({})),
    # numbers of no channel, some with the low byte of one; any value but 0 mutes
    (rec('Q', 3, 1), '3'), (rec('Q', 4, 0), '3'), (rec('Q', 255, 1), '3'), (rec('Q', 256, 1), '3'), (rec('Q', 257, 0), '3'),
    (rec('Q', 0x8002, 1), '3'), (rec('Q', 0xFFFF, 0xFF), '3'), (rec('Q', 0, 0x80), '0'),
    # the list at 8000h on channel 0: its LOAD costs and is told, the PAUSE is as long, and the PSG stays
    (rec('W', 0x6C01, 0x80), '0'), (rec('W', 0x6C0F, 1), '0'), (rec('L', 0, 2), '0 12 load 1848 - -'), (rec('H'), psg({})),
    (rec('L'), '0 3 pause 2 - -'), (rec('L'), '0 1 - - -'), (rec('L'), '0 3 control 32 - -'), (rec('L'), '0 1 - - -'),
    # it is muted still after DCSR, an undo and a start, and no register says so
    (rec('U'), '0'), (rec('T', 6, 7), '0'), (rec('S'), '0'), (rec('w', 0x6C00, 0), '0'), (rec('w', 0x6C01, 0x80), '0'),
    (rec('w', 0x6C0F, 1), '0'), (rec('r', 0x6C00), '0 1'), (rec('E'), exported({0x6805: 1, 0x6C01: 0x80})),
    (rec('L'), '0 10 load 1848 - -'), (rec('H'), psg({})),
    # heard again, from the next LOAD on
    (rec('Q', 0, 0), '0'), (rec('H'), psg({})), (rec('w', 0x6C00, 0), '0'), (rec('w', 0x6C01, 0x80), '0'),
    (rec('L'), '0 10 load 1848 - -'), (rec('H'), psg({7: 0x38})),
    # RAM changed, and the LOAD of three channels at once: the last that is heard stays
    (rec('M', 0x8000, 0x39), '0'), (rec('M', 0x8002, 0x3A), '0'), (rec('M', 0x8003, 0x07), '0'), (rec('M', 0x8004, 0x3B), '0'),
    (rec('M', 0x8005, 0x07), '0'), (rec('w', 0x6C05, 0x80), '0'), (rec('w', 0x6C09, 0x80), '0'), (rec('w', 0x6C0F, 7), '0'),
] + [
    order for marks, heard in [(0, 0x3B), (1, 0x3B), (2, 0x3B), (3, 0x3B), (4, 0x3A), (5, 0x3A), (6, 0x39), (0, 0x3B), (7, 0x3B)]
    for order in [(rec('Q', n, marks >> n & 1), '0') for n in range(3)]
    + [(rec('w', 0x6C00 + 4 * n, 2 * n), '0') for n in range(3)] + [(rec('w', 0x6C01 + 4 * n, 0x80), '0') for n in range(3)]
    + [(rec('L'), '0 28 load 1849 load 1850 load 1851'), (rec('H'), psg({7: heard}))]
] + [
    # a refused line leaves the PSG, and so does a mute that is refused; a reset ends all mutes
    (rec('G', 0, 0x83), '0'), (rec('L'), '4 0 - - -'), (rec('Q', 3, 0), '3'), (rec('H'), psg({7: 0x3B})), (rec('Z'), '0'), (rec('H'), psg({})),
] + MAPPED + [
    (rec('W', 0x6C0F, 7), '0'), (rec('W', 0x6C00, 0), '0'), (rec('W', 0x6C01, 0x80), '0'), (rec('W', 0x6C05, 0xD0), '0'),
    (rec('W', 0x6C09, 0xD0), '0'), (rec('L'), '0 28 load 1849 load 0 load 0'), (rec('H'), psg({7: 0x39})),
    (rec('Q', 2, 1), '0'), (rec('Q', 2, 1), '0'), (rec('Q', 2, 0), '0'), (rec('H'), psg({7: 0x39})), (rec('h'), 'bad'), (rec('q'), 'bad'),
]
# the record and the line that answers it
STORED = [
    # the forecast, and the page before it is mapped
    (rec('F', 0x8000, 0), '0 4 13 6 15'), (rec('F', 0x8001, 2), '0 8 13 6 15'),
    (rec('F', 0x9000, 0), '0 2 4 4 4'), (rec('F', 0xB008, 0), '6 0 0 0 0'),
    (rec('F', 0xB000, 0), '0 10 48 8 56'),
    (rec('R', 0x6000, 0x12), '2 0'), (rec('W', 0x6000, 1), '2'),
    (rec('G', 0, 0xB8), '0'), (rec('R', 0x6000, 0x12), '2 0'),
    (rec('G', 0, 0x40), '3'), (rec('D', 0, 1), '3'), (rec('A'), '5 0'),
    (rec('U', 0x6000, 7), '10'), (rec('E', 0x6000, 7), exported({0x6805: 1})),
    # unlocked and mapped
] + [(rec('B', 0, byte), '0') for byte in UNLOCK] + [
    (rec('D', 0, 40), '0'), (rec('G', 0, 0xB8), '0'),
    (rec('R', 0x6000, 0x12), '0 0'), (rec('R', 0x6004, 0x12), '0 18'),
    (rec('W', 0x6001, 0x03), '0'), (rec('R', 0x6001, 0), '0 255'), (rec('W', 0x6806, 1), '3'), (rec('W', 0x680F, 1), '9'),
    (rec('W', 0x6007, 1), '0'), (rec('R', 0x6007, 0x12), '0 18'),
    (rec('W', 0x4000, 0xF5), '0'), (rec('R', 0x4000, 0), '0 5'), (rec('R', 0x3FFF, 9), '2 0'),
    # the list at 8000h on channel 0
    (rec('W', 0x6C00, 0x01), '0'), (rec('W', 0x6C01, 0x80), '0'), (rec('W', 0x6C0F, 1), '0'),
    (rec('R', 0x6C00, 0), '0 1'),
    (rec('L'), '0 10 load 1848 - -'), (rec('L'), '0 3 pause 2 - -'), (rec('L'), '0 1 - - -'),
    (rec('L'), '0 3 control 32 - -'), (rec('L'), '0 1 - - -'), (rec('R', 0x6C0F, 0), '0 0'),
    # the list at 9000h, and its interrupt
    (rec('W', 0x6C00, 0x00), '0'), (rec('W', 0x6C01, 0x90), '0'), (rec('W', 0x6C0F, 1), '0'),
    (rec('L'), '0 3 repeat 5 - -'), (rec('L'), '0 3 control 49 - -'), (rec('R', 0x6C0F, 0), '0 64'),
    (rec('W', 0x6805, 0xA8), '0'), (rec('A'), '0 172'), (rec('A'), '5 0'),
    # a raster interrupt on the line with RC 1
    (rec('B', 0, 9), '0'), (rec('D', 0, 7), '0'), (rec('W', 0x6800, 1), '0'),
    (rec('L'), '0 1 - - -'), (rec('A'), '5 0'), (rec('L'), '0 1 - - -'),
    (rec('A'), '0 174'), (rec('R', 0x6C0F, 0), '0 128'),
    # RAM changed, and two channels on a line
    (rec('M', 0x8000, 0x39), '0'), (rec('W', 0x6C05, 0x80), '0'), (rec('W', 0x6C0F, 2), '0'),
    (rec('L'), '0 10 - load 1849 -'),
    (rec('W', 0x6C09, 0x80), '0'), (rec('W', 0x6C0F, 6), '0'),
    (rec('L'), '0 12 - pause 2 load 1849'),
    (rec('W', 0x6C09, 0xA0), '0'), (rec('L'), '0 3 - - nothing 291'),
    # the last write, A0h to 6C09h where 80h was: channel 2 has gone on from A002h to A004h, and now is at 8004h
    (rec('U'), '0'),
    (rec('E'), exported({0x6001: 3, 0x6004: 1, 0x6800: 1, 0x6805: 0xA8, 0x6C00: 0x02, 0x6C01: 0x90, 0x6C04: 0x04, 0x6C05: 0x80,
                         0x6C08: 0x04, 0x6C09: 0x80})),
    # line 5 of the row shown, and stepped: VC 0 is not below R6; the address says nothing
    (rec('P', 0x1234, 0x3F), '0 ' + 'g' * 640 + ' 5 - control 32 control 32'),
    # line 6, 40 characters in mode 1
    (rec('B', 0, 6), '0'), (rec('D', 0, 25), '0'), (rec('G', 0, 0x81), '0'),
    (rec('M', 0x3000, 0x80), '0'), (rec('M', 0x3001, 0x0F), '0'), (rec('M', 0x304F, 0x11), '0'),
    (rec('P'), '0 11' + '0' * 6 + '2' * 8 + '0' * (640 - 18) + '33 1 - - -'),
    # mode 3: neither drawn nor stepped, so that the word of channel 0 at 9002h and line 7 are still to come
    (rec('M', 0x3800, 0x88), '0'), (rec('W', 0x6C0F, 1), '0'), (rec('G', 0, 0x83), '0'),
    (rec('P'), '4'), (rec('L', 0x1234, 0x15), '4 0 - - -'), (rec('R', 0x6C0F), '0 129'),
    (rec('G', 0, 0x81), '0'), (rec('P', 0, 0x15), '0 33' + '0' * 638 + ' 3 control 49 - -'), (rec('R', 0x6C0F), '0 192'),
    # line 0 of the next frame, with a LOAD of channel 1 at 8006h, and the processor there too
    (rec('W', 0x6C0F, 2), '0'), (rec('P', 0, 0x08), '0 ' + '0' * 640 + ' 12 - load 0 -'), (rec('W', 0x6C0F, 0), '0'),
    # the writes before it, with the page mapped out: 80h to 6C09h and to 6C05h, where 0 was
    (rec('G', 0, 0xA0), '0'), (rec('U'), '0'), (rec('U'), '0'), (rec('R', 0x6000, 0), '2 0'),
    (rec('E'), exported({0x6001: 3, 0x6004: 1, 0x6800: 1, 0x6805: 0xA8, 0x6C00: 0x02, 0x6C01: 0x90, 0x6C04: 0x08, 0x6C08: 0x06})),
    # RAM of zeros is all LOADs: the three channels there, from C000h on
    (rec('G', 0, 0xB8), '0'), (rec('W', 0x6C00, 0), '0'), (rec('W', 0x6C01, 0xC0), '0'), (rec('W', 0x6C04, 0), '0'),
    (rec('W', 0x6C05, 0xC0), '0'), (rec('W', 0x6C08, 0), '0'), (rec('W', 0x6C09, 0xC0), '0'), (rec('W', 0x6C0F, 7), '0'),
] + [(rec('L', 0, value), '0 %d load 0 load 0 load 0' % cycles) for value, cycles in PROCESSOR] + [
    # the list at B000h on channel 0, beside LOADs of channel 2: only what is done for these two counts, and only where they LOAD
    (rec('W', 0x6C00, 0), '0'), (rec('W', 0x6C01, 0xB0), '0'), (rec('W', 0x6C0F, 5), '0'),
    (rec('L', 0, 0x1F), '0 13 repeat 3 - load 0'), (rec('L', 0, 0x0E), '0 21 load 2063 - load 0'),
    (rec('L', 0, 0x23), '0 14 control 1 - load 0'), (rec('L', 0, 0x0D), '0 20 load 2063 - load 0'),
    (rec('W', 0x6C0F, 1), '0'), (rec('L', 0, 0xFF), '0 3 control 1 - -'), (rec('L', 0, 0x3C), '0 10 load 2063 - -'),
    # and a pause, one that is sat out, and a word that does nothing
    (rec('W', 0x6C00, 0x02), '0'), (rec('W', 0x6C01, 0x80), '0'), (rec('L', 0, 0x3F), '0 3 pause 2 - -'),
    (rec('L', 0, 0x3F), '0 1 - - -'), (rec('L', 0, 0x3F), '0 3 control 32 - -'), (rec('L', 0, 0x3F), '0 1 - - -'),
    (rec('W', 0x6C00, 0x02), '0'), (rec('W', 0x6C01, 0xA0), '0'), (rec('W', 0x6C0F, 1), '0'),
    (rec('L', 0, 0x3F), '0 3 nothing 291 - -'),
    # no call, and reset
    (rec('x', 0x1234, 5), 'bad'), (rec('b', 0, 9), 'bad'), (rec('\0'), 'bad'), (rec('e'), 'bad'), (rec('s'), 'bad'), (rec('t'), 'bad'),
    (rec('Z'), '0'), (rec('R', 0x4000, 0x12), '2 0'), (rec('L'), '0 1 - - -'), (rec('U'), '10'), (rec('u'), '10'),
] + EDITORS + [(rec('Z'), '0')] + PLACED + MUTED + [
    (b'L\0\0', 'short'),
]


def stored():
    ram = ram_of(LISTS)
    records = b''.join(r for r, _ in STORED)
    text = ''.join(line + '\n' for _, line in STORED)
    assert text == model.play(ram, STORE, records), 'the model says otherwise'
    with open(os.path.join(CRATE, 'stdin'), 'wb') as f:
        f.write(ram + STORE + records)
    with open(os.path.join(CRATE, 'stdout'), 'w') as f:
        f.write(text)


def mixed(seed, count):
    """RAM and records of all calls, over RAM full of words with many a STOP. Now and then a line of 40 characters is shown, and there are
    more writes in a row than can be undone. Channels are muted and heard again, and the PSG is shown."""
    r = random.Random(seed)
    words = [r.choice([r.randrange(4096), 0x1000 + r.randrange(4), 0x2000 + r.randrange(4), 0x4001, 0x3000, 0x4010,
                       0x5000 + r.randrange(4096), r.choice([0x4001, 0x4020, 0x4030, 0x4031])]) for _ in range(32768)]
    records = b''.join(rec('B', 0, byte) for byte in UNLOCK) + rec('G', 0, 0xB8)
    while len(records) < 4 * count:
        op = r.choice('BDGWWWRRALLLLLLFMU')
        a, value = r.randrange(65536), r.randrange(256)
        if op == 'B':
            value = r.choice([1, 4, 5, 6, 9, 12, 13, value])
        elif op == 'D':
            value = r.choice([0, 2, 7, value])
        elif op == 'G':
            value = r.choice([0xB8, 0xB8, 0x80, 0x91, value])
        elif op in 'WR':
            a = r.choice([0x4000 + r.randrange(4096), 0x6000 + r.randrange(128), 0x6400 + r.randrange(66),
                          0x6800 + r.randrange(16), 0x6C00 + r.randrange(16), 0x6C0F, a])
        if r.randrange(100) == 0:
            n = r.randrange(3)
            records += rec('W', 0x6C02 + 4 * n, r.randrange(3)) + rec('W', 0x6C0F, 7) + rec('W', 0x6800, r.randrange(8))
        if r.randrange(400) == 0:
            records += rec('E', a, value)
        if r.randrange(25) == 0:
            n = r.choice([0, 1, 2, 0, 1, 2, 3, 255, 256, 257, a])
            records += rec('Q', n, r.choice([0, 1, value]))
        if r.randrange(12) == 0:
            records += rec('H', a, value)
        if r.randrange(200) == 0:
            records += rec('B', 0, 1) + rec('D', 0, 40) + rec('B', 0, 6) + rec('D', 0, 127) + rec('P', a, value)
        if r.randrange(4000) == 0:
            records += b''.join(rec('W', r.choice([0x4000, 0x6000, 0x6400, 0x6C00]) + r.randrange(12), r.randrange(256))
                                for _ in range(400)) + rec('E') + rec('U') * 300 + rec('E')
        if r.randrange(2000) == 0:
            records += rec('Z') + b''.join(rec('B', 0, byte) for byte in UNLOCK) + rec('G', 0, 0xB8)
        records += rec(op, a, value)
    return ram_of({0: words}), records[:4 * count]


def editors(seed, count):
    """The same with page calls of both editors, and starts, the first of which finds that nothing waits. Now and then the picture editor
    writes more in a row than can be undone."""
    r = random.Random(seed)
    ram, records = mixed(seed, count)
    out = rec('S')
    for i in range(0, len(records), 4):
        op = records[i:i + 1]
        out += (op.lower() if op in b'WRU' and r.randrange(2) else op) + records[i + 1:i + 4]
        if r.randrange(10) == 0:
            out += rec('T', r.randrange(18), r.randrange(256))
        if r.randrange(40) == 0:
            out += rec('S', r.randrange(65536), r.randrange(256))
        if r.randrange(1500) == 0:
            out += b''.join(rec('w', 0x6400 + r.randrange(64), r.randrange(256)) for _ in range(600)) + rec('u') * 300 + rec('E')
    return ram, out[:4 * count]


def lists(seed, count):
    """The same with areas, lists that are placed and removed, and channels that are sent into the area. Areas are of few bytes or of many,
    now and then of as many as 64 short lists fill; there are bounds and lengths that are none, and handles above 63."""
    r = random.Random(seed)
    ram, records = mixed(seed, count)
    out = rec('K') + rec('X') + rec('N')
    low, high = 0, 0
    for i in range(0, len(records), 4):
        out += records[i:i + 4]
        if r.randrange(60) == 0:
            if r.randrange(2) == 0:
                out += rec('Z') + b''.join(rec('B', 0, byte) for byte in UNLOCK) + rec('G', 0, 0xB8)
            size = r.choice([16, 32, 48, 64, 100, 128, 128, 200, 1024, 8192])
            low = r.choice([2 * r.randrange((65536 - size) // 2), 65536 - size])
            high = low + size
            if r.randrange(10) == 0:
                low, high = 0, 65536
            wrong = r.choice([(low + 1, high), (low, high - 1), (high, low), (low, low), (low, high + 65536), (low + 65536, high)])
            for bounds in [wrong, (low, high)]:
                out += b''.join(rec('T', 7 + n, byte) for n, byte in enumerate(b''.join(b.to_bytes(4, 'little') for b in bounds)))
                out += rec('N', r.randrange(65536), r.randrange(256))
        if r.randrange(3) == 0:
            size = r.choice([2, 2, 4, 6, 2 * r.randrange(1, 20), 2 * r.randrange(1, 128), r.randrange(256)])
            if r.randrange(30) == 0:
                out += rec('T', 15, r.choice([1, r.randrange(40), r.randrange(256)]))
                out += rec('K', r.randrange(65536), size) * 3 + rec('T', 15, 0)
            out += rec('K', r.randrange(65536), size)
        if r.randrange(3) == 0:
            out += rec('X', r.randrange(65536), r.choice([r.randrange(4), r.randrange(16), r.randrange(70), r.randrange(256)]))
        if r.randrange(12) == 0:
            n, a = r.randrange(3), low + 2 * r.randrange(min(high - low, 100) // 2 + 1) & 0xFFFF
            out += rec('W', 0x6C00 + 4 * n, a & 255) + rec('W', 0x6C01 + 4 * n, a >> 8) + rec('W', 0x6C0F, r.choice([1, 2, 4, 7]))
            for _ in range(r.randrange(8)):
                out += rec('L') + rec('X', 0, r.randrange(12))
        if r.randrange(200) == 0:
            out += b''.join(rec('K', r.randrange(65536), 2) for _ in range(66)) + rec('X', 0, 64) + rec('X', 0, 63)
            out += b''.join(rec('X', 0, r.randrange(64)) + rec('K', 0, 2) for _ in range(10))
    return ram, out[:4 * count]


def pair(name, ram, records):
    with open(os.path.join(HERE, name + '.in'), 'wb') as f:
        f.write(ram + STORE + records)
    with open(os.path.join(HERE, name + '.out'), 'w') as f:
        f.write(model.play(ram, STORE, records))


stored()
pair('bad', ram_of(LISTS), rec('a') + rec('M', 0x8000, 0x77) + rec('?', 0x8000, 1) + rec('F', 0x8000, 0) + b'\xff\0\x80\0')
# a block of input has 16,384 records
pair('mixed', *mixed(1, 20000))
pair('editors', *editors(7, 8000))
pair('lists', *lists(12, 12000))
