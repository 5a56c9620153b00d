"""The chip of documents 01 and 02, written from these alone, for the expected output of plus_run and `plus run`.

A Chip is played by play(ram, store, records); it answers the lines that the program should print."""

KEY = [0xFF, 0x77, 0xB3, 0x51, 0xA8, 0xD4, 0x62, 0x39, 0x9C, 0x46, 0x2B, 0x15, 0x8A]
KEPT = {1: 8, 4: 7, 5: 5, 6: 7, 9: 5, 12: 6, 13: 8}
CHARACTERS = '0123456789abcdefghijklmnopqrstuv'
# an editor's number; the song editor's is 0
PICTURE = 1


class Channel:
    def __init__(self):
        self.enabled = self.interrupt = self.muted = False
        self.address = self.prescale = self.pause = self.count = self.loops = self.mark = 0


class Chip:
    def __init__(self):
        self.history = []
        self.unlocked = self.mapped = False
        self.mode = self.selected = 0
        self.r = dict.fromkeys(KEPT, 0)
        self.vc = self.rc = self.address = 0
        self.adjust = False
        self.held = None
        self.sprites = [[0, 0, 0] for _ in range(16)]
        self.palette = [0] * 64
        self.video = [0] * 5
        self.ivr = 1
        self.channels = [Channel() for _ in range(3)]
        self.psg = [0] * 16
        self.raster = self.last_raster = False
        self.records = [[], []]
        self.table = None
        self.area = None
        self.lists = {}

    # lock and ports
    def bc(self, byte):
        self.selected = byte % 32
        self.history = (self.history + [byte])[-17:]
        h = self.history
        if len(h) == 17 and h[0] != 0 and h[1] == 0 and h[2:15] == KEY and h[15] == 0xCD:
            self.unlocked = True
        h = h[-16:]
        if len(h) == 16 and h[0] != 0 and h[1] == 0 and h[2:15] == KEY and h[15] != 0xCD:
            self.unlocked = False
        return 0

    def data(self, byte):
        if self.selected not in KEPT:
            return 3
        self.r[self.selected] = byte % 2 ** KEPT[self.selected]
        return 0

    def gate(self, byte):
        top = byte >> 5
        if top == 5 and self.unlocked:
            self.mapped = (byte >> 3) & 3 == 3
            return 0
        if top in (4, 5):
            self.mode = byte & 3
            if byte & 16:
                self.raster = False
            return 0
        return 3

    # the table: numbers whose bit n says whether palette entry, sprite or channel n is the picture editor's
    def start(self, palette, sprites, channels):
        self.table = palette, sprites, channels
        self.records = [[], []]
        return 0

    # may this editor write there, where a write can be undone
    def owns(self, editor, a):
        if self.table is None:
            return True
        palette, sprites, channels = self.table
        if a < 0x5000:
            owner = sprites >> (a - 0x4000) // 256 & 1
        elif a < 0x6080:
            owner = sprites >> (a - 0x6000) // 8 & 1
        elif a < 0x6440:
            owner = palette >> (a - 0x6400) // 2 & 1
        elif a == 0x6805:
            return False
        elif a < 0x6805:
            owner = PICTURE
        else:
            owner = channels >> (a - 0x6C00) // 4 & 1
        return owner == editor

    def own_channels(self, editor):
        return [n for n in range(3) if self.owns(editor, 0x6C00 + 4 * n)]

    # the register page
    def write(self, editor, store, a, byte):
        if not 0x4000 <= a < 0x8000 or not self.mapped:
            return 2
        if a == 0x6C0F:
            self.control(editor, byte)
            return 0
        before = self.contents(store, a)
        if before is None:
            return 9 if 0x6808 <= a < 0x6810 else 3
        if not self.owns(editor, a):
            return 15
        self.records[editor] = (self.records[editor] + [(a, before)])[-256:]
        self.put(store, a, byte & 15 if a < 0x5000 else byte)
        return 0

    def control(self, editor, byte):
        for n in self.own_channels(editor):
            self.channels[n].enabled = bool(byte >> n & 1)
            if byte >> 6 - n & 1:
                self.channels[n].interrupt = False

    def put(self, store, a, byte):
        if a < 0x5000:
            store[a - 0x4000] = byte
        elif a < 0x6080:
            s, place = self.sprites[(a - 0x6000) // 8], a % 8
            if place == 0:
                s[0] = s[0] & 0x300 | byte
            elif place == 1:
                s[0] = s[0] & 0xFF | (byte & 3) << 8
            elif place == 2:
                s[1] = s[1] & 0x100 | byte
            elif place == 3:
                s[1] = s[1] & 0xFF | (byte & 1) << 8
            else:
                s[2] = byte & 15
        elif a < 0x6440:
            self.palette[a - 0x6400] = byte & 15 if a % 2 else byte
        elif a <= 0x6804:
            self.video[a - 0x6800] = byte & 63 if a == 0x6802 else byte
        elif a == 0x6805:
            self.ivr = byte
        else:
            c, place = self.channels[(a - 0x6C00) // 4], a % 4
            if place == 0:
                c.address = c.address & 0xFF00 | byte & 0xFE
            elif place == 1:
                c.address = c.address & 0xFF | byte << 8
            else:
                c.prescale = byte

    # what a register holds, or None where no write can be undone
    def contents(self, store, a):
        if 0x4000 <= a < 0x5000:
            return store[a - 0x4000]
        if 0x6000 <= a < 0x6080:
            x, y, magnification = self.sprites[(a - 0x6000) // 8]
            return (x & 255, x >> 8, y & 255, y >> 8)[a % 8] if a % 8 < 4 else magnification
        if 0x6400 <= a < 0x6440:
            return self.palette[a - 0x6400]
        if 0x6800 <= a <= 0x6804:
            return self.video[a - 0x6800]
        if a == 0x6805:
            return self.ivr
        if 0x6C00 <= a < 0x6C0C and a % 4 < 3:
            c = self.channels[(a - 0x6C00) // 4]
            return (c.address & 0xFE, c.address >> 8, c.prescale)[a % 4]
        return None

    def undo(self, editor, store):
        if not self.records[editor]:
            return 10
        self.put(store, *self.records[editor].pop())
        return 0

    def export(self):
        out = []
        for a in range(0x6000, 0x6C10):
            held = self.contents(None, a)
            if held is not None and not (a < 0x6080 and a % 8 > 4):
                out += [a & 255, a >> 8, held]
        return '0 ' + bytes(out).hex()

    def dcsr(self, editor):
        value = 128 if self.last_raster and self.table is None else 0
        for n in self.own_channels(editor):
            c = self.channels[n]
            value += (64 >> n if c.interrupt else 0) + (1 << n if c.enabled else 0)
        return value

    def x(self, n):
        x = self.sprites[n][0]
        return x - 1024 if x >= 768 else x

    def y(self, n):
        y = self.sprites[n][1]
        return y - 512 if y >= 256 else y

    def read(self, editor, store, a, bus):
        if not 0x4000 <= a < 0x8000 or not self.mapped:
            return 2, 0
        if a < 0x5000:
            return 0, store[a - 0x4000] & 15
        if 0x6000 <= a < 0x6080 and a % 8 < 4:
            n = (a - 0x6000) // 8
            value = self.x(n) if a % 8 < 2 else self.y(n)
            if a % 2 == 0:
                return 0, value & 255
            return 0, 255 if value < 0 else value >> 8
        if 0x6400 <= a < 0x6440:
            return 0, self.palette[a - 0x6400]
        if 0x6808 <= a < 0x6810:
            return 0, 0
        if 0x6C00 <= a < 0x6C10:
            return 0, self.dcsr(editor)
        return 0, bus

    # interrupts
    def acknowledge(self):
        top = self.ivr & 0xF8
        if self.raster:
            self.raster, self.last_raster = False, True
            return 0, top + 6
        for n, low in ((2, 0), (1, 2), (0, 4)):
            if self.channels[n].interrupt:
                self.last_raster = False
                if self.ivr & 1 == 0:
                    self.channels[n].interrupt = False
                return 0, top + low
        return 5, 0

    # 02, L12: room for lists. A list is known by its handle, and goes from its first address up to but not at its last
    def give(self, low, high):
        if self.area or low % 2 or high % 2 or not low < high <= 65536:
            return 18
        self.area = low, high
        return 0

    def place(self, ram, listed):
        size = len(listed)
        if len(ram) != 65536:
            return 1, 0, 0
        if not self.area or size == 0 or size % 2 or size > self.area[1] - self.area[0]:
            return 18, 0, 0
        free = [n for n in range(64) if n not in self.lists]
        if not free:
            return 19, 0, 0
        low, high = self.area
        for a in range(low, high - size + 1, 2):
            if all(a + size <= start or end <= a for start, end in self.lists.values()):
                self.lists[free[0]] = a, a + size
                ram[a:a + size] = listed
                return 0, a, free[0]
        return 20, 0, 0

    def remove(self, handle):
        if not self.area:
            return 18
        if handle not in self.lists:
            return 21
        if any(self.in_use(c, *self.lists[handle]) for c in self.channels):
            return 22
        del self.lists[handle]
        return 0

    def in_use(self, c, start, end):
        words = [c.address]
        if c.loops > 0:
            words += [c.mark] + list(range(c.mark, c.address + 1, 2))
        return c.enabled and any(start <= a < end for a in words)

    # 02, L13: the host mutes a channel, whose LOADs leave the PSG then, or lets it be heard again
    def mute(self, n, on):
        if n > 2:
            return 3
        self.channels[n].muted = on
        return 0

    # one line; two bits of the byte for each channel, from channel 0 up, are what the processor does at the 8255
    def sound(self, ram, processor):
        words = []
        for c in self.channels:
            if c.enabled and c.pause > 0:
                c.count += 1
                if c.count > c.prescale:
                    c.count = 0
                    c.pause -= 1
            if c.enabled and c.pause == 0:
                words.append(ram[c.address] + 256 * ram[(c.address + 1) % 65536])
                c.address = (c.address + 2) % 65536
            else:
                words.append(None)
        cycles, did = 1, []
        for n, (c, w) in enumerate(zip(self.channels, words)):
            if w is None:
                did.append('-')
                continue
            code, low, kind = w >> 12, w & 0xFFF, 'nothing'
            if code == 0:
                kind = 'load'
                if not c.muted:
                    self.psg[low >> 8] = low & 255
            elif code == 1:
                kind = 'pause'
                if low:
                    c.pause, c.count = low, 0
            elif code == 2:
                kind = 'repeat'
                c.loops, c.mark = low, c.address
            elif code == 4:
                kind = 'control'
                if low & 1 and c.loops:
                    c.loops -= 1
                    c.address = c.mark
                if low & 16:
                    c.interrupt = True
                if low & 32:
                    c.enabled = False
            cycles += 9 + (0, 1, 2, 2)[processor >> 2 * n & 3] if kind == 'load' else 2
            did.append('%s %d' % (kind, low))
        return cycles, did

    def line(self, ram, processor):
        cycles, did = self.sound(ram, processor)
        pri, split, high, low, sscr = self.video
        if pri and not self.adjust and pri == self.vc % 64 * 8 + self.rc % 8:
            self.raster = True
        if split and split == self.vc % 32 * 8 + self.rc % 8 and not (self.adjust and self.rc >= 8):
            self.held = high * 256 + low
        done = self.rc
        frame = False
        if self.adjust:
            if self.rc + 1 >= self.r[5]:
                frame = True
            else:
                self.rc += 1
        elif self.rc == self.r[9]:
            if self.vc == self.r[4] and self.r[5] == 0:
                frame = True
            else:
                self.adjust = self.vc == self.r[4]
                self.rc, self.vc = 0, (self.vc + 1) % 128
        else:
            self.rc = (self.rc + 1) % 32
        if frame:
            self.vc = self.rc = 0
            self.adjust = False
            self.address = self.r[12] * 256 + self.r[13]
        elif self.held is not None:
            self.address, self.held = self.held, None
        elif (done + (sscr >> 4 & 7)) % 32 == self.r[9]:
            self.address = (self.address + self.r[1]) % 16384
        return cycles, did

    # drawing
    def pen(self, ram, x):
        sscr = self.video[4]
        p = x - (sscr & 15)
        if p < 0:
            return 0
        a = (self.address + p // 16) % 16384
        at = a // 4096 * 16384 + (self.rc + (sscr >> 4 & 7)) % 8 * 2048 + a % 1024 * 2
        byte = ram[at + p // 8 % 2]
        i = p % 8
        if self.mode == 2:
            return byte >> 7 - i & 1
        if self.mode == 1:
            i //= 2
            return (byte >> 7 - i & 1) + 2 * (byte >> 3 - i & 1)
        i //= 4
        return sum((byte >> bit - i & 1) << k for k, bit in enumerate((7, 3, 5, 1)))

    def entry(self, ram, store, x):
        if self.adjust or self.vc >= self.r[6]:
            return 16
        if x // 16 >= self.r[1] or self.video[4] & 128 and x < 16:
            return 16
        for n in range(16):
            mx, my = self.sprites[n][2] >> 2 & 3, self.sprites[n][2] & 3
            dx = x - self.x(n)
            dy = self.vc * (self.r[9] + 1) + self.rc - self.y(n)
            if mx == 0 or my == 0 or dx < 0 or dy < 0:
                continue
            column, row = dx >> mx - 1, dy >> my - 1
            if column < 16 and row < 16 and store[256 * n + 16 * row + column] & 15:
                return 16 + (store[256 * n + 16 * row + column] & 15)
        return self.pen(ram, x)

    def draw(self, ram, store):
        return ''.join(CHARACTERS[self.entry(ram, store, x)] for x in range(640))

    # 02, L11: the line's call. In mode 3 it does neither; else the line is drawn, then stepped
    def show(self, ram, store, processor, shown):
        if self.mode == 3:
            return '4' if shown else '4 0 - - -'
        drawn = self.draw(ram, store) + ' ' if shown else ''
        cycles, did = self.line(ram, processor)
        return '0 %s%d %s' % (drawn, cycles, ' '.join(did))


def forecast(ram, start, prescale):
    words = []
    at = start // 2 * 2
    while True:
        if at > 0xFFFE:
            return '6 0 0 0 0'
        words.append(ram[at] + 256 * ram[at + 1])
        at += 2
        if words[-1] >> 12 == 4 and words[-1] & 32:
            break
    lines = cycles = most = 0
    for i, w in enumerate(words):
        passes = 1
        before = [k for k in range(i) if words[k] >> 12 == 2]
        if before:
            ends = [k for k in range(before[-1] + 1, len(words))
                    if words[k] >> 12 == 2 or words[k] >> 12 == 4 and words[k] & 1]
            if ends and words[ends[0]] >> 12 == 4 and i <= ends[0] < len(words) - 1:
                passes = (words[before[-1]] & 0xFFF) + 1
        pause = w & 0xFFF if w >> 12 == 1 else 0
        lines += passes * (pause * (prescale + 1) if pause else 1)
        cycles += passes * (9 if w >> 12 == 0 else 2)
        most += passes * (11 if w >> 12 == 0 else 2)
    return '0 %d %d %d %d' % (lines, cycles, 2 * len(words), most)


def play(ram, store, records):
    ram, store, chip, waiting, out = bytearray(ram), bytearray(store), Chip(), bytearray(16), []
    for i in range(0, len(records) // 4 * 4, 4):
        op, low, high, value = records[i:i + 4]
        a = low + 256 * high
        if op == ord('B'):
            out.append('%d' % chip.bc(value))
        elif op == ord('D'):
            out.append('%d' % chip.data(value))
        elif op == ord('G'):
            out.append('%d' % chip.gate(value))
        elif op in b'Ww':
            out.append('%d' % chip.write(b'Ww'.index(op), store, a, value))
        elif op in b'Rr':
            out.append('%d %d' % chip.read(b'Rr'.index(op), store, a, value))
        elif op in b'Uu':
            out.append('%d' % chip.undo(b'Uu'.index(op), store))
        elif op == ord('E'):
            out.append(chip.export())
        elif op == ord('A'):
            out.append('%d %d' % chip.acknowledge())
        elif op in b'LP':
            out.append(chip.show(ram, store, value, op == ord('P')))
        elif op == ord('F'):
            out.append(forecast(ram, a, value))
        elif op == ord('M'):
            ram[a] = value
            out.append('0')
        elif op == ord('T'):
            if a < 16:
                waiting[a] = value
            out.append('0')
        elif op == ord('S'):
            palette, sprites = int.from_bytes(waiting[:4], 'little'), int.from_bytes(waiting[4:6], 'little')
            out.append('%d' % chip.start(palette, sprites, waiting[6]))
        elif op == ord('N'):
            low, high = int.from_bytes(waiting[7:11], 'little'), int.from_bytes(waiting[11:15], 'little')
            out.append('%d' % chip.give(low, high))
        elif op == ord('K'):
            listed = bytes(ram[(a + i) % 65536] for i in range(value + 256 * waiting[15]))
            out.append('%d %d %d' % chip.place(ram, listed))
        elif op == ord('X'):
            out.append('%d' % chip.remove(value))
        elif op == ord('Q'):
            out.append('%d' % chip.mute(a, value != 0))
        elif op == ord('H'):
            out.append('0 ' + bytes(chip.psg).hex())
        elif op == ord('Z'):
            chip, waiting = Chip(), bytearray(16)
            out.append('0')
        else:
            out.append('bad')
    if len(records) % 4:
        out.append('short')
    return ''.join(line + '\n' for line in out)
