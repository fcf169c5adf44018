#!/usr/bin/env python3
"""A little model of the whim bus over a disk and a film recorder, written from docs/BUS.md and docs/SHELF.md alone.

It plays the host that crates/whim_tests plays, on many tables of whim bytes, and prints the rows that the test compares with:
the table's seed and the Adler-32 of all that was shown (kind, then the byte or target that goes with it, or 0), one pair for each turn.

    python3 tools/whim_model.py          # seed, Adler-32 of what was shown, bytes on the film
    python3 tools/whim_model.py task     # what the second task of crates/print_strip should print
"""
import sys
import zlib

DATA_OUT, DATA_IN, COMMAND, STATUS, MESSAGE_IN, FREE, RESELECT, PAUSE = 0, 1, 2, 3, 7, 8, 9, 10
TURNS = 24000


class Disk:
    def __init__(self, target, blocks):
        self.target, self.data = target, bytearray(blocks * 512)

    def parse(self, lun, c):
        if lun or len(c) != 6 or c[0] not in (8, 10):
            return None
        block, count = (c[1] % 32) * 65536 + c[2] * 256 + c[3], c[4] or 256
        if count > 4 or (block + count) * 512 > len(self.data):
            return None
        return c[0], block * 512, count * 512

    def way(self, lun, c):
        p = self.parse(lun, c)
        return ("none", 0) if not p else ("in" if p[0] == 8 else "out", p[2])

    def byte(self, lun, c, i):
        return self.data[self.parse(lun, c)[1] + i]

    def status(self, lun, c):
        return 0 if self.parse(lun, c) or (lun == 0 and len(c) == 6 and c[0] == 0) else 2

    def finish(self, lun, c, out):
        p = self.parse(lun, c)
        if p and p[0] == 10:
            self.data[p[1]:p[1] + p[2]] = out


class Recorder:
    def __init__(self, target, space):
        self.target, self.film, self.space = target, bytearray(), space

    def count(self, lun, c):
        n = c[2] * 65536 + c[3] * 256 + c[4] if len(c) == 6 else 1
        return n if lun == 0 and len(c) == 6 and c[0] == 10 and n <= 2048 and n % 128 == 0 else None

    def way(self, lun, c):
        n = self.count(lun, c)
        return ("none", 0) if n is None else ("out", n)

    def status(self, lun, c):
        n = self.count(lun, c)
        if n is None:
            return 0 if lun == 0 and len(c) == 6 and c[0] == 0 else 2
        return 0 if len(self.film) + n <= self.space else 2

    def finish(self, lun, c, out):
        if self.count(lun, c) is not None and self.status(lun, c) == 0:
            self.film += bytes(out)


class Nexus:
    def __init__(self, target, lun, leave, tag):
        self.target, self.lun, self.leave, self.tag = target, lun, leave, tag
        self.command = self.status = None
        self.place = self.saved = 0
        self.out = []


class WhimBus:
    """What is shown is fixed when a call ends, and kept in `shown`."""

    def __init__(self, devices, whims):
        self.devices, self.whims, self.at = {d.target: d for d in devices}, whims, 0
        self.rows, self.line, self.shown = [None] * 16, None, (FREE, 0)

    def draw(self):
        w = self.whims[self.at]
        self.at = (self.at + 1) % 256
        return w

    def settle(self):
        if self.line is None:
            away, odd = [r for r in self.rows if r], self.draw() % 2 == 1
            self.coming = away[0] if away and odd else None
            self.shown = (RESELECT, self.coming.target) if self.coming else (FREE, 0)
        elif self.line[0] == "greeting":
            self.shown = (MESSAGE_IN, self.line[2][0])
        else:
            x = self.line[1]
            if x.command is None:
                self.shown = (COMMAND, 0)
            elif x.status is not None:
                self.shown = (MESSAGE_IN, 0)
            else:
                self.shown = self.underway(x, self.draw() % 4)

    def underway(self, x, w):
        device = self.devices[x.target]
        way, n = device.way(x.lun, x.command)
        if w in (1, 2) or (w == 3 and x.leave):
            return (MESSAGE_IN, w + 1)
        if x.place < n:
            return (DATA_IN, device.byte(x.lun, x.command, x.place)) if way == "in" else (DATA_OUT, 0)
        readers = [r for r in self.rows if r and r.command and (r.target, r.lun) == (x.target, x.lun) and device.way(r.lun, r.command)[0] == "in"]
        if way == "out" and readers:
            if x.saved != x.place:
                return (MESSAGE_IN, 2)
            return (MESSAGE_IN, 4) if x.leave else (PAUSE, 0)
        return (STATUS, device.status(x.lun, x.command))

    def select(self, target, lun, leave, tag):
        if self.shown[0] != FREE or None not in self.rows or any(r and (r.target, r.lun, r.tag) == (target, lun, tag) for r in self.rows):
            return "refused"
        if target not in self.devices:
            self.settle()
            return "absent"
        if self.draw() % 2 == 1:
            self.settle()
            return "lost"
        x = Nexus(target, lun, leave, tag)
        self.rows[self.rows.index(None)] = x
        self.line = ("held", x)
        self.settle()
        return "selected"

    def accept(self):
        if self.shown[0] != RESELECT:
            return "refused"
        x = self.coming
        self.line = ("greeting", x, [0x80 + x.lun] + ([0x20, x.tag] if x.tag is not None else []))
        self.settle()

    def command(self, c):
        if self.shown[0] != COMMAND:
            return "refused"
        self.line[1].command = c
        self.settle()

    def give(self, byte):
        if self.shown[0] != DATA_OUT:
            return "refused"
        x = self.line[1]
        x.out = x.out[:x.place] + [byte]
        x.place += 1
        self.settle()

    def take(self):
        kind, byte = self.shown
        if kind not in (DATA_IN, STATUS, MESSAGE_IN):
            return "refused"
        x = self.line[1]
        if self.line[0] == "greeting":
            rest = self.line[2][1:]
            self.line = ("greeting", x, rest) if rest else ("held", x)
        elif kind == DATA_IN:
            x.place += 1
        elif kind == STATUS:
            x.status = byte
        elif byte == 2:
            x.saved = x.place
        elif byte in (3, 4):
            x.place = x.saved
            if byte == 4:
                self.line = None
        else:
            self.devices[x.target].finish(x.lun, x.command, x.out[:x.place])
            self.rows[self.rows.index(x)] = None
            self.line = None
        self.settle()

    def speak(self, message):
        if self.shown[0] in (FREE, RESELECT):
            return "refused"
        if message in (6, 13):
            if self.line[0] == "held":
                self.rows[self.rows.index(self.line[1])] = None
            self.line = None
        self.settle()

    def wait(self):
        self.settle()

    def reset(self):
        self.rows, self.line = [None] * 16, None
        self.settle()


# what the host asks for, in turn and round and round: target, LUN, leave, tag, command
ORDERS = [
    (3, 0, True, None, [0x0A, 0, 0, 0, 128, 0]),
    (0, 0, True, 2, [0x08, 0, 0, 2, 1, 0]),
    (0, 0, True, 1, [0x0A, 0, 0, 2, 1, 0]),
    (3, 1, False, None, [0x00, 0, 0, 0, 0, 0]),
    (0, 0, True, 3, [0x08, 0, 0, 2, 2, 0]),
    (3, 0, True, 255, [0x0A, 0, 0, 1, 0, 0]),
    (5, 0, True, None, [0x00, 0, 0, 0, 0, 0]),
]


def play(whims):
    bus, log, order, given = WhimBus([Disk(0, 8), Recorder(3, 1024)], whims), bytearray(), 0, 0
    for turn in range(TURNS):
        kind = bus.shown[0]
        if turn % 6000 == 5999:
            bus.reset()
        elif turn % 503 == 502 and kind not in (FREE, RESELECT):
            bus.speak(6)
        elif turn % 101 == 100 and kind not in (FREE, RESELECT):
            bus.speak(8)
        elif turn % 7 == 6 and kind != DATA_OUT:
            assert bus.give(1) == "refused"
        elif kind == FREE:
            target, lun, leave, tag, command = ORDERS[order]
            came = bus.select(target, lun, leave, tag)
            if came == "selected":
                bus.command(command)
            if came == "refused":
                bus.wait()
            if came != "lost":
                order = (order + 1) % len(ORDERS)
        elif kind == RESELECT:
            bus.accept()
        elif kind == DATA_OUT:
            bus.give(given % 251)
            given += 1
        elif kind == PAUSE:
            bus.wait()
        else:
            bus.take()
        log += bytes(bus.shown)
    return zlib.adler32(bytes(log)), len(bus.devices[3].film)


def table(seed):
    """256 whim bytes by a linear congruential generator; five of six are made multiples of 4, so that data moves most of the time."""
    x, whims = seed, []
    for _ in range(256):
        x = (x * 1664525 + 1013904223) % 2**32
        whims.append(x // 2**24 if x // 2**16 % 6 == 0 else x // 2**26 * 4)
    return whims


class Task:
    """The second task of the program: a strip of 1,024 bytes to the disk, back, and onto film, one untagged command at a time."""

    def __init__(self):
        whims = [0] * 256
        for place, whim in ((5, 1), (60, 1), (61, 3), (64, 1), (130, 2), (180, 3), (183, 1), (200, 1), (240, 2)):
            whims[place] = whim
        self.bus = WhimBus([Disk(0, 64), Recorder(3, 8192)], whims)
        self.copy = bytearray(1024)

    def ask(self, target, text, command, out=b"", into=0):
        bus, is_open, current, saved, status = self.bus, False, 0, 0, 0
        print(f"target {target} LUN 0 {text}")
        while True:
            kind, byte = bus.shown
            if kind == FREE and is_open or kind == PAUSE:
                bus.wait()
            elif kind == FREE:
                came = bus.select(target, 0, True, None)
                is_open = came == "selected"
                if came == "lost":
                    print("  selection lost")
            elif kind == RESELECT:
                print(f"  reselected by target {byte}, at place {saved}")
                bus.accept()
            elif kind == COMMAND:
                bus.command(command)
            elif kind == DATA_OUT:
                bus.give(out[current])
                current += 1
            else:
                bus.take()
                if kind == DATA_IN:
                    self.copy[into + current] = byte
                    current += 1
                elif kind == STATUS:
                    status = byte
                elif byte == 0:
                    break
                elif byte == 2:
                    saved = current
                elif byte == 3:
                    print(f"  back from place {current} to {saved}")
                    current = saved
                elif byte == 4:
                    print(f"  disconnected at place {current}, saved {saved}")
                    current = saved
        print(f"  {current} bytes, status {status:02X}h")

    def run(self):
        strip = bytes((7 * i + i // 128) % 256 for i in range(1024))
        print(f"strip over the whim bus: 1024 bytes, Adler-32 {zlib.adler32(strip):08x}")
        for block in range(2):
            self.ask(0, f"WRITE block {block}", [10, 0, 0, block, 1, 0], out=strip[block * 512:])
        for block in range(2):
            self.ask(0, f"READ block {block}", [8, 0, 0, block, 1, 0], into=block * 512)
        assert self.copy == strip
        print("compared: the strip came back as it was written")
        self.ask(3, "PRINT 1024 bytes", [10, 0, 0, 4, 0, 0], out=strip)
        film = bytes(self.bus.devices[3].film)
        print(f"film: {len(film)} bytes, Adler-32 {zlib.adler32(film):08x}")


if __name__ == "__main__":
    if sys.argv[1:] == ["task"]:
        Task().run()
    else:
        for seed in range(1, 33):
            checksum, film = play(table(seed))
            print(f"    Row({seed}, 0x{checksum:08x}, {film}),")
