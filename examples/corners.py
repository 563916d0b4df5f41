"""Runs of `ble pair` that go to corners, each made from a number: check-turns.py looks at their journals.

A run has four sessions, each with a link or two. The layouts of commands are in docs/hci.md, and the schedule is in
docs/schedule-and-journal.md. What a host asks for does not depend on what became of it, so many commands are refused.
"""
import random

OTHER = {"a": "b", "b": "a"}
HEAD = "ble-schedule 1\nside a c0ffee00000a 71764129 %s\nside b c0ffee00000b 5a3c9d17 %s\n"
ADDRESS = {"a": bytes.fromhex("0a0000eeffc0"), "b": bytes.fromhex("0b0000eeffc0")}
RANDOM_ADDRESS = bytes.fromhex("0600000000c6")
REASONS = [0x05, 0x13, 0x14, 0x15, 0x1A, 0x29, 0x3B]
TIMEOUT = 40  # of a link: 320 slots


def u16(*values):
    return b"".join(value.to_bytes(2, "little") for value in values)


def command(opcode, fields=b""):
    return b"\x01" + u16(opcode) + bytes([len(fields)]) + fields


def acl(handle, start, octets):
    return b"\x02" + u16(handle | (0 if start else 0x1000), len(octets)) + octets


class Run:
    """Two streams and a schedule, made in the order of the turns."""

    def __init__(self, rng):
        self.rng = rng
        self.now = 0
        self.said = {}  # by turn: what each host sends in it
        self.losses = []  # the turns from which on packets are lost, and how often

    def say(self, side, octets, later=0):
        """A host sends octets, so many turns later."""
        self.said.setdefault(self.now + later, {"a": b"", "b": b""})[side] += octets

    def fate(self, loss):
        if self.rng.random() >= loss:
            return "."
        if self.rng.random() < 0.8:
            return "x"
        return "e%d:%s" % (self.rng.randrange(4, 9), self.rng.randbytes(3).hex())

    def texts(self):
        """The two streams, and the schedule."""
        words = [" ".join(self.rng.randbytes(8).hex() for _ in range(count)) for count in (5, 3)]
        turns, streams, in_burst = [], {"a": b"", "b": b""}, False
        for turn in range(self.now):
            loss = next(loss for since, loss in reversed(self.losses) if since <= turn)
            in_burst = self.rng.random() < (0.9 if in_burst else 0.03) and loss > 0
            said = self.said.get(turn, {})
            counts = [f"{side}{len(octets)}" for side, octets in said.items() if octets]
            for side, octets in said.items():
                streams[side] += octets
            radios = self.rng.choice(["+-", "-+"]) if in_burst and self.rng.random() < 0.05 else "++"
            fates = [self.fate(loss) for _ in range(4)] if in_burst else []
            turns.append(" ".join(["t", radios] + counts + fates))
        return streams["a"], streams["b"], HEAD % tuple(words) + "\n".join(turns) + "\n"


class Session:
    """A link, or two, of one central, and what both hosts ask for on them."""

    def __init__(self, run, is_first):
        self.run, self.rng = run, run.rng
        rng = self.rng
        self.central = rng.choice("ab")
        self.peripheral = OTHER[self.central]
        self.interval = rng.choice([6, 6, 7, 10])
        run.losses.append((run.now, rng.choice([0, 0.3, 0.6, 0.9])))
        if not is_first:
            run.now += rng.choice([8 * TIMEOUT + 10, rng.randrange(1, 20)])
            for side in "ab":
                run.say(side, command(0x0C03))
        self.handles = [0]
        self.key = rng.randbytes(16)
        for side in "ab":
            run.say(side, self.masks())
            if rng.random() < 0.4:
                run.say(side, command(0x0C33, u16(rng.choice([27, 60, 251])) + b"\0" + u16(rng.choice([1, 1, 2]), 0)))
                run.say(side, command(0x0C31, b"\1"))
        self.connect(0)
        if rng.random() < 0.25:
            run.now += 30
            run.say(self.central, command(0x2005, RANDOM_ADDRESS))
            self.connect(1)
            self.handles.append(1)
        run.now += 30
        deeds = [self.data, self.data, self.flood, self.returns, self.update, self.request, self.map, self.phy]
        deeds += [self.ask, self.length, self.encrypt, self.refused, self.beside, self.rest, self.new_masks]
        for _ in range(rng.randrange(12, 30)):
            for deed in rng.sample(deeds, rng.choice([1, 1, 2, 3])):
                deed(rng.choice(self.handles))
            run.now += self.interval * rng.choice([1, 2, 3, 8])
        self.leave()
        run.now += self.interval * rng.choice([2, 12, 40])

    def soon(self, events):
        """Some turns in so many events."""
        return self.rng.randrange(self.interval * events + 1)

    def either(self):
        return self.rng.choice(["a", "b", "ab"])

    def masks(self):
        mask = (1 << 62) - 1 if self.rng.random() < 0.85 else 1 << 61 | self.rng.getrandbits(48)
        le_mask = 0xFFFFF if self.rng.random() < 0.7 else 0xFFFFF & ~(1 << self.rng.choice([4, 5, 6, 3]))
        return command(0x0C01, mask.to_bytes(8, "little")) + command(0x2001, le_mask.to_bytes(8, "little"))

    def parameters(self):
        return u16(self.interval, self.interval, self.rng.choice([0, 0, 1, 2, 4, 4]), TIMEOUT, 0, 0)

    def connect(self, own):
        advertise = u16(0x20, 0x20) + bytes(9) + b"\7\0"
        create = u16(0x60, 0x60) + b"\0\0" + ADDRESS[self.peripheral] + bytes([own]) + self.parameters()
        self.run.say(self.peripheral, command(0x2006, advertise) + command(0x200A, b"\1"))
        self.run.say(self.central, command(0x200D, create))

    def data(self, handle):
        for side in self.either():
            for _ in range(self.rng.choice([1, 2, 4])):
                size = self.rng.choice([0, 1, 5, 27, 28, 70, 251, 252])
                self.run.say(side, acl(handle, self.rng.random() < 0.7, self.rng.randbytes(size)), self.soon(2))

    def flood(self, handle):
        """More pieces than a controller keeps for a host that does not return them, and what comes behind them."""
        side = self.rng.choice("ab")
        for events in range(0, 8, 2):
            octets = b"".join(acl(handle, True, self.rng.randbytes(2)) for _ in range(6))
            self.run.say(side, octets, events * self.interval)
        if self.rng.random() < 0.5:
            self.run.now += 8 * self.interval
            if self.rng.random() < 0.5:
                self.encrypt(handle)
            if self.rng.random() < 0.3:
                self.leave(handle, self.soon(2))

    def returns(self, handle):
        count = self.rng.choice([1, 1, 1, 2, 9])
        self.run.say(self.rng.choice("ab"), command(0x0C35, b"\1" + u16(handle, count)), self.soon(2))

    def update(self, handle):
        self.run.say(self.central, command(0x2013, u16(handle) + self.parameters()), self.soon(1))
        if self.rng.random() < 0.5:
            self.rest(handle)

    def request(self, handle):
        self.run.say(self.peripheral, command(0x2013, u16(handle) + self.parameters()), self.soon(1))
        for later in range(2, 9, 2):
            if self.rng.random() < 0.6:
                answer = command(0x2020, u16(handle) + self.parameters())
            else:
                answer = command(0x2021, u16(handle) + b"\x3b")
            self.run.say(self.central, answer, later * self.interval)

    def map(self, _handle):
        for side in self.either():
            for _ in range(self.rng.choice([1, 1, 2])):
                channels = self.rng.choice([0x300, 0x155, (1 << 37) - 1])
                self.run.say(side, command(0x2014, channels.to_bytes(5, "little")), self.soon(6))

    def phy(self, handle):
        for side in self.either():
            self.run.say(side, command(0x2032, u16(handle) + b"\0\1\1" + u16(0)), self.soon(1))

    def ask(self, handle):
        """Features or versions."""
        for side in self.either():
            self.run.say(side, command(self.rng.choice([0x2016, 0x041D]), u16(handle)), self.soon(1))

    def length(self, handle):
        for side in self.either():
            octets = self.rng.choice([27, 27, 40, 100, 251])
            self.run.say(side, command(0x2022, u16(handle, octets, self.rng.choice([328, 2120]))), self.soon(1))

    def encrypt(self, handle):
        """It starts, or pauses and starts again; the host of the peripheral has the key, or none, or says nothing."""
        if self.rng.random() < 0.3:
            self.key = self.rng.randbytes(16)
        self.run.say(self.central, command(0x2019, u16(handle) + bytes(10) + self.key), self.soon(1))
        has_key = self.rng.random() < 0.75
        answer = command(0x201A, u16(handle) + self.key) if has_key else command(0x201B, u16(handle))
        for later in range(1, 9):
            self.run.say(self.peripheral, answer, later * self.interval + self.soon(1))
        if self.rng.random() < 0.5:
            self.ask(handle)
        if self.rng.random() < 0.15:
            self.leave(handle, self.soon(8))

    def refused(self, handle):
        bad = [
            command(0x0406, u16(9) + b"\x13"),
            command(0x0406, u16(handle) + b"\x16"),
            command(0x2013, u16(handle, 6, 5, 0, TIMEOUT, 0, 0)),
            command(0x2014, bytes(5)),
            command(0x201B, u16(handle)),
            command(0x2021, u16(handle) + b"\x3b"),
            command(0x0C31, b"\1"),
            command(0x2022, u16(handle, 26, 328)),
            command(0x200E),
            command(0x2FFF, b"\0\0"),
            acl(7, True, b"nobody"),
        ]
        for side in self.either():
            self.run.say(side, self.rng.choice(bad), self.soon(1))

    def beside(self, _handle):
        """Advertisers that nobody may connect to, and scanners."""
        side = self.rng.choice("ab")
        advertise = u16(0x20, 0xA0) + b"\3" + bytes(8) + b"\7\0"
        on, off = command(0x200A, b"\1"), command(0x200A, b"\0")
        scan = command(0x200B, bytes([self.rng.randrange(2)]) + u16(0x30, self.rng.choice([0x30, 8])) + b"\0\0")
        self.run.say(side, command(0x2006, advertise) + on)
        self.run.say(OTHER[side], scan + command(0x200C, b"\1\0"))
        self.run.say(side, off, self.soon(12))
        self.run.say(OTHER[side], command(0x200C, b"\0\0"), self.soon(12))

    def rest(self, _handle):
        """Nothing is asked for some events, so that latency may show."""
        self.run.now += self.interval * 14

    def new_masks(self, _handle):
        self.run.say(self.rng.choice("ab"), self.masks(), self.soon(1))

    def leave(self, handle=0, later=0):
        for side in self.either():
            self.run.say(side, command(0x0406, u16(handle) + bytes([self.rng.choice(REASONS)])), later)


def random_run(seed):
    run = Run(random.Random(seed))
    for place in range(4):
        Session(run, place == 0)
    run.now += 8 * TIMEOUT
    return run.texts()
