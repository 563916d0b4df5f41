#!/usr/bin/env python3
"""Runs `ble pair` on random data over a lossy radio, and compares what one host received with what the other submitted.

    python3 examples/check-data.py SEED [PROGRAM]

SEED is a number; the same one gives the same run. PROGRAM is crates/ble/out/ble if it is left out. It shows, of this one
run, by a plain reading of the journal's text and of nothing else:

- what a host receives of a link is the first octets of what the other host submitted, with the starts of messages at
  the same places, so nothing is lost in between, exchanged or received twice;
- each PDU that is taken is the next one that the other side sent, and is taken as its first good packet comes; each
  that is sent is the next piece, of at most 27 octets, of what was submitted, and goes out in the next packet;
- MD says whether more octets wait, and an empty PDU is sent as a new one only where none do;
- all that was taken is received by the host in the same turn;
- a packet is credited exactly where its last octet was acknowledged, or where it has no octet, and so never before the
  other side had all of it;
- exactly the packets that are too long, or find all buffers taken, are dropped with Data Buffer Overflow.

Both hosts start messages and continue them, with packets of all lengths, cut at any place. The radio loses and damages
packets, radios are off for a while, and links end by a timeout, or by a Reset of one side and then of the other.
"""
import bisect
import os
import random
import subprocess
import sys
import tempfile

BUFFERS = 8
LONGEST = 251
PIECE = 27
SUPERVISION = 256  # slots
LOSSES = [0.02, 0.1, 0.3, 0.5]  # of the packets on the air, in one session each
PACKETS = 400  # of each host in each session
HEAD = (
    "ble-schedule 1\n"
    "side a c0ffee00000a 71764129 0000000000000001\n"
    "side b c0ffee00000b 71764129 0000000000000002\n"
)
MASK = bytes.fromhex("01010c08ffffffffff1f0020")
# An advertising interval of 16 slots, and advertising turned on.
ADVERTISE = bytes.fromhex("0106200f" "2000" "2000" "00" "00" "00" "000000000000" "07" "00" "010a200101")
RESET = bytes.fromhex("01030c00")


class Fault(Exception):
    """A line of the journal is not as it must be."""


# ---- a random run


def connect(rng):
    """LE Create Connection to the device of B, with an interval, a latency and a supervision timeout."""
    interval = rng.choice([6, 6, 8, 11]).to_bytes(2, "little")
    latency = rng.choice([0, 0, 3]).to_bytes(2, "little")
    head = bytes.fromhex("010d2019" "6000" "6000" "00" "00" "0b0000eeffc0" "00")
    timeout = (SUPERVISION // 8).to_bytes(2, "little")
    return head + interval + interval + latency + timeout + bytes(4)


def acl(handle, flag, octets):
    return b"\x02" + (handle | flag << 12).to_bytes(2, "little") + len(octets).to_bytes(2, "little") + octets


def random_packet(rng):
    """Mostly for the handle 0, which the one link has, and of a length that a buffer has."""
    handle = 0 if rng.random() < 0.98 else rng.randrange(1, 4096)
    kind = rng.random()
    if kind < 0.06:
        length = 0
    elif kind < 0.08:
        length = rng.randrange(LONGEST + 1, 400)
    elif kind < 0.12:
        length = rng.choice([PIECE, 2 * PIECE, PIECE + 1, LONGEST])
    else:
        length = 1 + int(rng.expovariate(1 / 25)) % LONGEST
    return acl(handle, rng.choice([0, 1, 1, 2, 3]), rng.randbytes(length))


def random_fate(rng, loss):
    """Damage is within three octets after the access address, which a receiver always sees."""
    if rng.random() >= loss:
        return "."
    if rng.random() < 0.7:
        return "x"
    return "e%d:%s" % (rng.randrange(4, 9), rng.randbytes(3).hex())


class Host:
    """The octets of a host, and how many of them are fed in each turn."""

    def __init__(self):
        self.stream = b""
        self.fed = 0

    def give(self, octets):
        self.stream += octets

    def feed(self, count):
        count = min(count, len(self.stream) - self.fed)
        self.fed += count
        return count

    def feed_all(self):
        return self.feed(len(self.stream))


def random_run(rng):
    """The two streams and the schedule."""
    hosts = Host(), Host()
    turns = []

    def turn(radios, counts, fates):
        words = ["t", radios] + [f"{side}{count}" for side, count in zip("ab", counts) if count]
        turns.append(" ".join(words + fates))

    for session, loss in enumerate(rng.sample(LOSSES, len(LOSSES))):
        # the link before may hold data as it ends, by a timeout or by a Reset; what comes after is for no link
        times_out = session and rng.random() < 0.5
        if times_out:
            turns += ["t --"] * (SUPERVISION + 1)
        for host, start in zip(hosts, (connect(rng), ADVERTISE)):
            if session:
                host.give((b"" if times_out else RESET) + acl(0, 0, rng.randbytes(5)))
            host.give(MASK + start)
        begin = rng.choice([(0, 0), (0, 30), (30, 0)])
        for place in range(31):
            counts = [host.feed_all() if place == first else 0 for host, first in zip(hosts, begin)]
            turn("++", counts, [] if rng.random() < 0.9 else [random_fate(rng, loss) for _ in range(3)])
        for host in hosts:
            for _ in range(PACKETS):
                host.give(random_packet(rng))
        # about what the link can carry
        often = 0.12 * (1 - loss) ** 2
        off = 0
        while any(host.fed < len(host.stream) for host in hosts):
            if not off and rng.random() < 0.002:
                off = rng.randrange(1, 40)
            off = max(off - 1, 0)
            radios = rng.choice(["-+", "+-", "--"]) if off else "++"
            counts = [host.feed(rng.randrange(1, 90)) if rng.random() < often else 0 for host in hosts]
            turn(radios, counts, [random_fate(rng, loss) for _ in range(6)])
        if rng.random() < 0.5:
            turns.append(f"run {rng.randrange(1, 300)}")
    return hosts[0].stream, hosts[1].stream, HEAD + "\n".join(turns) + "\n"


# ---- what the journal says


def marked(start, octets):
    """The octets, each with whether a message starts at it."""
    return [(start and place == 0, octet) for place, octet in enumerate(octets)]


def whitened(channel, octets):
    """The octets with the whitening of this channel taken off."""
    register = 0x40 | channel
    plain = bytearray()
    for octet in octets:
        for place in range(8):
            bit = register & 1
            octet ^= bit << place
            register = register >> 1 ^ (0x44 if bit else 0)
        plain.append(octet)
    return bytes(plain)


class Link:
    """One link as one side has it."""

    def __init__(self, handle):
        self.handle = handle
        # the packets with octets that its host submitted and that were not dropped: their marked octets, the number of
        # octets up to the end of each, and the PDUs that carry them
        self.submitted = []
        self.ends = []
        self.pieces = []
        self.empties = 0  # how many its host submitted with no octet; each is credited at once
        self.credited = 0  # how many of those with octets are credited
        self.sent = []  # LLID and octets of the PDUs that it sent, each once
        self.took = []  # and of those that it took
        self.taken = 0  # how many octets these have
        self.received = []  # the marked octets that its host received
        self.packets = 0  # in how many ACL packets
        self.acknowledged = 0  # how many of the PDUs that it sent are acknowledged
        self.out = True  # its last PDU, also an empty one, is not acknowledged; the first one counts as sent
        self.accepted = False  # the other side has accepted that PDU

    def keep(self, start, octets):
        self.submitted += marked(start, octets)
        self.ends.append(len(self.submitted))
        for place in range(0, len(octets), PIECE):
            self.pieces.append((2 if start and place == 0 else 1, octets[place : place + PIECE]))

    def whole(self, count):
        """How many of these packets have their last octet among this many first octets."""
        return bisect.bisect_right(self.ends, count)

    def octets_acknowledged(self):
        return sum(len(octets) for _, octets in self.sent[: self.acknowledged])


class Side:
    def __init__(self):
        self.links = {}  # by number, also those that have ended
        self.open = None  # the number of the one that is open
        self.unread = b""  # octets of a packet that is not whole yet
        self.due = []  # the events that the packets of this turn require at once
        self.on_air = None  # the last packet of this side on a link: its LLID, its octets and its verdict
        self.pending = False  # a good packet brought a PDU that it has not taken
        self.announced = False  # its last line is that of a new PDU

    def link(self):
        if self.open is None:
            raise Fault("no link is open")
        return self.links[self.open]

    def peer(self, other):
        """The same link as the other side has it, or had it."""
        if self.open not in other.links:
            raise Fault("the other side has never had this link")
        return other.links[self.open]

    def under(self, handle):
        link = self.links.get(self.open)
        return link if link and link.handle == handle else None

    def taken(self):
        """The buffers that are taken, all by the one link."""
        link = self.links.get(self.open)
        return len(link.ends) - link.credited if link else 0


def host_octets(side, octets):
    """The octets of a host: its packets are kept for the link, dropped, or credited at once."""
    side.unread += octets
    has_reset = False
    while True:
        head = {1: 4, 2: 5}[side.unread[0]] if side.unread else 5
        if len(side.unread) < head:
            return
        length = side.unread[3] if head == 4 else int.from_bytes(side.unread[3:5], "little")
        if len(side.unread) < head + length:
            return
        packet, side.unread = side.unread[: head + length], side.unread[head + length :]
        if packet == RESET:
            has_reset = True
        if packet[0] == 1 or has_reset:
            continue
        word = int.from_bytes(packet[1:3], "little")
        link = side.under(word & 0xFFF)
        if link is None:
            continue
        if length == 0:
            link.empties += 1
            side.due.append(bytes.fromhex("04130501") + link.handle.to_bytes(2, "little") + b"\x01\x00")
        elif length > LONGEST or side.taken() == BUFFERS:
            side.due.append(bytes.fromhex("041a0101"))
        else:
            link.keep(word >> 12 & 3 != 1, packet[5:])


def host_packet(side, other, octets):
    """A packet that a host receives."""
    if octets[0] == 2:
        word = int.from_bytes(octets[1:3], "little")
        link = side.under(word & 0xFFF)
        if link is None or len(octets) != 5 + int.from_bytes(octets[3:5], "little"):
            raise Fault("data of no link, or of another length")
        if word >> 12 not in (1, 2):
            raise Fault("other flags")
        begin = len(link.received)
        link.received += marked(word >> 12 == 2, octets[5:])
        link.packets += 1
        if link.received[begin:] != side.peer(other).submitted[begin : len(link.received)]:
            raise Fault("the host received what the other host did not submit")
    elif octets[1] in (0x13, 0x1A) and side.due:
        if octets != side.due.pop(0):
            raise Fault("another event is due for a packet of the host")
    elif octets[1] == 0x1A:
        raise Fault("no packet was dropped")
    elif octets[1] == 0x13:
        link = side.under(int.from_bytes(octets[4:6], "little"))
        if link is None or len(octets) != 8 or octets[3] != 1:
            raise Fault("a credit for no link")
        link.credited += int.from_bytes(octets[6:8], "little")
        if link.credited > link.whole(side.peer(other).taken):
            raise Fault("a credit for a packet that the other side has not taken whole")


def packet_on_air(side, other, channel, octets, verdict):
    """A packet on a data channel carries the last PDU that its side sent, or none."""
    link = side.link()
    pdu = whitened(channel, octets[4:])
    llid, body = pdu[0] & 3, pdu[2 : 2 + pdu[1]]
    if body and (not link.sent or link.sent[-1] != (llid, body)):
        raise Fault("a packet carries another PDU than the last one sent")
    waits = len(link.submitted) > sum(len(octets) for _, octets in link.sent)
    if bool(pdu[0] & 0x10) != waits:
        raise Fault("MD does not say whether more data waits")
    if side.announced != (bool(body) and not link.out):
        raise Fault("a packet with a new PDU, and no other, comes just after the line of that PDU")
    if not link.out:
        if waits and not body:
            raise Fault("a new empty PDU while data waits")
        link.out, link.accepted = True, False
    side.on_air = llid, body, verdict
    if verdict == "good":
        if other.open != side.open:
            raise Fault("a packet is good at another link")
        # it acknowledges all that its side has taken
        peer = other.link()
        peer.acknowledged = len(link.took)
        peer.out = peer.out and not peer.accepted
        link.accepted = link.accepted or not body
        other.pending = len(peer.took) < len(link.sent) and bool(body)


def a_turn_is_over(sides):
    for side in sides.values():
        if side.due:
            raise Fault("an event is missing")
        link = side.links.get(side.open)
        if link is None:
            continue
        if link.packets != len(link.took) or len(link.received) != link.taken:
            raise Fault("the host has not received all that was taken")
        if link.credited != link.whole(link.octets_acknowledged()):
            raise Fault("credits are not those of the packets that were acknowledged")


def read_line(sides, words):
    """One line of the journal. A line of a link names it by its number."""
    kind = words[0]
    if kind == "turn":
        a_turn_is_over(sides)
        return
    side, other = sides[words[1]], sides["b" if words[1] == "a" else "a"]
    on_link = kind == "air" and int(words[2]) < 37
    if side.announced and not on_link:
        raise Fault("a line between that of a new PDU and its packet")
    if side.pending != (kind == "took"):
        raise Fault("a PDU is taken as its first good packet comes, and not at another time")
    if kind == "in":
        host_octets(side, bytes.fromhex(words[2]))
    elif kind == "up":
        host_packet(side, other, bytes.fromhex(words[2]))
    elif kind == "open":
        side.open = words[2]
        side.links[side.open] = Link(int(words[3]))
    elif kind == "shut":
        side.open = None
    elif on_link:
        packet_on_air(side, other, int(words[2]), bytes.fromhex(words[3]), words[5])
    elif kind in ("sent", "took"):
        link = side.link()
        pdus = link.sent if kind == "sent" else link.took
        pdus.append((int(words[4]), bytes.fromhex(words[5])))
        if words[2] != side.open or int(words[3]) != len(pdus):
            raise Fault("another number")
        if kind == "sent":
            if link.pieces[len(pdus) - 1 : len(pdus)] != pdus[-1:] or link.acknowledged != len(pdus) - 1:
                raise Fault("another piece is due, or the one before is not acknowledged")
        else:
            link.taken += len(pdus[-1][1])
            if side.peer(other).sent[len(pdus) - 1 :] != pdus[-1:] or other.on_air != (*pdus[-1], "good"):
                raise Fault("another PDU was sent, or its packet was not received")
            side.peer(other).accepted = True
    side.pending = False
    side.announced = kind == "sent"


def compare(journal):
    sides = {"a": Side(), "b": Side()}
    for number, line in enumerate(journal.splitlines(), 1):
        try:
            read_line(sides, line.split(" "))
        except Fault as fault:
            sys.exit(f"line {number}: {fault}: {line[:100]}")
    a_turn_is_over(sides)
    return sides


def main():
    if len(sys.argv) not in (2, 3) or not sys.argv[1].isdecimal():
        sys.exit(__doc__)
    top = os.path.dirname(os.path.dirname(os.path.abspath(__file__)))
    program = os.path.abspath(sys.argv[2]) if len(sys.argv) == 3 else os.path.join(top, "crates/ble/out/ble")
    a, b, schedule = random_run(random.Random(int(sys.argv[1])))
    with tempfile.TemporaryDirectory() as folder:
        for name, content in (("a", a), ("b", b), ("schedule", schedule.encode())):
            with open(os.path.join(folder, name), "wb") as file:
                file.write(content)
        ended = subprocess.run([program, "pair", "a", "b", "schedule"], cwd=folder, capture_output=True, text=True)
    if ended.returncode:
        sys.exit(f"seed {sys.argv[1]}: the program ended with status {ended.returncode}: {ended.stderr}")
    sides = compare(ended.stdout)
    lines = ended.stdout.splitlines()
    lost = sum(line.startswith("air ") and not line.endswith("good") for line in lines)
    print(f"seed {sys.argv[1]}: {sum(line.startswith('turn ') for line in lines):,} turns, {lost:,} packets not good")
    for name, other in ("ab", "ba"):
        links = sides[name].links.values()
        theirs = sides[other].links.values()
        dropped = sum(line == f"up {name} 041a0101" for line in lines)
        print(
            f"  {name} to {other}: {sum(len(link.ends) for link in links):,} packets kept,"
            f" {sum(link.empties for link in links):,} of no octet, {dropped:,} dropped;"
            f" {sum(len(link.sent) for link in links):,} pieces sent,"
            f" {sum(len(link.received) for link in theirs):,} octets received,"
            f" {sum(link.credited + link.empties for link in links):,} credits"
        )
        if not any(link.received for link in theirs):
            sys.exit("nothing was received, so nothing is shown")
    print("  as submitted")


main()
