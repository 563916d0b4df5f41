#!/usr/bin/env python3
"""Compares the lines of the links of a journal with each other.

    python3 examples/check-links.py [JOURNAL ..]

JOURNAL is a file with a journal; without one, those of all examples are looked at. It shows, by a plain reading of the text:

- a `sent`, `took`, `enter` or `shut` line names a link that is open at its side, and an `open` line one that is not, under
  the least handle that is free there;
- data for a host is of an open link and as long as its header says, and a Number Of Completed Packets event is of one
  handle, of an open link;
- each side enters the events 0, 1, 2, .. of a link, each once;
- a link is shut with 3E six intervals after its CONNECT_IND, where its side heard nothing good on it; with 08 as the
  supervision timeout has passed since the last good packet; with 00 where its host completes a Reset; with 16 where
  its side sent LL_TERMINATE_IND, or its host ended the link, or had no key for it, a supervision timeout before; with
  28 where it took an indication whose Instant has passed; with 3D where it judged a packet forged; and with the code
  of an LL_TERMINATE_IND that it took, once it has sent a packet after that. None that is overdue is open after that
  turn;
- a side runs one control procedure of its own at a time, and what is done or refused is the one that it began, or a
  version exchange that it has not begun;
- an indication comes into force just before the event of its Instant, or the one after that at a peripheral that took it
  in the event of its Instant; and each side takes the indications in their order.

These are clauses of a lawful journal (docs/lawful-journals.md), for links whose access addresses differ. It shares no code
with the program. The last line is `links as they must be`; otherwise the first line that is not is named, and the status
is 1.
"""
import glob
import os
import sys

DISCONNECT = b"\x06\x04"
NO_KEY = b"\x1b\x20"
HERE = os.path.dirname(os.path.abspath(__file__))
OTHER = {"a": "b", "b": "a"}


class Fault(Exception):
    """A line of the journal is not as it must be."""


def whitened(channel, octets):
    """The octets of a PDU, whitened or no longer (Core 5.2, volume 6 part B, section 3.2): x^7 + x^4 + 1."""
    register = 0x40 | channel
    out = []
    for octet in octets:
        for place in range(8):
            bit = register & 1
            octet ^= bit << place
            register = register >> 1 ^ 0x44 * bit
        out.append(octet)
    return bytes(out)


def number(octets):
    return int.from_bytes(octets, "little")


def connect_ind(channel, packet):
    """The access address, the interval and the supervision timeout in slots of a CONNECT_IND, or None."""
    pdu = whitened(channel, packet[4:])
    if pdu[0] & 15 != 5:
        return None
    fields = pdu[14:36]
    return packet_address(fields), number(fields[10:12]), 8 * number(fields[14:16])


def packet_address(packet):
    return packet[:4].hex()


def completed(octets, since):
    """The commands that end in these octets of a host, after the first `since` of them."""
    at = 0
    while at + 4 <= len(octets):
        size = 4 + octets[at + 3] if octets[at] == 1 else 5 + number(octets[at + 3 : at + 5])
        if octets[at] == 1 and since < at + size <= len(octets):
            yield octets[at : at + size]
        at += size


def completes_reset(octets, since):
    """Whether a Reset ends in these octets of a host, after the first `since` of them."""
    return b"\x01\x03\x0c\x00" in completed(octets, since)


class Side:
    """What the lines of a side say so far."""

    def __init__(self):
        self.open = {}
        self.entered = {}
        self.heard = {}
        self.ends = {}
        self.overdue = set()
        self.times = {}
        self.applied = {}
        self.next_event = {}
        self.running = {}
        self.terminates = set()
        self.leaving = []  # the commands that end a link and are not answered yet
        self.left = {}  # since when a link is to end
        self.peer_code = {}
        self.passed = set()
        self.forged = set()
        self.fed = b""
        self.since = 0

    def name(self, link):
        if link not in self.open:
            raise Fault("a link that is not open at this side")


class Reader:
    """What the lines of a journal say so far."""

    def __init__(self):
        self.slot = -1
        self.links = []
        self.indications = {}
        self.sides = {"a": Side(), "b": Side()}

    def turn(self, slot, _radios):
        if any(side.overdue for side in self.sides.values()):
            raise Fault("a link is open after the turn in which it ends")
        self.slot = int(slot)
        for side in self.sides.values():
            side.overdue = {link for link in side.open if self.slot >= self.end_of(side, link)}

    def end_of(self, side, link):
        heard = side.heard.get(link)
        interval, timeout = side.times[link]
        return self.links[link - 1][3] + 6 * interval if heard is None else heard + timeout

    def fed(self, side, octets):
        side = self.sides[side]
        side.since = len(side.fed)
        side.fed += bytes.fromhex(octets)
        side.leaving += [it for it in completed(side.fed, side.since) if it[1:3] in (DISCONNECT, NO_KEY)]

    def up(self, side, octets):
        octets = bytes.fromhex(octets)
        handles = self.sides[side].open.values()
        self.answered(self.sides[side], octets)
        if octets[0] == 2:
            if number(octets[1:3]) & 0xFFF not in handles or number(octets[3:5]) != len(octets) - 5:
                raise Fault("data of no open link, or of another length")
        if octets[:2] == b"\x04\x13":
            if octets[2:4] != b"\x05\x01" or len(octets) != 8 or number(octets[4:6]) not in handles:
                raise Fault("complete packets of no open link, or of several handles")

    def answered(self, side, octets):
        """An answer to a command that ends a link."""
        opcode, status = (octets[4:6], octets[6:7]) if octets[1] == 0x0E else (octets[5:7], octets[3:4])
        if octets[:2] not in (b"\x04\x0e", b"\x04\x0f") or opcode not in (DISCONNECT, NO_KEY) or not side.leaving:
            return
        handle = number(side.leaving.pop(0)[4:6])
        for link, own in side.open.items():
            if status == b"\0" and own == handle:
                side.left.setdefault(link, self.slot)

    def air(self, side, channel, octets, _fate, verdict):
        packet = bytes.fromhex(octets)
        if int(channel) >= 37:
            found = connect_ind(int(channel), packet)
            if found:
                self.links.append((*found, self.slot))
        elif verdict in ("good", "forged"):
            for link, (address, _, _, _) in enumerate(self.links, 1):
                if address == packet_address(packet):
                    self.heard(self.sides[OTHER[side]], link, verdict)
        for link in list(self.sides[side].peer_code):
            if int(channel) < 37 and self.links[link - 1][0] == packet_address(packet):
                self.sides[side].ends[link] = self.sides[side].peer_code[link]

    def heard(self, side, link, verdict):
        if verdict == "good":
            side.heard[link] = self.slot
        else:
            side.forged.add(link)

    def open(self, side, link, handle, _role):
        side = self.sides[side]
        free = next(it for it in range(len(side.open) + 1) if it not in side.open.values())
        if int(link) in side.open or int(handle) != free or not 1 <= int(link) <= len(self.links):
            raise Fault("not a new link under the next free handle")
        side.open[int(link)] = int(handle)
        side.times[int(link)] = self.links[int(link) - 1][1:3]

    def enter(self, side, link, event, _channel):
        side, link = self.sides[side], int(link)
        side.name(link)
        if int(event) != side.entered.get(link, 0):
            raise Fault("not the next event of the link")
        if side.next_event.pop(link, int(event)) != int(event):
            raise Fault("not the event in which an indication came into force")
        side.entered[link] = int(event) + 1

    def sent(self, side, link, _number, llid, body):
        self.sides[side].name(int(link))
        body = bytes.fromhex(body)
        if llid == "3" and body[0] in (0, 1):
            self.indications.setdefault(int(link), []).append(body)
        if llid == "3" and body[0] == 2:
            self.sides[side].terminates.add(int(link))

    def took(self, side, link, _number, llid, body):
        side, link, body = self.sides[side], int(link), bytes.fromhex(body)
        side.name(link)
        if llid == "3" and body[0] == 2:
            side.peer_code[link] = f"{body[1]:02x}"
        if llid == "3" and body[0] in (0, 1):
            gap = (number(body[-2:]) - (side.entered[link] - 1)) % 65536
            if gap >= 32767:
                side.passed.add(link)

    def applied(self, side, link, count, event):
        side, link, count, event = self.sides[side], int(link), int(count), int(event)
        side.name(link)
        if count != side.applied.get(link, 0) + 1 or count > len(self.indications.get(link, [])):
            raise Fault("not the next indication of the link")
        body = self.indications[link][count - 1]
        if (event - number(body[-2:])) % 65536 not in (0, 1):
            raise Fault("not the event of its Instant, nor the next one")
        side.applied[link] = count
        side.next_event[link] = event
        if body[0] == 0:
            side.times[link] = number(body[4:6]), 8 * number(body[8:10])

    def began(self, side, link, kind):
        side, link = self.sides[side], int(link)
        side.name(link)
        if link in side.running:
            raise Fault("a procedure that begins while another one runs")
        side.running[link] = kind

    def ended(self, side, link, kind, *_code):
        side, link = self.sides[side], int(link)
        side.name(link)
        if side.running.get(link) == kind:
            del side.running[link]
        elif kind != "version":
            raise Fault("a procedure that does not run")

    def shut(self, side, link, reason):
        side, link = self.sides[side], int(link)
        side.name(link)
        heard = link in side.heard
        due = {
            "3e": link in side.overdue and not heard,
            "08": link in side.overdue and heard,
            "00": completes_reset(side.fed, side.since),
            "16": link in side.terminates or self.slot - side.left.get(link, self.slot) >= side.times[link][1],
            "28": link in side.passed,
            "3d": link in side.forged,
        }
        if not due.get(reason, False) and side.ends.get(link) != reason:
            raise Fault("a link that is shut without this reason")
        side.overdue.discard(link)
        for kept in (side.open, side.running, side.peer_code, side.left):
            kept.pop(link, None)

    def line(self, text):
        kind, *words = text.split(" ")
        steps = {
            "turn": self.turn,
            "in": self.fed,
            "up": self.up,
            "air": self.air,
            "open": self.open,
            "enter": self.enter,
            "sent": self.sent,
            "took": self.took,
            "applied": self.applied,
            "began": self.began,
            "refused": self.ended,
            "done": self.ended,
            "shut": self.shut,
        }
        steps[kind](*words)


def check(path):
    reader = Reader()
    with open(path, encoding="ascii") as it:
        lines = it.read().split("\n")[:-1]
    for place, text in enumerate(lines, 1):
        try:
            reader.line(text)
        except Fault as fault:
            raise Fault(f"{path}, line {place}: {fault}") from None


def main():
    paths = sys.argv[1:] or sorted(glob.glob(os.path.join(HERE, "*", "journal")))
    try:
        for path in paths:
            check(path)
    except Fault as fault:
        print(fault)
        sys.exit(1)
    print("links as they must be")


if __name__ == "__main__":
    main()
