#!/usr/bin/env python3
"""Follows what waits at each end of each link by the lines of a journal, and compares what the turns show of it.

    python3 examples/check-turns.py [JOURNAL ..]
    python3 examples/check-turns.py SEED [PROGRAM]

JOURNAL is a file with a journal of `ble pair`; without one, those of all examples are looked at. With SEED, a
number, two streams and a schedule are made from it, PROGRAM (crates/ble/out/ble if it is left out) is run on them,
and its journal is looked at; the same number gives the same run. It shows, by a plain reading of the text:

- the PDU that a packet carries anew is the one that waited first as the turn began: a rejection, then
  LL_TERMINATE_IND of a Disconnect in phase Clear or Secure, then the other control PDUs in order, then data in
  these phases, else none; a PDU that is not acknowledged is sent again;
- MD is 1 exactly where a further PDU waited, as the turn began, after the PDU that the packet carries. What waited
  follows from what began, what was taken, what hosts submitted and asked, and what was sent;
- a peripheral skips an event exactly where the latency in force in it lets it: a good packet was received in an
  event at most so many before, its last PDU is empty or acknowledged, nothing waits, no procedure is in progress,
  and no indication waits. In an event that it skips it hears nothing, and in any other one it hears the central's
  packet that passes, if no other activity may have the radio;
- in the second slot of an event there is an exchange exactly where a good packet was received in the first and one
  of its packets has MD 1, as long as no LL_LENGTH PDU was taken on the link;
- a peripheral answers each good packet, unless it ends the link by it, and a central serves each event, unless
  something else may have its radio;
- what a host asked for begins, and nothing else, nor a map that the link is to have already; features, versions and
  lengths in the first event in which no procedure of this end runs and the phase is Clear or Secure;
- an event that tells a host of the features or the version of the peer comes when they are known, which of a PDU
  that a central keeps is as it is answered; and encryption starts with Encryption Change the first time, then with
  Key Refresh;
- what is taken is what was sent, in order, as its first good packet comes for which there is room: a host with flow
  control may leave eight pieces with its controller.

The runs of a SEED go to corners: hosts that take one packet at a time, latencies that come and go, a Disconnect
while encryption starts or pauses, keys that are missing, procedures that both ends ask for, masks, commands that
are refused, two links, advertisers and scanners beside them, and losses that come in bursts. It shares no code with
the program. The last line is `turns as they must be`; otherwise the first line that is not is named, and the status
is 1. It needs Python 3.9 or later.
"""
import glob
import os
import subprocess
import sys
import tempfile

sys.dont_write_bytecode = True
import corners  # noqa: E402

HERE = os.path.dirname(os.path.abspath(__file__))
OTHER = {"a": "b", "b": "a"}
BUFFERS = 8
PIECES = 8  # that a controller keeps for its host
LONGEST = 251
QUIET = ("clear", "secure")
EXCLUSIVE = ("update", "map", "phy", "request")
FIRST = {"update": 0x00, "map": 0x01, "request": 0x0F, "phy": 0x16, "version": 0x0C, "length": 0x14}
KEPT = (0x0C, 0x0E, 0x0F, 0x14, 0x16)
ASKS = {0x2016: "features", 0x041D: "version", 0x2022: "length", 0x2032: "phy", 0x2019: "encrypt"}
FREE = ("features", "version", "length")  # they exclude nothing


class Fault(Exception):
    """A line of the journal is not as it must be."""


def number(octets):
    return int.from_bytes(octets, "little")


def whitened(channel, octets):
    """The octets with the whitening of this channel taken off (Core 5.2, volume 6 part B, section 3.2)."""
    register = 0x40 | channel
    plain = bytearray()
    for octet in octets:
        for place in range(8):
            bit = register & 1
            octet ^= bit << place
            register = register >> 1 ^ (0x44 if bit else 0)
        plain.append(octet)
    return bytes(plain)


class Waiting:
    """What waits at an end as a turn begins."""

    def __init__(self, end):
        self.queue = list(end.queue)
        self.octets = end.octets if end.phase in QUIET else 0
        self.fixed = end.next_pdu()


class End:
    """One end of a link, by the lines of its side and the packets that it heard."""

    def __init__(self, side, handle, role, latency, channels):
        self.side = side
        self.handle = handle
        self.is_central = role == "central"
        self.latency = latency
        self.event = -1
        self.entered_in = -1  # the slot in which it entered that event
        self.queue = []  # the control PDUs that wait: the opcode, and what it is
        self.octets = 0  # the octets of data that wait
        self.kept = self.credited = 0  # packets of its host with octets
        self.empties = 0  # packets without one that are not credited yet, which is done at once
        self.wanted = []  # what its host asked for and has not begun, without maps
        self.map = channels  # the map that the link is to have
        self.maps = 0  # how often its host gave another one that has not begun
        self.running = None  # its own procedure
        self.phase = "clear"
        self.was_paused = False
        self.peer_phy = False  # the peer's PHY update is in progress here
        self.kept_pdu = None  # a central keeps it while its encryption starts or pauses
        self.said_version = False
        self.knows_version = self.knows_features = False
        self.secured = 0  # how often it came to phase Secure
        self.closing = False  # LL_TERMINATE_IND was queued or taken: nothing more is queued
        self.is_left = False  # its host's Disconnect was accepted before that
        self.last_instant = -1  # the event of the last indication that it sent
        self.indications = []  # those that it sent or took
        self.applied = 0
        self.heard_in = None  # the last event in which it heard a good packet
        self.sent = []
        self.took = 0
        self.pieces = 0  # those that it took and its host has not received
        self.brought = False  # a packet of this turn brought a PDU that is to be taken
        self.has_lengths = False
        self.out = True  # its last PDU is not acknowledged; an empty one counts as sent as the link begins
        self.accepted = False  # the peer has accepted that PDU
        self.last = None  # that PDU, where it is not empty
        self.last_leaves = False  # it is LL_TERMINATE_IND of the host's Disconnect
        self.announced = None
        self.waiting = None
        self.skips = False
        self.said_more = False  # the bit MD that it said in the slot of the anchor
        self.goes_on = None  # a packet was good in the slot of the anchor, and a bit MD of that exchange was 1

    def owe(self, opcode, kind="other"):
        if not self.closing:
            self.queue.append((opcode, kind))

    def next_pdu(self):
        """The control PDU that is fixed as the turn begins, or `data`, or None."""
        for kind in ("reject", "leave"):
            for pdu in self.queue:
                if pdu[1] == kind and (kind == "reject" or self.phase in QUIET):
                    return pdu
        if self.is_left and self.phase in QUIET:
            return None
        for pdu in self.queue:
            if pdu[1] == "other":
                if self.is_central and pdu[0] in (0x00, 0x01, 0x16) and self.event <= self.last_instant:
                    break
                return pdu
        return "data" if self.octets and self.phase in QUIET and not self.is_left else None

    def may_skip(self):
        """Whether the latency lets a peripheral skip the event that it has entered."""
        return (
            not self.is_central
            and self.heard_in is not None
            and self.event - self.heard_in <= self.latency
            and (not self.out or self.last is None)
            and not self.queue
            and not self.octets
            and self.running is None
            and not self.peer_phy
            and self.phase in QUIET
            and self.applied == len(self.indications)
        )

    def must_begin(self):
        """Whether a procedure must have begun in the event that it has entered."""
        is_free = self.running is None and self.phase in QUIET and not self.closing
        return is_free and any(kind in FREE for kind in self.wanted)

    def begins(self, kind):
        if kind not in self.wanted and not (kind == "map" and self.maps):
            raise Fault("a procedure begins that the host did not ask for")
        self.maps -= kind == "map"
        self.running = kind
        self.wanted = [it for it in self.wanted if it != kind]
        if kind == "encrypt":
            is_new = self.phase == "clear"
            self.phase = "asked" if is_new else "pausing"
            self.was_paused = not is_new
            self.owe(0x03 if is_new else 0x0A)
        elif kind == "features":
            self.owe(0x08 if self.is_central else 0x0E)
        elif kind != "version" or not self.said_version:
            self.said_version = self.said_version or kind == "version"
            self.owe(FIRST[kind])

    def acknowledged(self):
        """Its last PDU is acknowledged."""
        self.out = False
        opcode = self.last[1][0] if self.last and self.last[0] == 3 else None
        if opcode == 0x18:
            self.peer_phy = False
        if self.is_central and opcode == 0x0B and not self.closing:
            self.phase = "asked"
            self.owe(0x03)

    def is_over(self):
        """LL_TERMINATE_IND of this end is acknowledged: it takes nothing more."""
        return not self.out and self.last is not None and self.last[1][:1] == b"\x02" and self.last[0] == 3

    def answer(self, body):
        """It answers a PDU with which a procedure of the peer begins."""
        opcode = body[0]
        self.knows_version = self.knows_version or opcode == 0x0C
        self.knows_features = self.knows_features or opcode in (0x08, 0x0E)
        if opcode == 0x0C and not self.said_version:
            self.said_version = not self.closing
            self.owe(0x0C)
        if opcode in (0x08, 0x0E):
            self.owe(0x09)
        if opcode == 0x14:
            self.owe(0x15)
        if opcode in (0x0F, 0x16) and self.is_central and self.running in EXCLUSIVE:
            self.owe(0x11, "reject")
        elif opcode == 0x0F and not self.side.shows(5):
            self.owe(0x11, "reject")
        elif opcode == 0x16:
            self.peer_phy = not self.closing
            self.owe(0x18 if self.is_central else 0x17)

    def lacks_key(self):
        if self.was_paused:
            self.owe(0x02)
            self.closing = True
        else:
            self.owe(0x11)
            self.phase = "clear"

    def takes_control(self, body):
        opcode = body[0]
        if opcode == 0x02:
            self.closing = True
        elif self.is_central and opcode in KEPT and self.phase not in QUIET:
            self.kept_pdu = body
        elif opcode in KEPT or opcode == 0x08:
            self.answer(body)
        elif opcode == 0x09:
            self.knows_features = True
        elif opcode == 0x17:
            self.owe(0x18)
        elif opcode == 0x18:
            self.peer_phy = False
        elif opcode in (0x00, 0x01):
            self.indications.append(body)
        elif opcode in (0x03, 0x0A, 0x0B, 0x05, 0x06) or body[:2] == b"\x11\x03":
            (self.central_phase if self.is_central else self.peripheral_phase)(opcode)
        if self.kept_pdu and self.phase in QUIET:
            kept, self.kept_pdu = self.kept_pdu, None
            self.answer(kept)

    def central_phase(self, opcode):
        if opcode == 0x05:
            self.phase = "half keyed"
            self.owe(0x06)
        elif opcode == 0x06:
            self.phase = "secure"
            self.secured += 1
        elif opcode == 0x0B:
            self.phase = "half clear"
            self.owe(0x0B)
        elif opcode == 0x11:
            self.phase = "clear"

    def peripheral_phase(self, opcode):
        if opcode == 0x03:
            self.phase = "asked"
            self.owe(0x04)
            if not self.side.shows(4) and not self.closing:
                self.lacks_key()
        elif opcode == 0x06:
            self.phase = "secure"
            self.secured += 1
            self.owe(0x06)
        elif opcode == 0x0A:
            self.phase = "pausing"
            self.was_paused = True
            self.owe(0x0B)
        elif opcode == 0x0B:
            self.phase = "half clear"

    def host_says(self, opcode):
        """A command of its host was accepted."""
        kind = ("update" if self.is_central else "request") if opcode == 0x2013 else ASKS.get(opcode)
        if kind and not (kind == "version" and self.knows_version or kind == "features" and self.knows_features):
            self.wanted.append(kind)
        if opcode == 0x0406 and not self.closing:
            self.owe(0x02, "leave")
            self.closing = self.is_left = True
        elif opcode == 0x2020:
            self.owe(0x00)
        elif opcode == 0x2021:
            self.owe(0x11, "reject")
        elif opcode == 0x201A and not self.closing:
            self.phase = "half keyed"
            self.owe(0x05)
        elif opcode == 0x201B and not self.closing:
            self.lacks_key()


class Side:
    """One controller and its host."""

    def __init__(self):
        self.ends = {}  # of its open links
        self.entered_in = {}  # by link, also one that is shut: the slot of its last event
        self.unread = b""
        self.is_lost = False  # an octet began no packet: what its host sends is not followed from there on
        self.commands = []  # those that are not answered yet
        self.mask, self.le_mask = 0x1FFFFFFFFFFF, 0x1F
        self.advertised_in = -9
        self.all_channels = True

    def shows(self, bit):
        return self.mask >> 61 & 1 and self.le_mask >> bit & 1

    def under(self, handle):
        return next((end for end in self.ends.values() if end.handle == handle), None)

    def hears(self, octets):
        """The octets of its host."""
        self.unread += octets
        has_reset = False
        while self.unread and not self.is_lost:
            head = {1: 4, 2: 5}.get(self.unread[0], 0)
            self.is_lost = not head
            if len(self.unread) < max(head, 1):
                return
            length = self.unread[3] if head == 4 else number(self.unread[3:5])
            if len(self.unread) < head + length:
                return
            packet, self.unread = self.unread[: head + length], self.unread[head + length :]
            if packet[0] == 1:
                self.commands.append(packet)
                has_reset = has_reset or packet == bytes.fromhex("01030c00")
                continue
            end = self.under(number(packet[1:3]) & 0xFFF)
            if end and not has_reset and length == 0:
                end.empties += 1
            elif end and not has_reset and length <= LONGEST and self.taken() < BUFFERS:
                end.kept += 1
                end.octets += length

    def taken(self):
        """The buffers that are taken."""
        return sum(end.kept - end.credited for end in self.ends.values())

    def told(self, octets):
        """A packet for its host."""
        if octets[0] == 2 and self.under(number(octets[1:3]) & 0xFFF):
            self.under(number(octets[1:3]) & 0xFFF).pieces -= 1
        if octets[:2] == b"\x04\x13":
            end = self.under(number(octets[4:6]))
            if end and end.empties:
                end.empties -= 1
            elif end:
                end.credited += number(octets[6:8])
        self.is_known(octets)
        if octets[:2] in (b"\x04\x0e", b"\x04\x0f"):
            opcode, status = (octets[4:6], octets[6:7]) if octets[1] == 0x0E else (octets[5:7], octets[3:4])
            while self.commands and self.commands[0][1:3] != opcode:
                self.commands.pop(0)  # one that is accepted without an answer
            if self.commands:
                command = self.commands.pop(0)
                if status == b"\x00":
                    self.accepts(number(opcode), command[4:])

    def is_known(self, octets):
        """What an event says of the peer or of encryption is so by then."""
        meta = octets[3] if octets[:2] == b"\x04\x3e" else None
        status, handle = (octets[4:5], octets[5:7]) if meta else (octets[3:4], octets[4:6])
        end = self.under(number(handle)) if status == b"\0" else None
        if octets[0] != 4 or not end or self.is_lost:
            return
        if octets[1] == 0x0C and not end.knows_version or meta == 0x04 and not end.knows_features:
            raise Fault("an event says what this end does not know yet of the peer")
        if octets[1] == 0x08 and end.secured != 1 or octets[1] == 0x30 and end.secured < 2:
            raise Fault("Encryption Change on a link that was encrypted before, or Key Refresh on another one")

    def accepts(self, opcode, fields):
        if opcode == 0x0C03:
            self.mask, self.le_mask, self.all_channels = 0x1FFFFFFFFFFF, 0x1F, True
        elif opcode == 0x0C01:
            self.mask = number(fields)
        elif opcode == 0x2001:
            self.le_mask = number(fields)
        elif opcode == 0x2006:
            self.all_channels = fields[13] == 7
        elif opcode == 0x2014:
            for end in self.ends.values():
                end.maps += end.is_central and end.map != fields
                end.map = fields
        else:
            end = self.under(number(fields[:2])) if len(fields) >= 2 else None
            if end:
                end.host_says(opcode)

    def pieces(self):
        """The pieces of data that its host has not received yet."""
        return sum(end.pieces for end in self.ends.values())

    def may_be_busy(self, link, slot):
        """Whether something else than this link may have the radio."""
        others = any(it != link and slot - entered < 4 for it, entered in self.entered_in.items())
        return others or slot - self.advertised_in < 3 or not self.all_channels


class Reader:
    """What the lines of a journal say so far."""

    def __init__(self):
        self.slot = -1
        self.links = []  # the access address, the latency and the map of each CONNECT_IND
        self.sides = {"a": Side(), "b": Side()}
        self.radios = {}
        self.heard = set()  # the ends that heard a good packet in this turn
        self.on_air = set()  # and those that sent one
        self.counts = {"turns": 0, "packets": 0, "with MD 1": 0, "events skipped": 0}

    def ends(self):
        for name, side in self.sides.items():
            for link, end in side.ends.items():
                yield name, link, end

    def end(self, side, link):
        if int(link) not in self.sides[side].ends:
            raise Fault("a link that is not open at this side")
        return self.sides[side].ends[int(link)]

    def turn(self, slot, radios):
        self.turn_is_over()
        self.slot = int(slot)
        self.radios = dict(zip("ab", radios))
        self.heard, self.on_air = set(), set()
        self.counts["turns"] += 1
        for _, _, end in self.ends():
            end.waiting = None
            end.skips = False
            if self.slot != end.entered_in + 1:
                end.goes_on = None

    def turn_is_over(self):
        """What is still due on the links that are open after the turn."""
        for name, link, end in self.ends():
            side = self.sides[name]
            if end.brought:
                raise Fault(f"link {link}: a good packet brought a PDU, for which there is room, and it is not taken")
            if side.is_lost or self.radios[name] != "+" or (name, link) in self.on_air:
                continue
            if (name, link) in self.heard:
                raise Fault(f"link {link}: a good packet has no answer")
            if not end.is_central:
                continue
            if self.slot == end.entered_in and not side.may_be_busy(link, self.slot):
                raise Fault(f"link {link}: the central does not serve its event")
            if self.slot == end.entered_in + 1 and end.goes_on and not end.has_lengths:
                raise Fault(f"link {link}: there is no second exchange, but a bit MD was 1")

    def begin(self, name):
        """What the ends of a side hold as their turn has begun: before the first packet, and the line of its PDU."""
        for end in self.sides[name].ends.values():
            if end.waiting is None:
                end.waiting = Waiting(end)
                end.skips = self.slot == end.entered_in and end.may_skip()
                if self.slot == end.entered_in and end.must_begin() and not self.sides[name].is_lost:
                    raise Fault("a procedure that the host asked for may begin, and does not")
                self.counts["events skipped"] += end.skips

    def fed(self, side, octets):
        self.sides[side].hears(bytes.fromhex(octets))

    def up(self, side, octets):
        self.sides[side].told(bytes.fromhex(octets))

    def air(self, name, channel, octets, fate, verdict):
        self.begin("a")
        self.begin("b")
        packet, channel = bytes.fromhex(octets), int(channel)
        if channel >= 37:
            pdu = whitened(channel, packet[4:])
            self.sides[name].advertised_in = self.slot
            if pdu[0] & 15 == 5:
                self.links.append((pdu[14:18], number(pdu[26:28]), pdu[30:35]))
            return
        links = [link for link, end in self.sides[name].ends.items() if self.links[link - 1][0] == packet[:4]]
        # two links may have one address, one for each central; a peripheral answers what it heard in this turn
        answered = [it for it in links if not self.sides[name].ends[it].is_central and (name, it) in self.heard]
        links = answered or [it for it in links if self.sides[name].ends[it].is_central]
        if not links:
            raise Fault("a packet of no open link, or an answer to no packet")
        pdu = whitened(channel, packet[4:])
        self.packet(name, links[0], bool(pdu[0] & 0x10), pdu[1], fate, verdict)

    def packet(self, name, link, more, length, fate, verdict):
        end, peer = self.sides[name].ends[link], self.sides[OTHER[name]].ends.get(link)
        is_second = self.slot == end.entered_in + 1
        self.on_air.add((name, link))
        self.counts["packets"] += 1
        if end.is_central and is_second and not end.goes_on:
            raise Fault("a second exchange, but nothing good was received in the first, or no bit MD was 1")
        if not self.sides[name].is_lost:
            self.carries(end, more, length)
        self.counts["with MD 1"] += more
        if not end.out and not end.announced:
            end.last, end.last_leaves = None, False
        if not end.out:
            end.out, end.accepted = True, False
        end.announced = None
        if self.slot == end.entered_in:
            end.said_more = more
            end.goes_on = end.goes_on or (more and not end.is_central)
        if not peer and verdict == "good":
            raise Fault("a good packet, but the link is not open at the other side")
        if peer and verdict == "good":
            self.hears(OTHER[name], link, peer, length, more)
        elif peer and verdict == "missed" and fate == ".":
            self.misses(OTHER[name], link, peer, end, is_second)

    def carries(self, end, more, length):
        """The PDU of a packet is the one that is due, and MD says what waits after it."""
        waiting = end.waiting
        if end.out:
            if end.announced or (length > 0) != (end.last is not None):
                raise Fault("a new PDU, but the last one is not acknowledged")
            due = bool(waiting.queue or waiting.octets) if end.last_leaves else waiting.fixed is not None
        elif end.announced is None:
            if waiting.fixed is not None or length:
                raise Fault("an empty PDU, but another one waits")
            due = False
        elif end.announced[0] == 3:
            due = len(waiting.queue) > 1 or waiting.octets > 0
        else:
            due = waiting.octets > len(end.announced[1])
        if more != due:
            raise Fault("MD is %d, but %s PDU waits after this one" % (more, "a further" if due else "no further"))

    def hears(self, name, link, end, length, more):
        """A good packet of the peer reaches an end."""
        peer = self.sides[OTHER[name]].ends[link]
        if end.skips:
            raise Fault("a peripheral hears a packet in an event that it skips")
        if self.slot == end.entered_in + 1 and not end.is_central and not end.goes_on:
            raise Fault("a peripheral hears a second exchange, but no bit MD was 1")
        self.heard.add((name, link))
        end.heard_in = end.event
        if self.slot == end.entered_in:
            end.goes_on = more or (end.is_central and end.said_more)
        if end.out and end.accepted:
            end.acknowledged()
        has_room = peer.last is None or peer.last[0] == 3 or self.sides[name].pieces() < PIECES
        end.brought = not peer.accepted and length > 0 and has_room and not end.is_over()
        peer.accepted = peer.accepted or not length

    def misses(self, name, link, end, peer, is_second):
        """A packet of the peer passes, and an end does not hear it."""
        side = self.sides[name]
        level = end.entered_in == peer.entered_in and (end.event, end.applied) == (peer.event, peer.applied)
        if end.is_central or self.radios[name] != "+" or side.is_lost or not level:
            return
        if is_second:
            if end.goes_on and peer.goes_on and not end.has_lengths:
                raise Fault("a peripheral does not hear the second exchange, but a bit MD was 1")
        elif not end.skips and not side.may_be_busy(link, self.slot):
            raise Fault("a peripheral does not hear a packet that passes, in an event that it does not skip")

    def open(self, name, link, handle, role):
        if role == "peripheral":
            self.sides[name].advertised_in = -9  # the advertiser ends, and the radio is free
        self.sides[name].ends[int(link)] = End(self.sides[name], int(handle), role, *self.links[int(link) - 1][1:])

    def shut(self, name, link, _reason):
        del self.sides[name].ends[int(link)]

    def enter(self, name, link, event, _channel):
        end = self.end(name, link)
        end.event, end.entered_in = int(event), self.slot
        self.sides[name].entered_in[int(link)] = self.slot

    def applies(self, name, link, count, _event):
        end = self.end(name, link)
        end.applied = int(count)
        if end.applied > len(end.indications):
            raise Fault("an indication that this end neither sent nor took")
        body = end.indications[end.applied - 1]
        if body[0] == 0:
            end.latency = number(body[6:8])

    def sends(self, name, link, _count, llid, body):
        self.begin(name)
        end, body = self.end(name, link), bytes.fromhex(body)
        pdu = int(llid), body
        fixed = end.waiting.fixed
        if end.out:
            raise Fault("a new PDU, but the last one is not acknowledged")
        if not self.sides[name].is_lost:
            if (fixed == "data") != (pdu[0] != 3) or fixed is None or (pdu[0] == 3 and fixed[0] != body[0]):
                raise Fault("a PDU that did not wait first as the turn began")
        end.sent.append(pdu)
        end.announced = end.last = pdu
        end.last_leaves = pdu[0] == 3 and fixed == (0x02, "leave")
        if pdu[0] != 3:
            end.octets -= len(body)
        elif fixed in end.queue:
            end.queue.remove(fixed)
        if pdu[0] == 3 and body[0] in (0x00, 0x01):
            end.last_instant = end.event + (number(body[-2:]) - end.event) % 65536
            end.indications.append(body)

    def takes(self, name, link, count, llid, body):
        end, body = self.end(name, link), bytes.fromhex(body)
        peer = self.sides[OTHER[name]].ends.get(int(link))
        if not end.brought:
            raise Fault("no good packet of this turn brought a PDU for which there is room")
        end.brought = False
        end.took += 1
        if int(count) != end.took or (peer and peer.sent[end.took - 1 :] != [(int(llid), body)]):
            raise Fault("not the next PDU that the other side sent")
        if peer:
            peer.accepted = True
        if llid != "3":
            end.pieces += 1
        else:
            end.has_lengths = end.has_lengths or body[0] in (0x14, 0x15)
            end.takes_control(body)

    def began(self, name, link, kind):
        self.end(name, link).begins(kind)

    def ended(self, name, link, kind, *_code):
        end = self.end(name, link)
        if end.running == kind:
            end.running = None
        elif kind in end.wanted:
            end.wanted.remove(kind)  # an exchange of versions that the peer began

    def line(self, text):
        kind, *words = text.split(" ")
        steps = {
            "turn": self.turn,
            "in": self.fed,
            "up": self.up,
            "air": self.air,
            "open": self.open,
            "shut": self.shut,
            "enter": self.enter,
            "applied": self.applies,
            "sent": self.sends,
            "took": self.takes,
            "began": self.began,
            "refused": self.ended,
            "done": self.ended,
        }
        steps[kind](*words)


def check(name, lines):
    reader = Reader()
    for place, text in enumerate(lines, 1):
        try:
            reader.line(text)
        except Fault as fault:
            raise Fault(f"{name}, line {place}: {fault}") from None
    return reader.counts


def run_program(seed, program):
    """The lines of the journal that the program writes of the run of a seed."""
    a, b, schedule = corners.random_run(seed)
    with tempfile.TemporaryDirectory() as folder:
        for name, content in (("a", a), ("b", b), ("schedule", schedule.encode())):
            with open(os.path.join(folder, name), "wb") as file:
                file.write(content)
        ended = subprocess.run([program, "pair", "a", "b", "schedule"], cwd=folder, capture_output=True, text=True)
    if ended.returncode:
        sys.exit(f"seed {seed}: the program ended with status {ended.returncode}: {ended.stderr}")
    return ended.stdout.splitlines()


def main():
    words = sys.argv[1:]
    try:
        if words and words[0].isdecimal():
            program = os.path.abspath(words[1] if len(words) > 1 else os.path.join(HERE, "../crates/ble/out/ble"))
            counts = check(f"seed {words[0]}", run_program(int(words[0]), program))
            print(f"seed {words[0]}: " + ", ".join(f"{count:,} {name}" for name, count in counts.items()))
        else:
            for path in words or sorted(glob.glob(os.path.join(HERE, "*", "journal"))):
                with open(path, encoding="ascii") as it:
                    check(path, it.read().splitlines())
    except Fault as fault:
        print(fault)
        sys.exit(1)
    print("turns as they must be")


if __name__ == "__main__":
    main()
