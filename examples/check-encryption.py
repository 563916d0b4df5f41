#!/usr/bin/env python3
"""Opens the sealed packets of a journal with another implementation of the ciphers.

    python3 examples/check-encryption.py [JOURNAL ..]

JOURNAL is a file with a journal; without one, those of all examples are looked at. It needs the Python package `cryptography`.
It shows, from the lines alone:

- a PDU that is not empty is sealed where, of the LL_START_ENC_REQ and LL_PAUSE_ENC_RSP that a central took, or of the
  LL_START_ENC_RSP and LL_PAUSE_ENC_RSP that a peripheral took, the last one starts encryption, and it is in clear otherwise;
- the payload of its packets is what AES-CCM makes of it, with the session key and the IV of the last LL_ENC_REQ and
  LL_ENC_RSP, the long term key that the host of its side gave, the direction of its sender, and as counter the number of
  PDUs that its sender sealed before with that key (Core 5.2, volume 6 part B, section 2.4, and part E, section 2);
- each packet in which it is sent again has the same payload;
- a packet that passes and brings a sealed PDU is judged good where the other side has the same session key, and forged
  where it has another one.

It shares no code with the program. The last line says how many sealed packets there are; otherwise the first line that is
not as it must be is named, and the status is 1.
"""
import glob
import os
import sys
from dataclasses import dataclass, field

from cryptography.exceptions import InvalidTag
from cryptography.hazmat.primitives.ciphers import Cipher, algorithms, modes
from cryptography.hazmat.primitives.ciphers.aead import AESCCM

HERE = os.path.dirname(os.path.abspath(__file__))
OTHER = {"a": "b", "b": "a"}
CONTROL = 3
ENC_REQ, ENC_RSP, START_ENC_REQ, START_ENC_RSP, PAUSE_ENC_RSP = 0x03, 0x04, 0x05, 0x06, 0x0B
ENABLE_ENCRYPTION, KEY_REPLY = 0x2019, 0x201A
# Which PDU that it takes lets an end seal, by its role, and which one ends that.
STARTS = {"central": START_ENC_REQ, "peripheral": START_ENC_RSP}
# The octets of a packet before its PDU, and behind it; those of the header of a PDU, and the bits of its LLID.
ADDRESS, CRC, HEADER, LLID = 4, 3, 2, 3


class Fault(Exception):
    """A line of the journal is not as it must be."""


def whitened(channel, octets):
    """The octets of a PDU, whitened or no longer (Core 5.2, volume 6 part B, section 3.2): x^7 + x^4 + 1."""
    register, out = 0x40 | channel, []
    for octet in octets:
        for place in range(8):
            bit = register & 1
            octet ^= bit << place
            register = register >> 1 ^ 0x44 * bit
        out.append(octet)
    return bytes(out)


def session_key(long_term_key, diversifier):
    """Both have their least significant octet first, as a host gives them; the cipher has it last."""
    cipher = Cipher(algorithms.AES(long_term_key[::-1]), modes.ECB()).encryptor()
    return cipher.update(diversifier[::-1]) + cipher.finalize()


class Session:
    """The key of a session and its initialization vector, of which both ends drew a half."""

    def __init__(self, long_term_key, request, response):
        self.cipher = AESCCM(session_key(long_term_key, request[:8] + response[:8]), tag_length=4)
        self.vector = request[8:] + response[8:]
        self.sealed = 0

    def nonce(self, counter, role):
        octets = bytearray(counter.to_bytes(5, "little"))
        octets[4] |= 0x80 if role == "central" else 0
        return bytes(octets) + self.vector

    def seal(self, role, llid, body):
        nonce = self.nonce(self.sealed, role)
        self.sealed += 1
        return nonce, self.cipher.encrypt(nonce, body, bytes([llid]))

    def opens(self, nonce, llid, payload):
        try:
            self.cipher.decrypt(nonce, payload, bytes([llid]))
        except InvalidTag:
            return False
        return True


@dataclass
class End:
    """One end of a link, with the PDU that is out."""

    role: str
    handle: int
    long_term_key: bytes = b""
    session: Session = None
    seals: bool = False
    llid: int = 1
    body: bytes = b""
    nonce: bytes = b""
    payload: bytes = b""


@dataclass
class Link:
    address: str
    ends: dict = field(default_factory=dict)
    request: bytes = b""
    response: bytes = b""

    def begin(self, end):
        end.session = Session(end.long_term_key, self.request, self.response)


class Reader:
    def __init__(self):
        self.fed = {"a": b"", "b": b""}
        self.keys = {"a": [], "b": []}  # the commands that give a key and are not answered yet
        self.links = {}
        self.address = ""
        self.sealed = 0

    # ---- the hosts

    def feed(self, side, octets):
        self.fed[side] += bytes.fromhex(octets)
        while len(self.fed[side]) >= 4:
            packet = self.fed[side]
            length = 4 + packet[3] if packet[0] == 1 else 5 + int.from_bytes(packet[3:5], "little")
            if len(packet) < length:
                return
            self.fed[side] = packet[length:]
            if packet[0] == 1 and int.from_bytes(packet[1:3], "little") in (ENABLE_ENCRYPTION, KEY_REPLY):
                self.keys[side].append(packet[:length])

    def up(self, side, octets):
        """An answer to a command that gives a key: a refused one changes nothing."""
        octets = bytes.fromhex(octets)
        opcode, status = (octets[4:6], octets[6:7]) if octets[1] == 0x0E else (octets[5:7], octets[3:4])
        if octets[:2] in (b"\x04\x0e", b"\x04\x0f") and self.keys[side] and self.keys[side][0][1:3] == opcode:
            command = self.keys[side].pop(0)
            for link in self.links.values():
                end = link.ends.get(side)
                if status == b"\0" and end and end.handle == int.from_bytes(command[4:6], "little"):
                    end.long_term_key = command[-16:]

    # ---- the links

    def open(self, side, number, handle, role):
        link = self.links.setdefault(number, Link(self.address))
        link.ends[side] = End(role, int(handle))

    def shut(self, side, number, _reason):
        del self.links[number].ends[side]

    def sent(self, side, number, _count, llid, body):
        link, llid, body = self.links[number], int(llid), bytes.fromhex(body)
        end = link.ends[side]
        opcode = body[0] if llid == CONTROL else None
        if opcode == ENC_REQ:
            link.request = body[11:]
        if opcode == ENC_RSP:
            link.response = body[1:]
        if opcode == START_ENC_REQ:
            link.begin(end)
        end.llid, end.body, end.nonce, end.payload = llid, body, b"", body
        if end.seals:
            end.nonce, end.payload = end.session.seal(end.role, llid, body)

    def took(self, side, number, _count, llid, body):
        link, opcode = self.links[number], int(body[:2], 16)
        end = link.ends[side]
        if int(llid) != CONTROL:
            return
        if opcode == START_ENC_REQ:
            link.begin(end)
        if opcode == STARTS[end.role]:
            end.seals = True
        if opcode == PAUSE_ENC_RSP:
            end.seals = False

    # ---- the air

    def air(self, side, channel, octets, fate, verdict):
        packet, channel = bytes.fromhex(octets), int(channel)
        if channel >= 37:
            pdu = whitened(channel, packet[ADDRESS:])
            if pdu[0] & 15 == 5:
                self.address = pdu[14:18].hex()
            return
        links = [it for it in self.links.values() if it.address == octets[:8] and side in it.ends]
        if links:
            self.packet(links[-1], side, whitened(channel, packet[ADDRESS:])[:-CRC], fate, verdict)

    def packet(self, link, side, pdu, fate, verdict):
        end, other = link.ends[side], link.ends.get(OTHER[side])
        payload, llid = pdu[HEADER:], pdu[0] & LLID
        if payload and (llid, payload) != (end.llid, end.payload):
            raise Fault("not the payload of the PDU that is out")
        if not payload or not end.nonce:
            return
        if other and fate == "." and verdict in ("good", "forged"):
            if other.session.opens(end.nonce, llid, payload) != (verdict == "good"):
                raise Fault(f"a packet that is judged {verdict}")
        self.sealed += 1

    def line(self, text):
        kind, *words = text.split(" ")
        steps = {
            "in": self.feed,
            "up": self.up,
            "air": self.air,
            "open": self.open,
            "sent": self.sent,
            "took": self.took,
            "shut": self.shut,
        }
        if kind in steps:
            steps[kind](*words)


def check(path):
    reader = Reader()
    with open(path, encoding="ascii") as it:
        lines = it.read().split("\n")[:-1]
    for place, text in enumerate(lines, 1):
        try:
            reader.line(text)
        except Fault as fault:
            raise Fault(f"{path}, line {place}: {fault}") from None
    return reader.sealed


def main():
    paths = sys.argv[1:] or sorted(glob.glob(os.path.join(HERE, "*", "journal")))
    try:
        sealed = sum(check(path) for path in paths)
    except Fault as fault:
        print(fault)
        return 1
    print(f"{sealed} sealed packets, each as it must be")
    return 0


if __name__ == "__main__":
    sys.exit(main())
