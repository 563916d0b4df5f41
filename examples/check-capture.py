#!/usr/bin/env python3
"""Opens the packets of an encrypted link in a capture, with the long term key alone.

    python3 examples/check-capture.py KEY CAPTURE JOURNAL

KEY is the long term key in hexadecimal, least significant octet first, CAPTURE what `ble_capture` wrote, and JOURNAL the
journal of which it is one. It follows the link as an analyser does: the first sealed PDU of a central comes after the
LL_START_ENC_REQ of the peripheral, and that of a peripheral after the LL_START_ENC_RSP of the central; both are in clear
after the LL_PAUSE_ENC_RSP of the central. A PDU with the sequence number of the last one is that PDU again. It needs the
Python package `cryptography`.

It shares no code with the program. The PDUs that it reads must be those of the `sent` lines, in order; the last line says how
many there are, and how many were sealed. Otherwise it names the first one that differs, and the status is 1.
"""
import sys

from cryptography.exceptions import InvalidTag
from cryptography.hazmat.primitives.ciphers import Cipher, algorithms, modes
from cryptography.hazmat.primitives.ciphers.aead import AESCCM

ENHANCED_PACKET = 6
# The octets of the pseudo header of a packet, its access address and its CRC; those of the header of a PDU.
PSEUDO, ADDRESS, CRC, HEADER = 10, 4, 3, 2
# Flags of the pseudo header: whether the CRC was checked, and right; the type of the PDU, and where it begins.
CRC_CHECKED, CRC_RIGHT, TYPE = 0x0400, 0x0800, 7
CENTRAL, PERIPHERAL = 2, 3
CONTROL, LLID, SN = 3, 3, 8
ENC_REQ, ENC_RSP, START_ENC_REQ, START_ENC_RSP, PAUSE_ENC_RSP = 0x03, 0x04, 0x05, 0x06, 0x0B


class Fault(Exception):
    """The capture does not have what the journal has."""


def packets(octets):
    """The flags and the PDU of each packet of interface 0."""
    at = 0
    while at < len(octets):
        kind, length = (int.from_bytes(octets[at + it : at + it + 4], "little") for it in (0, 4))
        block = octets[at + 8 : at + length - 4]
        at += length
        if kind == ENHANCED_PACKET and block[:4] == bytes(4):
            data = block[20 : 20 + int.from_bytes(block[12:16], "little")]
            flags = int.from_bytes(data[PSEUDO - 2 : PSEUDO], "little")
            yield flags, data[PSEUDO + ADDRESS : -CRC]


class Analyser:
    def __init__(self, key):
        self.key = key
        self.drawn = {}
        self.cipher = None
        self.sealed = {CENTRAL: None, PERIPHERAL: None}
        self.last = {CENTRAL: None, PERIPHERAL: None}
        self.count = 0

    def start(self):
        halves = [self.drawn[it] for it in (CENTRAL, PERIPHERAL)]
        block = Cipher(algorithms.AES(self.key[::-1]), modes.ECB()).encryptor()
        self.cipher = AESCCM(block.update((halves[0][:8] + halves[1][:8])[::-1]), tag_length=4)
        self.vector = halves[0][8:] + halves[1][8:]

    def opened(self, sender, llid, payload):
        counter = self.sealed[sender]
        if counter is None:
            return payload
        nonce = bytearray(counter.to_bytes(5, "little"))
        nonce[4] |= 0x80 if sender == CENTRAL else 0
        try:
            body = self.cipher.decrypt(bytes(nonce) + self.vector, payload, bytes([llid]))
        except InvalidTag:
            raise Fault("a packet that this key does not open") from None
        self.sealed[sender] += 1
        self.count += 1
        return body

    def control(self, sender, body):
        if body[0] == ENC_REQ:
            self.drawn[sender] = body[11:]
        if body[0] == ENC_RSP:
            self.drawn[sender] = body[1:]
        if body[0] == START_ENC_REQ:
            self.start()
            self.sealed[CENTRAL] = 0
        if (sender, body[0]) == (CENTRAL, START_ENC_RSP):
            self.sealed[PERIPHERAL] = 0
        if body[0] == PAUSE_ENC_RSP:
            # The central sends in clear from the peripheral's on, and the peripheral from the central's on.
            self.sealed[CENTRAL] = None
            if sender == CENTRAL:
                self.sealed[PERIPHERAL] = None

    def pdu(self, flags, pdu):
        """The body of a new PDU that is not empty, with its sender and its LLID, or None."""
        sender, is_broken = flags >> TYPE & 7, flags & CRC_CHECKED and not flags & CRC_RIGHT
        if sender not in self.last or is_broken or self.last[sender] == pdu[0] & SN:
            return None
        self.last[sender] = pdu[0] & SN
        if not pdu[1]:
            return None
        llid = pdu[0] & LLID
        body = self.opened(sender, llid, pdu[HEADER:])
        if llid == CONTROL:
            self.control(sender, body)
        return sender, llid, body


def lines_sent(text):
    """The `sent` lines of a journal of one link: the sender, the LLID and the body."""
    roles = {}
    for line in text.split("\n"):
        kind, *words = line.split(" ")
        if kind == "open":
            roles[words[0]] = CENTRAL if words[3] == "central" else PERIPHERAL
        if kind == "sent":
            yield roles[words[0]], int(words[3]), bytes.fromhex(words[4])


def check(key, capture, journal):
    analyser = Analyser(key)
    read = [pdu for pdu in (analyser.pdu(*packet) for packet in packets(capture)) if pdu]
    sent = list(lines_sent(journal))
    for number, (one, other) in enumerate(zip(read, sent), 1):
        if one != other:
            raise Fault(f"PDU {number} is {one[2].hex()}, and its line has {other[2].hex()}")
    if len(read) != len(sent):
        raise Fault(f"{len(read)} PDUs, and {len(sent)} lines")
    return len(read), analyser.count


def main():
    key, capture, journal = sys.argv[1:]
    with open(capture, "rb") as it:
        octets = it.read()
    with open(journal, encoding="ascii") as it:
        text = it.read()
    try:
        count, sealed = check(bytes.fromhex(key), octets, text)
    except Fault as fault:
        print(fault)
        return 1
    print(f"{count} PDUs as in the journal, {sealed} of them sealed")
    return 0


if __name__ == "__main__":
    sys.exit(main())
