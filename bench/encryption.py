"""Counts the instructions of `ble pair` on an encrypted link that carries 27, and then 251, octets both ways in each event,
and compares them and the peak memory with those of the same link in clear, per event and per block of the cipher; in short
and in long runs."""
import os
import sys
import tempfile

from data import LENGTH, LENGTH_EVENTS, LONG_EVENTS, LONG_TURNS, data, packet
from links import counted, instructions
from runs import CREATE, INTERVAL, ON, Load, run

EVENTS = 2_000
BLOCKS = 10_000
KEY = bytes.fromhex("bf01fb9d4ef3bc36d874f5394138684c")
ENABLE = bytes.fromhex("0119201c" "0000" "0000000000000000" "0000") + KEY
REPLY = bytes.fromhex("011a2012" "0000") + KEY
# LE events let through.
MASK = bytes.fromhex("01010c08ffffffffff1f0020")
# An encryption takes four events, of which one has a second exchange; or five, where payloads may be longer.
START_EVENTS = 4
# The most instructions that CCM should take for a block of the cipher, beyond those of the cipher.
MOST_OF_A_BLOCK = 1_250


def encrypted(events, size=27):
    """The load of `data` on a link that both hosts encrypt first."""
    words = INTERVAL.to_bytes(2, "little").hex()
    a = MASK + bytes.fromhex(CREATE % (words, words))
    b = MASK + ON
    turns = b"t ++ a%d b%d\nrun %d\n" % (len(a), len(b), 1 + INTERVAL)
    if size > 27:
        a += LENGTH
        b += LENGTH
        turns += b"t ++ a%d b%d\nrun %d\n" % (len(LENGTH), len(LENGTH), LENGTH_EVENTS * INTERVAL - 1)
    a += ENABLE
    b += REPLY
    turns += b"t ++ a%d\nrun %d\n" % (len(ENABLE), INTERVAL - 1)
    starts = START_EVENTS + (1 if size > 27 else 0)
    turns += b"t ++ b%d\nrun %d\n" % (len(REPLY), (starts - 1) * INTERVAL - 1)
    for number in range(events):
        a += packet(number, size)
        b += packet(number + 128, size)
        turns += b"t ++ a%d b%d\nrun %d\n" % (5 + size, 5 + size, INTERVAL - 1)
    entered = events + 1 + starts + (LENGTH_EVENTS if size > 27 else 0)
    return Load(a, b, turns, 2 + INTERVAL * entered, 2 + 2 * entered + (0 if size > 27 else 2))


def blocks(size):
    """How often the cipher runs to seal a body, or to open one: for the nonce, the header, each 16 octets twice, and the
    integrity code."""
    return 3 + 2 * ((size + 15) // 16)


def block_alone(parts):
    """The instructions of a block of the cipher, whose key is expanded."""
    counts = [counted([parts, "blocks", str(count)], None) for count in (BLOCKS, 2 * BLOCKS)]
    return (counts[1] - counts[0]) / BLOCKS


def per_event(program, folder, make):
    """The instructions of an event: those of the second half of a run, so that what happens once is left out."""
    whole = instructions(program, folder, make(2 * EVENTS))
    return (whole - instructions(program, folder, make(EVENTS))) / EVENTS


def check_encrypted(folder, events, size):
    """Encryption starts, and each host receives a packet in each event."""
    with open(os.path.join(folder, "journal"), "rb") as journal:
        lines = journal.readlines()
    head = packet(0, size)[3:5].hex()
    for begin, expected in (
        ("done a 1 encrypt", 1),
        ("up a 04080400000001", 1),
        ("up b 04080400000001", 1),
        (f"up a 020020{head}", events),
        (f"up b 020020{head}", events),
    ):
        count = sum(line.startswith(begin.encode()) for line in lines)
        if count != expected:
            sys.exit(f"{count} lines begin with {begin}, and not {expected}")


def print_size(program, folder, size, block):
    _, clear_memory, _ = run(program, folder, data(EVENTS, size))
    _, memory, text = run(program, folder, encrypted(EVENTS, size))
    check_encrypted(folder, EVENTS, size)
    clear = per_event(program, folder, lambda events: data(events, size))
    sealed = per_event(program, folder, lambda events: encrypted(events, size))
    # Each of both packets is sealed once and opened once.
    uses = 4 * blocks(size)
    more = (sealed - clear) / uses
    print(f"{size} octets both ways in an event: {sealed:,.0f} instructions, {sealed / clear:.2f} times those in clear")
    print(f"  more than in clear for each of {uses} blocks: {more:,.0f}, {more / block:.2f} times the cipher alone;"
          f" the aim is at most {block + MOST_OF_A_BLOCK:,.0f}")
    print(f"  peak memory: {memory / clear_memory:.2f} times that in clear, {memory / text:.2f} times the text of the journal")


def print_rates(program, folder):
    for size in (27, 251):
        loads = (encrypted(turns * LONG_EVENTS // LONG_TURNS, size) for turns in (LONG_TURNS // 4, LONG_TURNS))
        short, long = (instructions(program, folder, load) / load.turns for load in loads)
        print(f"  {size} octets both ways: {long:,.0f} a turn in {LONG_TURNS:,} turns, {long / short:.3f} times those in a"
              " quarter as many")


def main():
    parts, program = (os.path.abspath(word) for word in sys.argv[1:])
    block = block_alone(parts)
    print(f"A block of the cipher alone: {block:,.0f} instructions")
    with tempfile.TemporaryDirectory() as folder:
        for size in (27, 251):
            print_size(program, folder, size, block)
        print_rates(program, folder)


if __name__ == "__main__":
    main()
