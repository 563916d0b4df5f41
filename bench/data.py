"""Counts the instructions of `ble pair` on a link that carries 27 octets both ways in each of 3,000 events, and
compares them and the peak memory with those of as many idle turns, and of a link that carries empty PDUs. Then counts
those of a turn in short and in long runs, also of a link that carries 251 octets both ways in each event."""
import os
import sys
import tempfile

from links import instructions
from runs import CREATE, INTERVAL, ON, Load, idle, link, run

EVENTS = 3_000
# How long a run is whose turns cost the same as those of one a quarter as long. The file of a host has at most 1 MiB:
# that is room for 4,000 packets of 251 octets.
LONG_TURNS = 100_000
LONG_EVENTS = 4_000
# LE Set Data Length to 251 octets and 2,120 us, and how many events both ends have for it before they carry data.
LENGTH = bytes.fromhex("01222006" "0000" "fb00" "4808")
LENGTH_EVENTS = 8
# What the whole run should stay below.
MOST_INSTRUCTIONS = 496_000_000
MOST_MEMORY = 18_000_000


def packet(number, size):
    """An ACL packet of this many octets for the handle 0: the start of a message."""
    octets = bytes((number + place) % 256 for place in range(size))
    return bytes.fromhex("02" "0000") + size.to_bytes(2, "little") + octets


def data(events, size=27):
    """A link on which each host gives a packet in the turn of each event but event 0. Each packet is one piece, so an
    event has one exchange: for packets of more than 27 octets both hosts set the length first."""
    words = INTERVAL.to_bytes(2, "little").hex()
    a = bytes.fromhex(CREATE % (words, words))
    b = ON
    turns = b"t ++ a%d b%d\nrun %d\n" % (len(a), len(b), 1 + INTERVAL)
    if size > 27:
        a += LENGTH
        b += LENGTH
        turns += b"t ++ a%d b%d\nrun %d\n" % (len(LENGTH), len(LENGTH), LENGTH_EVENTS * INTERVAL - 1)
    for number in range(events):
        a += packet(number, size)
        b += packet(number + 128, size)
        turns += b"t ++ a%d b%d\nrun %d\n" % (5 + size, 5 + size, INTERVAL - 1)
    entered = events + 1 + (LENGTH_EVENTS if size > 27 else 0)
    return Load(a, b, turns, 2 + INTERVAL * entered, 2 + 2 * entered)


def check_taken(folder, events, size=27):
    """Each side has taken a PDU in each event, and its host has received it."""
    with open(os.path.join(folder, "journal"), "rb") as journal:
        lines = journal.readlines()
    head = packet(0, size)[3:5].hex()
    # The four control PDUs of two length exchanges are taken too.
    taken = events + (2 if size > 27 else 0)
    for begin, expected in (
        ("took a ", taken),
        ("took b ", taken),
        (f"up a 020020{head}", events),
        (f"up b 020020{head}", events),
    ):
        count = sum(line.startswith(begin.encode()) for line in lines)
        if count != expected:
            sys.exit(f"{count} lines begin with {begin}, and not {expected}")


def print_rates(program, folder):
    """Prints the instructions of a turn in runs of a quarter of the long one and in the long one, for each load."""
    still = None
    for name, make in (
        ("idle turns", idle),
        ("a link with empty PDUs", link),
        ("27 octets both ways", lambda turns: data(turns * LONG_EVENTS // LONG_TURNS)),
        ("251 octets both ways", lambda turns: data(turns * LONG_EVENTS // LONG_TURNS, 251)),
    ):
        loads = make(LONG_TURNS // 4), make(LONG_TURNS)
        short, long = (instructions(program, folder, load) / load.turns for load in loads)
        still = still or long
        print(f"  {name}: {long:,.0f} in {loads[1].turns:,} turns, {long / short:.3f} times those in"
              f" {loads[0].turns:,}, {long / still:.2f} times those of idle turns")


def main():
    program = os.path.abspath(sys.argv[1])
    with tempfile.TemporaryDirectory() as folder:
        load = data(EVENTS)
        _, still_memory, _ = run(program, folder, idle(load.turns))
        _, empty_memory, _ = run(program, folder, link(load.turns))
        _, memory, text = run(program, folder, load)
        check_taken(folder, EVENTS)
        still = instructions(program, folder, idle(load.turns))
        empty = instructions(program, folder, link(load.turns))
        whole = instructions(program, folder, load)
        half = instructions(program, folder, data(EVENTS // 2))
        run(program, folder, data(EVENTS // 10, 251))
        check_taken(folder, EVENTS // 10, 251)
    print(f"{load.turns:,} turns, with 27 octets both ways in each of {EVENTS:,} events")
    print(f"  {whole:,} instructions; the aim is fewer than {MOST_INSTRUCTIONS:,}")
    print(f"  {whole / still:.2f} times those of idle turns, {whole / empty:.2f} times those of a link with empty PDUs")
    more = (whole - empty) / EVENTS
    print(f"  more in an event than with empty PDUs: {more:,.0f}, {more / (still / load.turns):.2f} times an idle turn")
    print(f"  the second half of the events: {(whole - half) / half:.2f} times the first")
    print(f"  peak memory: {memory:,} octets; the aim is less than {MOST_MEMORY:,}")
    print(f"  {memory / still_memory:.2f} times that of idle turns, {memory / empty_memory:.2f} times that of a link"
          f" with empty PDUs, {memory / text:.2f} times the text of the journal")
    with tempfile.TemporaryDirectory() as folder:
        print("Instructions of a turn")
        print_rates(program, folder)


if __name__ == "__main__":
    main()
