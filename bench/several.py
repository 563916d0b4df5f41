"""Counts the instructions of `ble pair` on three links that carry nothing but empty PDUs, and compares what a turn costs
more than an idle one with one such link, and what it costs to open them where access addresses are far away."""
import os
import sys
import tempfile

from links import instructions, per_turn
from runs import CREATE, INTERVAL, ON, Load, idle, run

# LE Set Random Address, with its first octet; a host has another address for its second and its third link.
RANDOM = "01052006" "%02x0000eeffc0"
# Own address types in LE Create Connection.
PUBLIC, OWN_RANDOM = 0, 1
# How many slots lie between the events of two links.
APART = 8
# How much more three links may cost than one, over idle turns.
MOST = 3
# Where the search for access addresses begins: usually; before the longest row that has none; and where it takes most steps.
CURSORS = b"71764129", b"f8000000", b"aaaaaa40"


def create(own):
    words = INTERVAL.to_bytes(2, "little").hex()
    octets = bytearray.fromhex(CREATE % (words, words))
    # The own address type comes after the opcode, the length, both scan values, the policy and the peer's type and address.
    octets[4 + 4 + 1 + 7] = own
    return bytes(octets)


def links(count):
    """The load of this many links, the first from turn 2 on, each further one from 8 turns later on."""
    firsts = [create(PUBLIC)]
    firsts += [bytes.fromhex(RANDOM % (12 + number)) + create(OWN_RANDOM) for number in range(1, count)]

    def load(turns):
        lines = b""
        for octets in firsts[:-1]:
            lines += b"t ++ a%d b%d\nrun %d\n" % (len(octets), len(ON), APART - 1)
        rest = turns - APART * (count - 1) - 1
        lines += b"t ++ a%d b%d\nrun %d\n" % (len(firsts[-1]), len(ON), rest)
        packets = sum(2 + 2 * len(range(2 + APART * number, turns, INTERVAL)) for number in range(count))
        return Load(b"".join(firsts), ON * count, lines, turns, packets)

    return load


def from_cursor(cursor, load):
    """The same load, where both sides search from there."""
    load.schedule = load.schedule.replace(CURSORS[0], cursor)
    return load


def main():
    program = os.path.abspath(sys.argv[1])
    with tempfile.TemporaryDirectory() as folder:
        # The journal has the packets of all three.
        run(program, folder, links(3)(10_000))
        still = per_turn(program, folder, idle)
        one, three = (per_turn(program, folder, links(count)) - still for count in (1, 3))
        print(f"An idle turn: {still:,.0f} instructions")
        print(f"More in a turn with one idle link: {one:,.0f}")
        print(f"More in a turn with three idle links: {three:,.0f}, {three / one:.2f} times; the aim is at most {MOST}")
        usual, row, steps = (
            instructions(program, folder, from_cursor(cursor, links(3)(64))) for cursor in CURSORS
        )
        print(f"64 turns that open three links: {usual:,} instructions")
        print(f"  before the longest row with no access address: {row / usual:.3f} times")
        print(f"  where the search takes most steps: {steps / usual:.3f} times")


if __name__ == "__main__":
    main()
