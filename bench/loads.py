"""Measures `ble make`: the instructions of a large load, whole and by turn, against those of `ble pair` on the same load,
and its peak memory; then the peak memory of shorter and longer loads of the same kind, by turns."""
import os
import subprocess
import sys
import tempfile

from links import counted, instructions
from runs import CREATE, INTERVAL, ON, STARTER, Load, run

NUMBER = 7
PACKETS, BLOCKS = 200, 220


class Octets:
    """The octets that a number gives."""

    def __init__(self, number):
        self.state = number

    def draw(self, count):
        octets = bytearray()
        for _ in range(count):
            self.state = (1_664_525 * self.state + 1_013_904_223) % 2**32
            octets.append(self.state >> 24)
        return bytes(octets)


def size(number):
    """The octets of a packet."""
    return 1 + number % 27


def stream(command, octets, packets):
    """A command, and packets of data for handle 0."""
    return command + b"".join(
        bytes.fromhex("020000") + size(number).to_bytes(2, "little") + octets.draw(size(number)) for number in range(packets)
    )


def load_of(number, packets=PACKETS, blocks=BLOCKS):
    """The load of a number, or one like it with other counts."""
    words = INTERVAL.to_bytes(2, "little").hex()
    octets = Octets(number)
    a = stream(bytes.fromhex(CREATE % (words, words)), octets, packets)
    b = stream(ON, octets, packets)
    turns = b"t ++ a29 b5\n"
    for block in range(blocks):
        fed = 5 + size(block)
        turns += b"t ++ a%d b%d\n" % (fed, fed) if block < packets else b"t ++\n"
        turns += b"t ++ x\n" if block % 3 == number % 3 else b"t ++\n"
        turns += b"run 22\n"
    return Load(a, b, turns, 1 + blocks * INTERVAL, None)


def memory_of_make(program):
    starter = [sys.executable, "-S", "-E", "-c", STARTER, program, "make", str(NUMBER)]
    ended = subprocess.run(starter, stdout=subprocess.PIPE, stderr=subprocess.PIPE, text=True, check=True)
    return ended.stdout.strip(), int(ended.stderr.split()[-1])


def main():
    program = os.path.abspath(sys.argv[1])
    with tempfile.TemporaryDirectory() as folder:
        load = load_of(NUMBER)
        line, memory = memory_of_make(program)
        made = counted([program, "make", str(NUMBER)], folder)
        paired = instructions(program, folder, load)
        print(line)
        print(f"make {NUMBER}: {made:,} instructions, {made / load.turns:,.0f} a turn, {made / paired:.3f} times `pair` on its load")
        sizes = []
        for blocks in (BLOCKS, 4 * BLOCKS, 16 * BLOCKS):
            part = load_of(NUMBER, blocks - 20, blocks)
            _, peak, text = run(program, folder, part)
            sizes.append((part.turns, peak))
            print(f"`pair` on {part.turns:,} turns: peak memory {peak:,} octets, {peak / part.turns:,.0f} a turn,"
                  f" {peak / text:.2f} times the text of the journal")
        (few, least), (many, most) = sizes[0], sizes[-1]
        print(f"Peak memory of make {NUMBER}: {memory:,} octets; each further turn takes {(most - least) / (many - few):,.0f} octets")


if __name__ == "__main__":
    main()
