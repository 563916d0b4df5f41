"""Runs `ble pair` on loads of hosts, of the radio and of a link, whole and halved, and prints figures and ratios."""
import os
import subprocess
import sys
import tempfile

HEAD = (
    b"ble-schedule 1\n"
    b"side a c0ffee00000a 71764129 0000000000000001\n"
    b"side b c0ffee00000b 71764129 0000000000000002\n"
)
RESET = bytes.fromhex("01030c00")
# Advertising parameters: an interval of 16 slots, type 3, all channels; 19 octets.
PARAMETERS = bytes.fromhex("0106200f" "2000" "2000" "03" "00" "00" "000000000000" "07" "00")
ON = bytes.fromhex("010a200101")
OFF_AND_ON = bytes.fromhex("010a200100") + ON
# LE events let through, and scanning turned on: 18 octets.
SCANS = bytes.fromhex("01010c08ffffffffff1f0020" "010c20020100")

# LE Create Connection to device B: a timeout of 32 s, no latency; 29 octets, with the interval in slots twice.
CREATE = "010d2019" "6000" "6000" "00" "00" "0b0000eeffc0" "00" "%s" "%s" "0000" "800c" "0000" "0000"
INTERVAL = 24

# Runs a program and writes its status, its seconds and its peak memory in octets. It is small itself, because the memory
# that a process takes before it becomes the program counts as the program's.
STARTER = """
import os, sys, time
begun = time.monotonic()
child = os.fork()
if child == 0:
    os.execv(sys.argv[1], sys.argv[1:])
_, status, usage = os.wait4(child, 0)
print(status, time.monotonic() - begun, usage.ru_maxrss * 1024, file=sys.stderr)
"""


class Load:
    """The input of a run, and how many turns and packets on the air its journal must have; no packets where they are not
    counted."""

    def __init__(self, a, b, turns, count, packets):
        self.a = a
        self.b = b
        self.schedule = HEAD + turns
        self.turns = count
        self.packets = packets


def one_turn(octets):
    """Resets of this many octets, fed in one turn."""
    return Load(RESET * (octets // 4), b"", b"t ++ a%d\n" % octets, 1, 0)


def ten_a_turn(turns):
    """Resets, ten octets a turn."""
    return Load(RESET * (turns * 10 // 4), b"", b"t ++ a10\n" * turns, turns, 0)


def on_air(turns):
    """An advertiser that is turned off and on again in each turn, so that it transmits in each, and a scanner."""
    a = PARAMETERS + OFF_AND_ON * turns
    first = b"t ++ a%d b%d\n" % (len(PARAMETERS + OFF_AND_ON), len(SCANS))
    return Load(a, SCANS, first + b"t ++ a10\n" * (turns - 1), turns, turns)


def advertising(turns):
    """An advertiser at its least interval, and a scanner, with nothing fed after the first turn."""
    a = PARAMETERS + ON
    packets = sum(1 for slot in range(turns) if slot % 16 < 3)
    return Load(a, SCANS, b"t ++ a%d b%d\nrun %d\n" % (len(a), len(SCANS), turns - 1), turns, packets)


def idle(turns):
    """Turns in which nothing happens."""
    return Load(b"", b"", b"run %d\n" % turns, turns, 0)


def link_of(interval, turns):
    """A link on which nothing but empty PDUs goes, with one exchange in each interval, from turn 2 on."""
    words = interval.to_bytes(2, "little").hex()
    a = bytes.fromhex(CREATE % (words, words))
    packets = 2 + 2 * len(range(2, turns, interval))
    return Load(a, ON, b"t ++ a%d b%d\nrun %d\n" % (len(a), len(ON), turns - 1), turns, packets)


def link(turns):
    """A link with an interval of 24 slots."""
    return link_of(INTERVAL, turns)


def long_lines(octets):
    """A schedule of turn lines with fates, of this many octets."""
    line = b"t ++ . x e0:00\n"
    turns = (octets - len(HEAD)) // len(line)
    return Load(b"", b"", line * turns, turns, 0)


def check(load, journal):
    """Checks that the journal has the turns and the packets of the load."""
    turns = packets = 0
    with open(journal, "rb") as file:
        for line in file:
            turns += line.startswith(b"turn ")
            packets += line.startswith(b"air ")
    if load.packets is None:
        packets = None
    if (turns, packets) != (load.turns, load.packets):
        sys.exit(f"{turns} turns and {packets} packets, and not {load.turns} and {load.packets}")


def run(program, folder, load):
    """Seconds, peak memory in octets, and the size of the journal's text."""
    for name, content in (("a", load.a), ("b", load.b), ("s", load.schedule)):
        with open(os.path.join(folder, name), "wb") as file:
            file.write(content)
    path = os.path.join(folder, "journal")
    best = None
    for _ in range(3):
        with open(path, "wb") as journal:
            starter = [sys.executable, "-S", "-E", "-c", STARTER, program, "pair", "a", "b", "s"]
            ended = subprocess.run(starter, cwd=folder, stdout=journal, stderr=subprocess.PIPE, text=True, check=True)
        status, seconds, memory = ended.stderr.split()[-3:]
        if status != "0":
            sys.exit(f"the program ended with {ended.stderr}")
        best = float(seconds) if best is None else min(best, float(seconds))
    check(load, path)
    return best, int(memory), os.path.getsize(path)


def main():
    program = os.path.abspath(sys.argv[1])
    with tempfile.TemporaryDirectory() as folder:
        for name, make, whole in (
            ("Resets in one turn, by octets", one_turn, 1_048_576),
            ("Resets at ten octets a turn, by turns", ten_a_turn, 100_000),
            ("On air in each turn, by turns", on_air, 100_000),
            ("Advertising and scanning, by turns", advertising, 100_000),
            ("Idle turns, by turns", idle, 100_000),
            ("A link with empty PDUs, by turns", link, 100_000),
            ("Turn lines with fates, by octets of the schedule", long_lines, 1_048_576),
        ):
            half = run(program, folder, make(whole // 2))
            load = make(whole)
            seconds, memory, text = run(program, folder, load)
            print(f"{name}: {whole:,}")
            print(f"  {whole / seconds:,.0f} of them and {load.turns / seconds:,.0f} turns a second")
            print(f"  time at the whole load: {seconds / half[0]:.2f} times that at half of it")
            print(f"  peak memory: {memory:,} octets, {memory / text:.2f} times the text of the journal")


if __name__ == "__main__":
    main()
