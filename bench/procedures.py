"""Counts the instructions of `ble pair` on a link on which the host of the central asks for an update, a channel map, a
data length, the version of the peer and PHYs, and that of the peripheral for other parameters, which the other host grants,
again and again, and compares them and the peak memory with those of a link that carries empty PDUs."""
import os
import sys
import tempfile

from links import instructions
from runs import CREATE, INTERVAL, ON, Load, link, run

# How many events there are for each procedure: an indication takes six to its Instant.
EVENTS = 8
ROUNDS = 12
LONG_ROUNDS = 74

UPDATE = bytes.fromhex("0113200e" "0000" "1800" "1800" "0000" "800c" "0000" "0000")
MAPS = (bytes.fromhex("01142005" "ffffffff0f"), bytes.fromhex("01142005" "ffffffff1f"))
LENGTH = bytes.fromhex("01222006" "0000" "fb00" "4808")
VERSION = bytes.fromhex("011d0402" "0000")
PHY = bytes.fromhex("01322007" "0000" "00" "0101" "0000")
GRANT = bytes.fromhex("0120200e" "0000" "1800" "1800" "0000" "800c" "0000" "0000")
# LE events let through, with those of requests.
MASKS = bytes.fromhex("01010c08ffffffffff1f0020" "010120083f00000000000000")
# The events of a request: two until the host answers it, and those of its indication.
REQUEST_EVENTS = 2 * EVENTS


def procedures(rounds):
    """Each of the commands in each round. After the first exchange of versions the answer is known at once."""
    words = INTERVAL.to_bytes(2, "little").hex()
    a = MASKS + bytes.fromhex(CREATE % (words, words))
    b = ON
    turns = b"t ++ a%d b%d\nrun %d\n" % (len(a), len(ON), 1 + INTERVAL)
    for number in range(rounds):
        for command in (UPDATE, MAPS[number % 2], LENGTH, VERSION, PHY):
            a += command
            turns += b"t ++ a%d\nrun %d\n" % (len(command), EVENTS * INTERVAL - 1)
        a += GRANT
        b += UPDATE
        turns += b"t ++ b%d\nrun %d\n" % (len(UPDATE), 2 * INTERVAL - 1)
        turns += b"t ++ a%d\nrun %d\n" % (len(GRANT), (REQUEST_EVENTS - 2) * INTERVAL - 1)
    events = 1 + (5 * EVENTS + REQUEST_EVENTS) * rounds
    return Load(a, b, turns, 2 + INTERVAL * events, 2 + 2 * events)


def check_done(folder, rounds):
    """Each procedure is done, and each indication holds at both sides."""
    with open(os.path.join(folder, "journal"), "rb") as journal:
        lines = journal.readlines()
    for begin, expected in (
        (b"done a 1 update", rounds),
        (b"done a 1 map", rounds),
        (b"done a 1 length", rounds),
        (b"done a 1 version", 1),
        (b"done a 1 phy", rounds),
        (b"done b 1 request", rounds),
        (b"applied a ", 3 * rounds),
        (b"applied b ", 3 * rounds),
    ):
        count = sum(line.startswith(begin) for line in lines)
        if count != expected:
            sys.exit(f"{count} lines begin with {begin.decode()}, and not {expected}")


def main():
    program = os.path.abspath(sys.argv[1])
    with tempfile.TemporaryDirectory() as folder:
        load = procedures(ROUNDS)
        run(program, folder, load)
        check_done(folder, ROUNDS)
        whole = instructions(program, folder, load)
        half = instructions(program, folder, procedures(ROUNDS // 2))
        empty = instructions(program, folder, link(load.turns))
        long = procedures(LONG_ROUNDS)
        _, memory, text = run(program, folder, long)
        check_done(folder, LONG_ROUNDS)
        _, empty_memory, _ = run(program, folder, link(long.turns))
    print(f"{load.turns:,} turns, with a procedure in every {EVENTS} events, and a request in {REQUEST_EVENTS}")
    print(f"  {whole:,} instructions, {whole / empty:.2f} times those of a link with empty PDUs")
    print(f"  more for each procedure: {(whole - empty) / (6 * ROUNDS):,.0f}")
    print(f"  the second half of the rounds: {(whole - half) / half:.2f} times the first")
    print(f"Peak memory of {long.turns:,} turns: {memory / empty_memory:.2f} times that of a link with empty PDUs,"
          f" {memory / text:.2f} times the text of the journal")


if __name__ == "__main__":
    main()
