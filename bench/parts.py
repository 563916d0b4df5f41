"""Runs the parts on whole and halved loads, and prints figures and ratios."""
import subprocess
import sys
import time


def seconds(program, words):
    best = None
    for _ in range(3):
        begun = time.monotonic()
        subprocess.run([program, *words], check=True, stdout=subprocess.DEVNULL)
        spent = time.monotonic() - begun
        best = spent if best is None else min(best, spent)
    return best


def main():
    program = sys.argv[1]
    loads = (
        ("blocks encrypted", "blocks", 1_000_000, [], 16),
        ("bodies of 27 octets sealed", "bodies", 100_000, ["27"], 27),
        ("bodies of 251 octets sealed", "bodies", 100_000, ["251"], 251),
        ("channels by algorithm 1", "channels", 10_000_000, ["1"], 0),
        ("channels by algorithm 2", "channels", 10_000_000, ["2"], 0),
        ("control PDUs read and written", "pdus", 1_000_000, [], 0),
        ("winners among eight wants", "winners", 1_000_000, [], 0),
        ("values put into a pool and taken", "cells", 1_000_000, [], 0),
        ("packets through a bank", "packets", 4_000, [], 250),
    )
    for name, kind, count, more, octets in loads:
        half = seconds(program, [kind, str(count // 2), *more])
        whole = seconds(program, [kind, str(count), *more])
        print(f"{name}: {count / whole:,.0f} a second")
        if octets:
            print(f"  {count * octets / whole:,.0f} octets a second")
        print(f"  time at the whole load: {whole / half:.2f} times that at half of it")


main()
