"""Counts the instructions of `ble pair` for a command of a host: HCI Resets, all fed in one turn."""
import os
import sys
import tempfile

from links import instructions
from runs import RESET, one_turn

COMMANDS = 40_000
# What a command should cost at most.
MOST_INSTRUCTIONS = 2_600


def main():
    program = os.path.abspath(sys.argv[1])
    with tempfile.TemporaryDirectory() as folder:
        whole = instructions(program, folder, one_turn(len(RESET) * COMMANDS))
        half = instructions(program, folder, one_turn(len(RESET) * COMMANDS // 2))
    each = (whole - half) / (COMMANDS // 2)
    print(f"{COMMANDS:,} HCI Resets in one turn: {whole:,} instructions")
    print(f"  {each:,.0f} for each; the aim is at most {MOST_INSTRUCTIONS:,}")
    print(f"  the second half of them: {(whole - half) / half:.2f} times the first")


if __name__ == "__main__":
    main()
