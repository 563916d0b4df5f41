"""Counts the instructions of `ble pair` on a link that carries nothing but empty PDUs, and compares them and the peak
memory with those of turns in which nothing happens."""
import os
import re
import subprocess
import sys
import tempfile

from runs import INTERVAL, idle, link, link_of, run

TURNS = 9_600
LONG_INTERVAL = 3_200


def write(folder, load):
    for name, content in (("a", load.a), ("b", load.b), ("s", load.schedule)):
        with open(os.path.join(folder, name), "wb") as file:
            file.write(content)


def counted(words, folder):
    """The instructions of a program with its words, as valgrind counts them."""
    words = ["valgrind", "--tool=callgrind", "--callgrind-out-file=/dev/null", *words]
    ended = subprocess.run(words, cwd=folder, stdout=subprocess.DEVNULL, stderr=subprocess.PIPE, text=True, check=True)
    return int(re.search(r"Collected : (\d+)", ended.stderr).group(1))


def instructions(program, folder, load):
    """The instructions of a whole run."""
    write(folder, load)
    return counted([program, "pair", "a", "b", "s"], folder)


def per_turn(program, folder, make):
    """The instructions of a turn: those of the second half of a run, so that what happens once is left out."""
    whole = instructions(program, folder, make(2 * TURNS))
    return (whole - instructions(program, folder, make(TURNS))) / TURNS


def main():
    program = os.path.abspath(sys.argv[1])
    with tempfile.TemporaryDirectory() as folder:
        still = per_turn(program, folder, idle)
        linked = per_turn(program, folder, link)
        seldom = per_turn(program, folder, lambda turns: link_of(LONG_INTERVAL, turns))
        # An event costs the same with either interval.
        event = (linked - seldom) / (1 / INTERVAL - 1 / LONG_INTERVAL)
        between = linked - event / INTERVAL
        print(f"An idle turn: {still:,.0f} instructions")
        print(f"A turn of a link, interval {INTERVAL}: {linked:,.0f}, {linked / still:.2f} times an idle turn")
        print(f"  between events: {between:,.0f}, {between / still:.2f} times")
        print(f"  more in the turn of an event: {event:,.0f}, {event / still:.2f} times")
        _, idle_memory, idle_text = run(program, folder, idle(100_000))
        _, memory, text = run(program, folder, link(100_000))
        print(f"Peak memory of 100,000 turns: {memory / idle_memory:.2f} times that of idle turns, {memory / text:.2f}"
              f" times the text of the journal, which is {text / idle_text:.2f} times as long")


if __name__ == "__main__":
    main()
