#!/usr/bin/env python3
"""Compares the journal of an example with its schedule and its streams.

    python3 examples/check-schedule.py [NAME ..]

NAME is an example; without a name all are looked at. It shows, by a plain reading of the texts:

- the turns are those of the schedule, in order from slot 0, with their radios, and all of them where the status is 0;
- before each next turn, and at the end, each side was fed what the turns so far feed it of its stream;
- the n-th packet of a turn has the n-th fate of that turn, and packets past the fates pass;
- a side whose radio is off sends nothing, and misses all packets; a lost packet is missed; and on an advertising channel
  none is forged.

These are the clauses of a lawful journal about turns (docs/lawful-journals.md). It shares no code with the program. The
last line is `as scheduled`; otherwise the first line of a journal that is not as it must be is named, and the status is 1.
"""
import os
import sys
from typing import NamedTuple

HERE = os.path.dirname(os.path.abspath(__file__))
SIDES = "ab"
# The advertising channels are this one and those after it.
ADVERTISING = 37


class Fault(Exception):
    """A line of the journal is not as it must be."""


class Turn(NamedTuple):
    """A turn of a schedule: the radios, the most octets that each side is fed, and the fates."""

    radios: str
    feeds: dict
    fates: list


def read(example, name, otherwise=None):
    path = os.path.join(HERE, example, name)
    if otherwise is not None and not os.path.exists(path):
        return otherwise
    with open(path, encoding="ascii") as it:
        return it.read()


def stream(example, side):
    """The octets of the host of a side."""
    lines = (line.partition("#")[0] for line in read(example, f"{side}.hex").split("\n"))
    return bytes.fromhex("".join(lines))


def turns_of(line):
    """The turns of one line of a schedule."""
    word, *words = line.split(" ")
    if word == "run":
        return [Turn("++", {"a": 0, "b": 0}, [])] * int(words[0])
    feeds = {side: 0 for side in SIDES}
    fates = []
    for it in words[1:]:
        if it[0] in SIDES:
            feeds[it[0]] = int(it[1:])
        else:
            fates.append(it.lower())
    return [Turn(words[0], feeds, fates)]


def schedule(example):
    lines = read(example, "schedule").split("\n")[3:]
    return [turn for line in lines if line for turn in turns_of(line)]


class Reader:
    """What the lines of a journal say so far."""

    def __init__(self, turns, streams):
        self.turns = turns
        self.streams = streams
        self.begun = 0
        self.packets = 0
        self.fed = {side: b"" for side in SIDES}

    def now(self):
        if not self.begun:
            raise Fault("a line before the first turn")
        return self.turns[self.begun - 1]

    def compare_feeds(self):
        for side in SIDES:
            count = sum(turn.feeds[side] for turn in self.turns[: self.begun])
            if self.fed[side] != self.streams[side][:count]:
                raise Fault(f"side {side} was not fed what the turns so far feed it")

    def turn(self, slot, radios):
        self.compare_feeds()
        if self.begun == len(self.turns):
            raise Fault("a turn past the last one of the schedule")
        if int(slot) != self.begun or radios != self.turns[self.begun].radios:
            raise Fault("not the next turn of the schedule")
        self.begun += 1
        self.packets = 0

    def feed(self, side, octets):
        if self.packets:
            raise Fault("a side is fed after a packet of the turn")
        self.fed[side] += bytes.fromhex(octets)

    def packet(self, side, channel, _octets, fate, verdict):
        turn = self.now()
        fates = turn.fates[self.packets :]
        self.packets += 1
        other = "b" if side == "a" else "a"
        if fate != (fates[0] if fates else "."):
            raise Fault("not the next fate of the turn")
        if turn.radios[SIDES.index(side)] != "+":
            raise Fault("a packet from a side whose radio is off")
        if (turn.radios[SIDES.index(other)] != "+" or fate == "x") and verdict != "missed":
            raise Fault("a packet that cannot be heard is not missed")
        if verdict == "forged" and int(channel) >= ADVERTISING:
            raise Fault("a forged packet on an advertising channel")

    def line(self, text):
        kind, *words = text.split(" ")
        steps = {"turn": self.turn, "in": self.feed, "air": self.packet}
        if kind in steps:
            steps[kind](*words)


def check(example):
    turns = schedule(example)
    reader = Reader(turns, {side: stream(example, side) for side in SIDES})
    lines = read(example, "journal").split("\n")[:-1]
    for number, text in enumerate(lines, 1):
        try:
            reader.line(text)
        except Fault as fault:
            raise Fault(f"{example}, journal line {number}: {fault}") from None
    try:
        reader.compare_feeds()
    except Fault as fault:
        raise Fault(f"{example}, at the end: {fault}") from None
    if read(example, "status", "0").strip() == "0" and reader.begun != len(turns):
        raise Fault(f"{example}: a turn of the schedule did not begin")


def main():
    names = sys.argv[1:] or sorted(it for it in os.listdir(HERE) if os.path.exists(os.path.join(HERE, it, "journal")))
    try:
        for name in names:
            check(name)
    except Fault as fault:
        print(fault)
        return 1
    print("as scheduled")
    return 0


if __name__ == "__main__":
    sys.exit(main())
