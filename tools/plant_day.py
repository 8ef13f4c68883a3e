#!/usr/bin/env python3
"""Writes what the program `plantday` must print.

Gate, dice and notes are simulated, from docs/ alone and sharing nothing with the crates,
so the stored output is a check from outside.
"""
import os

from arguments import ROOT, takes_none
from simulation import FOUR_VALUED, THREE_BITS, Gate

HERE = os.path.join(ROOT, "crates", "plantday")

ARMS, TURNS, SEED = range(1, 7), 200000, 20261117

# No arm goes inside more often past a waiting one.
MOST_PASSED = 2


class Dice:
    def __init__(self):
        self.held = SEED

    def roll(self, sides):
        self.held = (self.held * 6364136223846793005 + 1442695040888963407) % 2**64
        return (self.held >> 33) % sides

    def pick(self):
        """The arm whose turn it is: 1 and 2 are favourites, and 6 gets hardly any turn."""
        if self.roll(10) < 7:
            return self.roll(2) + 1
        return self.roll(5) + 1 if self.roll(20) < 19 else 6


class Notes:
    """What a day comes to for each arm, by its number; place 0 is not used."""

    def __init__(self):
        self.delivered, self.passed, self.waited, self.since = ([0] * 7 for _ in range(4))
        self.due, self.rounds, self.turns = set(), 0, 0

    def stepped(self, gate, arm, before):
        """The arm made a step, before which it was in this phase."""
        after = gate.phase(arm)
        if before == "D" and after == "W":
            self.since[arm] = self.rounds + 1
        elif before == "W" and after == "F":
            self.waited[arm] = max(self.waited[arm], self.rounds - self.since[arm])
            self.passed[arm] = max(self.passed[arm], gate.most_passed(arm))

    def moved(self, gate, arm):
        """The arm moved: a round is over once every arm that was not idle at its start has moved."""
        self.due.discard(arm)
        if not self.due:
            self.rounds += 1
            self.due = gate.busy()


def turn(gate, arm, dice, notes):
    before = gate.phase(arm)
    if before == "I":
        if dice.roll(3) == 0:
            gate.begin(arm)
        return
    if before == "F":
        notes.delivered[arm] += 1
        gate.let_go(arm)
    else:
        bit = gate.bit()
        gate.step(arm)
        notes.turns += gate.bit() != bit
        notes.stepped(gate, arm, before)
    notes.moved(gate, arm)


def day(door):
    gate, dice, notes = Gate(door, len(ARMS)), Dice(), Notes()
    for _ in range(TURNS):
        turn(gate, dice.pick(), dice, notes)
    return notes


def lines(door):
    notes, most_rounds = day(door), door.promised(len(ARMS))
    for arm in ARMS:
        delivered, passed, waited = notes.delivered[arm], notes.passed[arm], notes.waited[arm]
        yield f"arm {arm} delivered {delivered} passed {passed} of {MOST_PASSED} waited {waited} of {most_rounds}"
    yield f"turns {notes.turns}"


def both_days():
    yield from lines(THREE_BITS)
    yield "through the four-valued door"
    yield from lines(FOUR_VALUED)


if __name__ == "__main__":
    takes_none(__doc__)
    with open(os.path.join(HERE, "stdout"), "w") as out:
        out.writelines(line + "\n" for line in both_days())
