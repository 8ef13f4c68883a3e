#!/usr/bin/env python3
"""Writes what the program `accesses` must print.

Which call is accepted and what it accesses comes from the simulations of a gate and of a dispatcher; nothing is shared with the crates.
"""
import os

from arguments import ROOT, takes_none
from dispatcher_simulation import LET_GO, NOTHING, STEP, Dispatcher
from simulation import ARM_LIMIT, FOUR_VALUED, THREE_BITS, Gate

HERE = os.path.join(ROOT, "crates", "accesses")

KINDS = ("begin", "step", "admit", "confirm", "leave", "let_go", "phase", "look", "tally", "most_passed", "way", "bit", "same")

TURNS = 20000
MORE_TURNS = 60000
LISTED_TURNS = 6000

# How many arms wait to be begun at most; of so many moves the first ones are those at which an arm asks.
ASKED = 24
MOVES_A_BURST, ASKS_A_BURST = 2048, 16

# The registers of the most arms at the three-bit door.
REGISTERS = THREE_BITS.room(ARM_LIMIT)


def accesses(gate):
    return gate.reads, gate.writes


class Cost:
    def __init__(self):
        self.calls = self.reads = self.writes = 0
        self.each = []

    def add(self, reads, writes):
        """A call that read and wrote so often."""
        self.calls += 1
        self.reads += reads
        self.writes += writes
        self.each.append(reads + writes)

    def __str__(self):
        if not self.calls:
            return "0"
        return "%d reads %d writes %d each %d to %d" % (
            self.calls, self.reads, self.writes, min(self.each), max(self.each))


class Book:
    def __init__(self):
        self.costs = {kind: (Cost(), Cost()) for kind in KINDS}

    def add(self, kind, accepted, reads=0, writes=0):
        self.costs[kind][0 if accepted else 1].add(reads, writes)

    def __str__(self):
        return "".join("%s: accepted %s; refused %s\n" % ((kind,) + self.costs[kind]) for kind in KINDS)


class Watched:
    """A gate whose calls are put down in a book, each with its accesses."""

    def __init__(self, door, n):
        self.gate, self.book = Gate(door, n), Book()

    def call(self, kind, *words):
        gate = self.gate
        reads, writes = gate.reads, gate.writes
        answer = getattr(gate, kind)(*words)
        self.book.add(kind, answer is not None, gate.reads - reads, gate.writes - writes)

    def confirm(self, arm):
        """A no is put down as a refusal."""
        self.book.add("confirm", self.gate.confirm(arm))

    def foreign_pass(self):
        """A pass of another gate is confirmed by no gate, and spent by none."""
        self.book.add("confirm", False)
        self.book.add("leave", False)


def arm_of(turn, n):
    return (turn * 0x9E3779B97F4A7C15 % 2**64 >> 33) % n + 1


def turn(watched, arm):
    watched.call("look", arm)
    phase = watched.gate.phase(arm)
    if phase == "I":
        watched.call("begin", arm)
    elif phase == "F" and arm % 2 == 0:
        watched.call("let_go", arm)
    elif phase == "F":
        watched.call("admit", arm)
        watched.call("admit", arm)
        watched.confirm(arm)
        watched.call("leave", arm)
    else:
        watched.call("step", arm)


def watch(watched, arm, other):
    watched.call("tally", arm, other)
    watched.call("most_passed", arm)
    watched.call("way", arm)
    watched.call("bit")
    watched.call("same", watched.gate)


def ask_for(watched, stranger):
    for kind in ("begin", "step", "admit", "let_go", "phase", "look"):
        watched.call(kind, stranger)
    watched.call("tally", 1, stranger)
    watched.call("tally", stranger, 1)
    watched.call("most_passed", stranger)
    watched.call("way", stranger)


def ask_wrongly(watched, arm):
    phase = watched.gate.phase(arm)
    calls = {"I": "step admit way", "D": "begin admit way", "X": "begin admit way",
             "W": "begin admit", "F": "begin step way"}[phase]
    for kind in calls.split():
        watched.call(kind, arm)


def turn_of_other(watched, other):
    phase = other.phase(1)
    if phase == "I":
        other.begin(1)
    elif phase == "F":
        watched.foreign_pass()
        other.let_go(1)
    else:
        other.step(1)


def lively(door, n, turns):
    watched = Watched(door, n)
    for t in range(turns):
        arm = arm_of(t, n)
        turn(watched, arm)
        watch(watched, arm, n)
    return watched.book


def refused(door, n, turns):
    watched, other = Watched(door, n), Gate(THREE_BITS, 1)
    for t in range(turns):
        arm = arm_of(t, n)
        ask_for(watched, 0)
        ask_for(watched, n + 1)
        watched.call("phase", arm)
        ask_wrongly(watched, arm)
        turn_of_other(watched, other)
        turn(watched, arm)
    return watched.book


def once(reads, writes):
    """The cost of one call."""
    cost = Cost()
    cost.add(reads, writes)
    return cost


def making(door, registers, wanted):
    gate = Gate(door, wanted, registers)
    return "registers %d wanted %d arms %d: making accepted %s; refused 0\n" % (registers, wanted, gate.n, once(*accesses(gate)))


def moves(door, n, count):
    """Moves of a dispatcher, by what each did."""
    gate, costs = Gate(door, n), {did: Cost() for did in (STEP, LET_GO, NOTHING)}
    dispatcher = Dispatcher(gate)
    for t in range(count):
        if t % MOVES_A_BURST < ASKS_A_BURST and len(dispatcher.asked) < ASKED:
            dispatcher.asked.append(arm_of(t, n + 1))
        reads, writes = gate.reads, gate.writes
        dispatcher.make_move()
        costs[dispatcher.did].add(gate.reads - reads, gate.writes - writes)
    ending = once(0, 0)
    return ("arms %d moves %d\na step: %s\nan arm let go: %s\nall idle: %s\nstop: %s\ninto_bank: %s\n"
            % (n, count, costs[STEP], costs[LET_GO], costs[NOTHING], ending, ending))


def carried(door, n, turns):
    """A list of calls that is carried out. Each turn has eight: these five, and three that only tell something without an access."""
    gate = Gate(door, n)
    for t in range(turns):
        for call in (gate.begin, gate.step, gate.way, gate.admit, gate.leave):
            call(arm_of(t, n))
    return "carry_out of %d calls: %s\n" % (8 * turns, once(*accesses(gate)))


def played(door, n, turns):
    """A play, whose report tells the bit."""
    gate = Gate(door, n)
    for t in range(turns):
        for call in (gate.begin, gate.step, gate.let_go):
            call(arm_of(t, n))
    gate.bit()
    return "play of %d orders: %s, played true\nplay of the same and a cut number: %s, played false\n" % (
        3 * turns, once(*accesses(gate)), once(0, 0))


def runs(door, makings):
    text = "".join(making(door, registers, wanted) for registers, wanted in makings)
    watched = Watched(door, 0)
    watch(watched, 1, 1)
    text += "no arms\n%s" % watched.book
    for n, turns in ((1, TURNS), (3, TURNS), (7, TURNS), (32, TURNS), (77, TURNS), (ARM_LIMIT, MORE_TURNS)):
        text += "arms %d turns %d\n%s" % (n, turns, lively(door, n, turns))
        text += "arms %d turns %d with calls that are refused\n%s" % (n, turns, refused(door, n, turns))
    for n in (1, 3, 7, 32, 77, ARM_LIMIT):
        text += moves(door, n, TURNS) + carried(door, n, LISTED_TURNS) + played(door, n, LISTED_TURNS)
    return text


def main():
    takes_none(__doc__)
    first = ((REGISTERS, 1), (REGISTERS, 3), (REGISTERS, ARM_LIMIT), (REGISTERS, 1000), (10, ARM_LIMIT), (3, ARM_LIMIT))
    second = first + ((1, ARM_LIMIT),)
    with open(os.path.join(HERE, "stdout"), "w") as out:
        out.write("%sthrough the four-valued door\n%s" % (runs(THREE_BITS, first), runs(FOUR_VALUED, second)))


if __name__ == "__main__":
    main()
