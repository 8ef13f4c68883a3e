#!/usr/bin/env python3
"""Writes what the program `recordday` must print.

The recorded day and the play of its file are simulated, from docs/ alone and sharing nothing with the crates,
so the stored output is a check from outside.
"""
import os

from arguments import ROOT, takes_none
from schedule_files import FILE_LIMIT, Writer, obey, parse
from simulation import THREE_BITS, Gate

HERE = os.path.join(ROOT, "crates", "recordday")

ARMS, MEMORY, LINE = 6, 266, 32

FILE_FULL, UNFIT_GATE = "18 file full", "19 unfit gate"


def arm_of_turn(turn):
    return 1 + turn * turn // 3 % ARMS


def has_room(file):
    """An order is written only where two bytes are free."""
    return len(file) + 2 <= min(MEMORY, FILE_LIMIT)


def is_fit(gate):
    return gate.n > 0 and all(gate.look(arm)[3] == 0 for arm in range(1, gate.n + 1))


def day(gate):
    """Makes turns up to the first that is refused. Answers how many there were, the file, and the arm whose pass is in hand."""
    writer, turn = Writer(gate), 1
    while has_room(writer.file):
        writer.go_on(arm_of_turn(turn))
        turn += 1
    return turn, writer.file, gate.admit(arm_of_turn(turn))


def played(file):
    """A new gate that has obeyed the orders of a file, how many there are, and how many it refused."""
    (arms, orders), _ = parse(file)
    gate = Gate(THREE_BITS, arms)
    answers = [obey(gate, kind, arm) for kind, arm in orders]
    return gate, len(orders), answers.count(None)


def report(gate, orders, refused):
    yield f"arms {gate.n} orders {orders} refused {refused} bit {gate.bit()}"
    for arm in range(1, gate.n + 1):
        phase, side, _, visits, _ = gate.look(arm)
        yield f"{arm} {phase} {'-' if side is None else side} {visits} {gate.most_passed(arm)}"


def lines():
    gate = Gate(THREE_BITS, ARMS)
    turns, file, held = day(gate)
    yield f"turns {turns}"
    yield f"ended by {FILE_FULL}"
    yield f"written {len(file)} of {MEMORY} bytes"
    yield from (file[at:at + LINE].hex(" ") for at in range(0, len(file), LINE))
    again, orders, refused = played(file)
    recorded, replayed = list(report(gate, orders, 0)), list(report(again, orders, refused))
    yield from ("the recorded gate", *recorded, "the file played over bits", *replayed)
    yield "reports the same: " + str(recorded == replayed).lower()
    if held is not None:
        yield f"pass of arm {held} spent: {gate.leave(held)}"
    if not is_fit(gate):
        yield f"started again: {UNFIT_GATE}"


if __name__ == "__main__":
    takes_none(__doc__)
    with open(os.path.join(HERE, "stdout"), "w") as out:
        out.writelines(line + "\n" for line in lines())
