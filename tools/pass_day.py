#!/usr/bin/env python3
"""Writes what the program `passday` must print.

Gate and host are simulated, from docs/ alone and sharing nothing with the crates,
so the stored output is a check from outside.
"""
import os

from arguments import ROOT, takes_none
from simulation import THREE_BITS, Gate

HERE = os.path.join(ROOT, "crates", "passday")

ARMS, STEPS = 6, 60


def step_on(gate, arm):
    """Begins an arm and steps it; a call that is refused alters nothing. Answers its phase."""
    gate.begin(arm)
    for _ in range(STEPS):
        gate.step(arm)
    return gate.phase(arm)


def lines():
    gate = Gate(THREE_BITS, ARMS)
    for arm in (1, 2, 3):
        step_on(gate, arm)
    for arm in (1, 2, 3):
        gate.admit(arm)
    yield f"arm 4 beside three passes: {step_on(gate, 4)}"
    gate.leave(2)
    gone, again = step_on(gate, 2), step_on(gate, 2)
    yield f"arm 2 without its pass: {gone}, and asked again: {again}"
    for arm in (3, 1):
        gate.leave(arm)
    yield from (f"arm {arm}: {gate.phase(arm)}" for arm in range(1, ARMS + 1))


if __name__ == "__main__":
    takes_none(__doc__)
    with open(os.path.join(HERE, "stdout"), "w") as out:
        out.writelines(line + "\n" for line in lines())
