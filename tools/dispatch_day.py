#!/usr/bin/env python3
"""Writes what the program `dispatchday` must print.

Gate, dispatcher and rings are simulated, from docs/ alone and sharing nothing with the crates,
so the stored output is a check from outside.
"""
import os
from collections import deque

from arguments import ROOT, takes_none
from dispatcher_simulation import Dispatcher
from simulation import FOUR_VALUED, THREE_BITS, Gate

HERE = os.path.join(ROOT, "crates", "dispatchday")

ARMS, MOVES, ASKED, READINGS = 6, 700, 4, 24


def ask(asked, time):
    """Every twelfth move an arm asks; whether it was lost since the ring was full."""
    if time % 12 == 0 and len(asked) == ASKED:
        return 1
    if time % 12 == 0:
        asked.append(time // 12 % 7 + 1)
    return 0


def day(door):
    """A day of moves: the readings delivered, how many asks and readings the full rings refused, and the longest wait."""
    dispatcher, readings, asks, missed = Dispatcher(Gate(door, ARMS)), deque(), 0, 0
    began, longest = {}, 0
    for time in range(MOVES):
        asks += ask(dispatcher.asked, time)
        served = dispatcher.make_move()
        phase = dispatcher.gate.phase(served)
        if phase == "W":
            began.setdefault(served, time)
        elif phase == "F":
            longest = max(longest, time - began.pop(served, time))
            if len(readings) < READINGS:
                readings.append((served, (served % 32 * 137 + time % 1000 * 29) % 1000 - 200))
            else:
                missed += 1
    return readings, asks, missed, longest


def lines():
    for title, door in (("through the three-bit door", THREE_BITS), ("through the four-valued door", FOUR_VALUED)):
        readings, asks, missed, longest = day(door)
        yield title
        yield f"readings {len(readings)} lost {missed} asks lost {asks}"
        yield f"longest wait {longest} of {ARMS * door.promised(ARMS)} moves"
        yield from (f"arm {arm} tenths {tenths}" for arm, tenths in readings)


if __name__ == "__main__":
    takes_none(__doc__)
    with open(os.path.join(HERE, "stdout"), "w") as out:
        out.writelines(line + "\n" for line in lines())
