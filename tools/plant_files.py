#!/usr/bin/env python3
"""Writes the schedule files that the program `edges` plays, and what it must print.

Reader, gate and report are simulated, from docs/ alone and sharing nothing with the crates,
so the stored output is a check from outside.
"""
import os
import random

from arguments import ROOT, takes_none
from schedule_files import FILE_LIMIT, KINDS, STEP, Writer, obey, order, parse
from simulation import ARM_LIMIT, FOUR_VALUED, THREE_BITS, Gate

HERE = os.path.join(ROOT, "crates", "edges")

# The least memory for a report.
REPORT_ROOM = 4096


def play(data, door=THREE_BITS):
    """What the program must print for a file."""
    said, line = parse(data)
    if said is None:
        return line
    arms, orders = said
    gate = Gate(door, arms)
    refused = sum(obey(gate, kind, arm) is None for kind, arm in orders)
    text = "arms %d orders %d refused %d bit %d\n" % (arms, len(orders), refused, gate.bit())
    for arm in range(1, arms + 1):
        phase, side, _, visits, _ = gate.look(arm)
        text += "%d %s %s %d %d\n" % (arm, phase, "-" if side is None else side, visits, gate.most_passed(arm))
    return text


def wild(seed, arms, size, favourites, beyond=40):
    """Orders as an unfair host gives them, some for arms up to `beyond`, until the file would pass a size."""
    rng, writer = random.Random(seed), Writer(Gate(THREE_BITS, arms), size)
    while True:
        arm = rng.choice(favourites) if rng.random() < 0.7 else rng.randint(1, arms)
        kind = writer.next_order(arm)
        if rng.random() < 0.02:
            kind, arm = rng.choice(KINDS), rng.randint(0, beyond)
        if not writer.put(kind, arm):
            return writer.file


def exactly(seed, arms, size, favourites=(1, 2), beyond=40):
    """A file of just this many bytes: filled up with steps of arm 1, a byte each."""
    file = wild(seed, arms, size, favourites, beyond)
    return file + order(STEP, 1) * (size - len(file))


def past_a_waiting_arm(door=THREE_BITS):
    """Arm 2 goes inside twice past arm 1, which ended its doorway after arm 3 had left."""
    writer = Writer(Gate(door, 3))
    for arm, phase in ((2, "W"), (3, "F"), (3, "I"), (1, "W"), (2, "F"), (2, "I"), (2, "F")):
        writer.go_to(arm, phase)
    return writer.file


SAMPLE = bytes([2, 4] + [5] * 5 + [8] + [9] * 5 + [5] * 6 + [6] + [5] * 3)
# Two arms wait, 1 goes inside and then 2; both leave.
BOTH_INSIDE = bytes([2, 4] + [5] * 5 + [8] + [9] * 5 + [5] * 6 + [9] * 6)
BOTH_GONE = BOTH_INSIDE + bytes([6, 5, 5, 10, 9, 9])
FILES = [
    ("two_arms", SAMPLE),
    ("both_inside", BOTH_INSIDE),
    ("both_gone", BOTH_GONE),
    ("second_entry", past_a_waiting_arm()),
    ("hall_of_32", wild(1, 32, 20000, [3, 17, 32])),
    ("hall_of_100", wild(5, 100, 40000, [3, 50, 100], 110)),
    ("quiet_row", wild(2, 32, 30000, list(range(1, 33)))),
    ("as_long_as_can_be", exactly(3, 5, FILE_LIMIT)),
    ("as_long_with_100_arms", exactly(6, 100, FILE_LIMIT, [1, 99, 100], 110)),
    ("too_long", exactly(4, 5, FILE_LIMIT + 1)),
    ("no_orders", bytes([32])),
    ("arm_not_there", bytes([2, 0x0C])),
    ("largest_order", bytes([2, 0xFE, 0x7F])),
    ("empty", b""),
    ("cut_at_once", bytes([0x80])),
    ("cut_at_the_end", bytes([2, 4, 0x85])),
    ("padded_at_once", bytes([0x80, 0])),
    ("padded_later", bytes([2, 4, 0x80, 0])),
    ("large_at_once", bytes([0xFF, 0xFF])),
    ("large_later", bytes([2, 4, 5, 0xFF, 0x80, 1])),
    ("no_arms", bytes([0])),
    ("more_than_32_arms", bytes([33])),
    ("too_many_arms", bytes([ARM_LIMIT + 1])),
    ("unknown_order", bytes([2, 7])),
    ("unknown_order_later", bytes([2, 4, 0x87, 1])),
]


# How many edge cases the crate proves.
EDGE_CASES = 128

# The file that the program plays through the four-valued door.
TWICE_PAST = past_a_waiting_arm(FOUR_VALUED)


def main():
    takes_none(__doc__)
    os.makedirs(os.path.join(HERE, "data"), exist_ok=True)
    shown = "%d edge cases\n" % EDGE_CASES
    for name, data in FILES:
        with open(os.path.join(HERE, "data", name), "wb") as out:
            out.write(data)
        text = play(data)
        short = "9" if len(data) > FILE_LIMIT else "10"
        shown += "%s: %d bytes\n%s" % (name, len(data), text)
        again = "none" if text.startswith("fault") else "same"
        shown += "over bytes: same\nmemory of %d: %s\nwritten again: %s\n" % (REPORT_ROOM - 1, short, again)
    shown += "through the four-valued door: %d bytes\n%s" % (len(TWICE_PAST), play(TWICE_PAST, FOUR_VALUED))
    with open(os.path.join(HERE, "stdout"), "w") as out:
        out.write(shown)
    with open(os.path.join(HERE, "args"), "w") as out:
        out.write("".join(name + "\n" for name, _ in FILES))


if __name__ == "__main__":
    main()
