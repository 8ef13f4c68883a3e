"""Plays the lists that the search found and the schedules, and tells their rounds. Usage: tell.py GATEPLAY < what the search printed"""
import subprocess
import sys

from rounds import make, rounds_waiting
from schedules import schedule

from schedule_files import ORDER_OF, file_of
from simulation import DOORS, THREE_BITS, Gate

COUNTS = (1, 2, 3, 4, 8, 32, 100)
PLAYED = 32


def calls_of(gate, arms):
    """The next call of the visit of each arm in turn."""
    calls = []
    for arm in map(int, arms):
        calls.append((gate.next_call(arm), arm))
        assert make(gate, *calls[-1])
    return calls


def tell_search(line):
    name, n, gates, *most, w, way, waiting = line.split()
    door, n, most = DOORS[name], int(n), [int(k) for k in most]
    gate = Gate(door, n)
    before, calls = calls_of(gate, way), calls_of(gate, waiting)
    assert rounds_waiting(door, n, before, calls, int(w)) == (max(most), "W")
    assert max(most) < door.promised(n)
    rounds = " ".join(map(str, most))
    print(f"{name} arms {n} gates {gates}: whole rounds while an arm waits {rounds}; so inside within {max(most) + 1}, "
          f"promised {door.promised(n)}")


def tell_schedule(door, n):
    before, calls, w = schedule(door, n)
    rounds, phase = rounds_waiting(door, n, before, calls, w)
    assert phase == "F" and rounds < door.promised(n)
    print(f"{door.name} arms {n}: whole rounds while arm {w} waits {rounds}, inside in round {rounds + 1}, promised {door.promised(n)}")


def phase_played(gateplay, n, orders, w):
    """The phase of an arm after orders that the proved program has played."""
    played = subprocess.run([gateplay], input=file_of(n, orders), stdout=subprocess.PIPE, check=True).stdout.decode()
    head, *arms = played.splitlines()
    assert head.startswith(f"arms {n} orders {len(orders)} refused 0 ")
    return arms[w - 1].split()[1]


def orders_of(calls):
    """The orders that make the calls. The one that an arm leaves makes both admit and leave."""
    return [(ORDER_OF[kind], arm) for kind, arm in calls if kind in ORDER_OF]


def tell_played(gateplay, n):
    before, calls, w = schedule(THREE_BITS, n, apart=False)
    rounds, _ = rounds_waiting(THREE_BITS, n, before, calls, w)
    first, orders = orders_of(before), orders_of(before + calls)
    phases = [phase_played(gateplay, n, some, w) for some in (first, orders[:-1], orders)]
    print(f"three_bits arms {n}, by gateplay: arm {w} in {phases[0]} at first, in {phases[1]} after {rounds} whole rounds, "
          f"in {phases[2]} after the last order")


def main():
    print("search through all gates")
    for line in sys.stdin:
        tell_search(line)
    print("schedules")
    for door in DOORS.values():
        for n in COUNTS:
            tell_schedule(door, n)
    tell_played(sys.argv[1], PLAYED)


if __name__ == "__main__":
    main()
