"""Counts the rounds of a list of calls, apart from whoever wrote the list, on a gate of the simulation."""
from simulation import Gate


def make(gate, kind, arm):
    """Makes a call, and tells whether it was accepted."""
    return getattr(gate, kind)(arm) is not None


def rounds_waiting(door, n, before, calls, w):
    """How many whole rounds the calls make while arm w waits, and its phase after them. The last call may take it inside.

    A round ends as soon as every arm that was not idle at its start has moved. No other cut has more rounds: one that starts later
    ends no sooner.
    """
    gate = Gate(door, n)
    assert all(make(gate, *call) for call in before)
    owing, rounds = gate.busy(), 0
    for kind, arm in calls:
        assert gate.phase(w) == "W" and make(gate, kind, arm)
        owing -= set() if kind == "begin" else {arm}
        if gate.phase(w) == "W" and not owing:
            owing, rounds = gate.busy(), rounds + 1
    return rounds, gate.phase(w)
