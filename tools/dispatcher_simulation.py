"""Simulates a dispatcher round a gate of simulation.py, from docs/HOSTS.md alone and sharing nothing with the crates."""
from collections import deque

STEP, LET_GO, NOTHING = "step", "let go", "nothing"


class Dispatcher:
    """A host puts the arms that it asks for into `asked`. `did` tells what the last move did to the arm that it served."""

    def __init__(self, gate):
        self.gate, self.asked, self.last, self.did = gate, deque(), 0, NOTHING

    def begin_asked(self):
        """Begins the arm at the head. It stays there only while it is busy."""
        if self.asked and self.gate.phase(self.asked[0]) in (None, "I"):
            self.gate.begin(self.asked.popleft())

    def next_busy(self):
        """The first arm not idle after the one served last, around the end; 0 where all are idle."""
        around = [*range(self.last + 1, self.gate.n + 1), *range(1, self.last + 1)]
        return next((arm for arm in around if self.gate.phase(arm) != "I"), 0)

    def make_move(self):
        """Answers the arm that it served, or 0 where all are idle."""
        self.begin_asked()
        served = self.next_busy()
        if served == 0:
            self.did = NOTHING
        elif self.gate.phase(served) == "F":
            self.did = LET_GO
            self.gate.let_go(served)
        else:
            self.did = STEP
            self.gate.step(served)
        self.last = served or self.last
        return served
