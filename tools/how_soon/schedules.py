"""Writes, for any number of arms, a list of calls by which an arm waits for many rounds.

Arm w waits. Each other arm begins just when w comes to look at it, so that w has to look on until its doorway has ended: 8 rounds an
arm at the three-bit door, 6 at the four-valued one. Three tricks add a few rounds:

- With 3 arms or more, w at first looks at arm 1, which has the other side, and that one at arm 3, which goes through two doorways.
- Then, at the three-bit door, arm 1 begins again at once: w still reads the old side in its mygroup.
- While w looks at the last arm, that one goes through two doorways. In between it turns the bit, but w reads the bit only later.
"""
from rounds import make

from simulation import THREE_BITS, Gate


class Writer:
    """Makes calls and puts them down, round after round. Where `apart`, admit and leave are two moves."""

    def __init__(self, door, n, apart):
        self.gate, self.apart, self.calls, self.owing = Gate(door, n), apart, [], set()

    def call(self, kind, arm):
        assert make(self.gate, kind, arm)
        self.calls.append((kind, arm))

    def go(self, arm):
        """The next call of an arm's visit."""
        kind = self.gate.next_call(arm)
        self.call(kind, arm)
        if kind == "admit" and not self.apart:
            self.call("leave", arm)
        self.owing.discard(arm)

    def go_to(self, arm, at):
        """Goes on, once at least, until the arm is at a position."""
        self.go(arm)
        while self.gate.at[arm] != at:
            self.go(arm)

    def place(self, arm):
        return self.gate.at[arm], self.gate.index[arm]

    def end_round(self, first, beside=None, last=None):
        """All that still owe a move: the first one, an arm that goes on to where that one stands, all others, the last one."""
        self.go(first)
        if beside in self.owing - {last}:
            self.go(beside)
            while self.place(beside) != self.place(first):
                self.go(beside)
        for arm in sorted(self.owing - {last}) + sorted(self.owing & {last}):
            self.go(arm)
        self.owing = self.gate.busy()


def steps_ahead(writer, third):
    """The places at which w goes on looking come round every few rounds; with so many steps made before the first round, it is at W4
    in the round in which the other arm gets idle. That comes a round later where moves are apart, and where arms follow the third."""
    around = sum(at >= "W4" for at in writer.gate.door.rows if at[0] == "W")  # W4 and the waiting places after it
    return (1 - writer.apart - (third < writer.gate.n)) % around


def bring_about(writer, w, other, third):
    """Arms w and `other` wait, and have read different bits; `other` looks at the third, which has read the same bit as it."""
    while writer.place(other) != ("W2", third):
        writer.go(other)
    writer.go_to(w, "F")
    writer.go_to(third, "D3")
    writer.go_to(w, "W1")
    for _ in range(steps_ahead(writer, third)):
        writer.go(w)


def wait_for_other(writer, w, other, third):
    """While w looks at the arm of the other side. The third ends its doorway, gets into the next one, and ends that too."""
    for again in (True, False):
        while writer.gate.phase(third) == "D":
            writer.end_round(w, last=third)
        if again:
            writer.go_to(third, "D2")
            writer.end_round(w)
    while writer.gate.phase(other) != "I":
        writer.end_round(w, beside=third)


def begin_again(writer, w, other, third):
    """The arm that w has waited for begins: w reads its mygroup before it is written, and then its flag, raised anew."""
    while writer.gate.at[w] != "W6":
        writer.end_round(w, beside=third)
    writer.go_to(other, "D3")
    writer.end_round(w, beside=third)
    writer.go_to(other, "D5")


def wait_for_all(writer, w, third):
    """Each arm begins when w comes to look at it; the last one then goes through one more doorway."""
    n, again = writer.gate.n, True
    while writer.gate.phase(w) == "W":
        at, other = writer.place(w)
        if at == "W2" and other != w:
            if writer.gate.phase(other) == "I":
                writer.go_to(other, "D2")
            elif other == n and writer.gate.phase(n) == "W" and again:
                writer.go_to(n, "D2")
                again = False
        writer.end_round(w, beside=third, last=other)


def schedule(door, n, apart=True):
    """The calls up to where an arm waits, those that follow until it is inside, and which arm that is."""
    writer = Writer(door, n, apart)
    w, other, third = (2, 1, 3) if n > 2 else (1, None, None)
    if n > 2:
        bring_about(writer, w, other, third)
    else:
        writer.go_to(w, "W1")
    before = len(writer.calls)
    writer.owing = writer.gate.busy()
    if n > 2:
        wait_for_other(writer, w, other, third)
        if door is THREE_BITS:
            begin_again(writer, w, other, third)
    wait_for_all(writer, w, third)
    end = max(k for k, call in enumerate(writer.calls) if call[1] == w) + 1
    return writer.calls[:before], writer.calls[before:end], w
