#!/usr/bin/env python3
"""Simulates a gate of either door, from docs/GATE.md alone and sharing nothing with the crates.

The table of each door stands here as data, once for all tools: the class Gate goes by it, and so does the search of
tools/how_soon, for which this program prints it as plain lines.
"""
from collections import namedtuple

from arguments import parser

# The most arms of a gate, the most visits of an arm, and the highest count of a row.
ARM_LIMIT = 100
VISIT_LIMIT = 1000000000
TALLY_LIMIT = 255

READ, WRITE = "read", "write"

# Where a register belongs: to no arm, to the arm that steps, or to arm j, which it looks at.
GROUP, OWN, OF_J = "group", "own", "of_j"

# A value that a row names by the side of the arm that steps. A value that is read as the new side becomes the arm's side.
SIDE, OTHER_SIDE, NEW_SIDE = "side", "other_side", "new_side"

# Where a row leads besides the position that it names: to the first waiting place at j + 1, or inside where j is the last arm.
NEXT = "next"
IDLE, INSIDE = "I", "F"

# A position, its one access, and what comes then. A write puts the value. A read compares with the value: `then` where it is
# the one that was read, `otherwise` elsewhere. `register` counts the registers of an arm from 0.
Row = namedtuple("Row", "at access whose register value then otherwise")


class Door:
    """What the page says of a door.

    `registers` names those of each arm, `first` is what making writes to them, `needed` the least highest value of the bank;
    an arm is promised to be inside within rounds[0] * n + rounds[1] rounds. A position is called by the letter of its phase and
    its number in this phase, in the order of the table. A line of the table is: position, access, whose register, which one
    (none of the group), value, then, otherwise (none where the access decides nothing).
    """

    def __init__(self, name, registers, first, needed, rounds, table):
        self.name, self.registers, self.first, self.needed, self.rounds = name, registers, first, needed, rounds
        self.rows = {}
        for at, access, whose, register, value, then, otherwise in table:
            number = registers.index(register) if register else 0
            self.rows[at] = Row(at, access, whose, number, value, then, otherwise or then)

    def room(self, n):
        """How many registers n arms take."""
        return len(self.registers) * n + 1

    def promised(self, n):
        """Within how many rounds an arm that waits is inside."""
        return self.rounds[0] * n + self.rounds[1]

    def lines(self):
        """The door as plain lines: its name, the first values, and the rows."""
        yield self.name
        yield " ".join(map(str, self.first))
        yield from (" ".join(map(str, row)) for row in self.rows.values())


THREE_BITS = Door(
    name="three_bits",
    registers=("choosing", "mygroup", "flag"),
    first=(0, 0, 0),
    needed=1,
    rounds=(8, 20),
    table=(
        ("D1", WRITE, OWN, "choosing", 1, "D2", None),
        ("D2", READ, GROUP, None, NEW_SIDE, "D3", None),
        ("D3", WRITE, OWN, "mygroup", SIDE, "D4", None),
        ("D4", WRITE, OWN, "flag", 1, "D5", None),
        ("D5", WRITE, OWN, "choosing", 0, "W1", None),
        ("W1", READ, GROUP, None, SIDE, "W2", INSIDE),
        ("W2", READ, OF_J, "choosing", 0, "W3", "W2"),
        ("W3", READ, OF_J, "mygroup", SIDE, NEXT, "W4"),
        ("W4", READ, OF_J, "flag", 0, NEXT, "W5"),
        ("W5", READ, GROUP, None, SIDE, "W6", NEXT),
        ("W6", READ, OF_J, "mygroup", SIDE, NEXT, "W4"),
        ("X1", WRITE, GROUP, None, OTHER_SIDE, "X2", None),
        ("X2", WRITE, OWN, "flag", 0, IDLE, None),
    ),
)

# The positions are those that the page calls Choose, Read, Tell; Group, Choosing, Side, SideAgain, GroupAgain; Turn, Rest.
FOUR_VALUED = Door(
    name="four_valued",
    registers=("state",),
    first=(3,),
    needed=3,
    rounds=(6, 16),
    table=(
        ("D1", WRITE, OWN, "state", 2, "D2", None),
        ("D2", READ, GROUP, None, NEW_SIDE, "D3", None),
        ("D3", WRITE, OWN, "state", SIDE, "W1", None),
        ("W1", READ, GROUP, None, SIDE, "W2", INSIDE),
        ("W2", READ, OF_J, "state", 2, "W2", "W3"),
        ("W3", READ, OF_J, "state", OTHER_SIDE, "W4", NEXT),
        ("W4", READ, OF_J, "state", OTHER_SIDE, "W5", NEXT),
        ("W5", READ, GROUP, None, SIDE, "W4", NEXT),
        ("X1", WRITE, GROUP, None, OTHER_SIDE, "X2", None),
        ("X2", WRITE, OWN, "state", 3, IDLE, None),
    ),
)

DOORS = {door.name: door for door in (THREE_BITS, FOUR_VALUED)}


class Gate:
    """A gate of n arms through a door. A call that is refused answers None and alters nothing.

    `reads` and `writes` count the accesses of its registers since its making, `turns` how often the group got another value. A pass
    is named by its arm.
    """

    def __init__(self, door, n, registers=None, number=0):
        """Makes the gate that has the largest arm count up to n for which the registers are there; all are, where none are given."""
        tried = range(min(n, ARM_LIMIT), 0, -1)
        self.door, self.number, self.turns = door, number, 0
        self.n = next((k for k in tried if registers is None or door.room(k) <= registers), 0)
        self.reads = len(tried) - max(self.n - 1, 0)
        self.writes = door.room(self.n) if self.n else 0
        self.registers = [0, *door.first * self.n]
        each = self.n + 1  # arm i stands at i
        self.at, self.index, self.side, self.visits = [IDLE] * each, [0] * each, [None] * each, [0] * each
        self.row, self.notes = [[0] * each for _ in range(each)], [[False] * each for _ in range(each)]
        self.out = set()

    def is_arm(self, arm):
        return 1 <= arm <= self.n

    def phase(self, arm):
        return self.at[arm][0] if self.is_arm(arm) else None

    def busy(self):
        """The arms that are not idle."""
        return {arm for arm in range(1, self.n + 1) if self.at[arm] != IDLE}

    def next_call(self, arm):
        """The one call of an arm that is accepted and alters anything; of an arm inside that is admit, and then leave."""
        inside = "leave" if arm in self.out else "admit"
        return {IDLE: "begin", INSIDE: inside}.get(self.at[arm], "step")

    def begin(self, arm):
        if self.phase(arm) != "I" or self.visits[arm] == VISIT_LIMIT:
            return None
        self.at[arm] = "D1"
        self.visits[arm] += 1
        return "D"

    def step(self, arm):
        """Makes the one access of the row at which the arm is."""
        row = self.door.rows.get(self.at[arm]) if self.is_arm(arm) else None
        if row is None:
            return None
        place, value = self.place_of(row, arm), self.value_of(row, arm)
        if row.access == WRITE:
            self.writes += 1
            self.turns += row.whose == GROUP and self.registers[place] != value
            self.registers[place] = value
            self.go(arm, row.then)
        else:
            self.reads += 1
            if value == NEW_SIDE:
                self.side[arm] = value = self.registers[place]
            self.go(arm, row.then if self.registers[place] == value else row.otherwise)
        return self.at[arm][0]

    def place_of(self, row, arm):
        """The index of the register that the row accesses."""
        if row.whose == GROUP:
            return 0
        owner = arm if row.whose == OWN else self.index[arm]
        return len(self.door.registers) * (owner - 1) + row.register + 1

    def value_of(self, row, arm):
        if row.value == SIDE:
            return self.side[arm]
        return 1 - self.side[arm] if row.value == OTHER_SIDE else row.value

    def go(self, arm, then):
        """Takes an arm to where its row leads. A row of counts starts at the end of the doorway, and the arms that are idle are noted."""
        if then == NEXT:
            then = "W1" if self.index[arm] < self.n else INSIDE
            self.index[arm] += 1
        elif then == "W1":
            self.index[arm] = 1
            self.row[arm] = [0] * (self.n + 1)
            self.notes[arm] = [at == IDLE for at in self.at]
        self.at[arm] = then
        if then == INSIDE:
            self.index[arm] = 0
            self.count(arm)
        elif then == IDLE:
            self.side[arm] = None

    def count(self, entered):
        """Each arm that waits counts the one that went inside."""
        for arm in range(1, self.n + 1):
            if self.at[arm][0] == "W":
                self.row[arm][entered] = min(TALLY_LIMIT, self.row[arm][entered] + 1)

    def admit(self, arm):
        if self.phase(arm) != "F" or arm in self.out:
            return None
        self.out.add(arm)
        return arm

    def confirm(self, arm):
        return arm in self.out

    def leave(self, arm):
        if arm not in self.out:
            return None
        self.out.remove(arm)
        self.at[arm] = "X1"
        return "X"

    def let_go(self, arm):
        return None if self.admit(arm) is None else self.leave(arm)

    def look(self, arm):
        return (self.at[arm][0], self.side[arm], self.index[arm], self.visits[arm], arm in self.out) if self.is_arm(arm) else None

    def tally(self, arm, other):
        return (self.row[arm][other], self.notes[arm][other]) if self.is_arm(arm) and self.is_arm(other) else None

    def most_passed(self, arm):
        return max(self.row[arm]) if self.is_arm(arm) else None

    def way(self, arm):
        if self.phase(arm) != "W":
            return None
        self.reads += 1
        return self.registers[0] != self.side[arm] or 1 - self.side[arm] not in self.side

    def bit(self):
        self.reads += 1 if self.n else 0
        return self.registers[0]

    def record(self, arm):
        """All that is kept of an arm; a position is the place and the index."""
        position = self.at[arm], self.index[arm]
        return position, self.side[arm], self.visits[arm], arm in self.out, self.row[arm][1:], self.notes[arm][1:]

    def same(self, other):
        """Compares number, arm count and turns, then the records of the arms, and then the registers up to the first that differs."""
        arms = range(1, self.n + 1)
        if (self.number, self.n, self.turns) != (other.number, other.n, other.turns):
            return False
        if any(self.record(arm) != other.record(arm) for arm in arms):
            return False
        if self.n == 0:
            return True
        pairs = list(zip(self.registers, other.registers))
        compared = next((k for k, (mine, its) in enumerate(pairs, 1) if mine != its), len(pairs))
        self.reads += compared
        other.reads += compared
        return self.registers == other.registers


def main():
    words = parser("Prints the table of a door as plain lines: its name, the first values of an arm's registers, and the rows.")
    words.add_argument("door", choices=DOORS)
    for line in DOORS[words.parse_args().door].lines():
        print(line)


if __name__ == "__main__":
    main()
