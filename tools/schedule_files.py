"""Schedule files, read and written from docs/SCHEDULE_FILES.md alone and sharing nothing with the crates."""
from simulation import ARM_LIMIT

FILE_LIMIT = 60000
KINDS = BEGIN, STEP, LEAVE = (0, 1, 2)

# The order that makes a call of an arm's visit. An order that an arm leaves admits it besides.
ORDER_OF = {"begin": BEGIN, "step": STEP, "admit": LEAVE}


def number(k):
    return bytes([k]) if k < 128 else bytes([k % 128 + 128, k // 128])


def order(kind, arm):
    return number(4 * arm + kind)


def file_of(arms, orders):
    return number(arms) + b"".join(order(kind, arm) for kind, arm in orders)


def obey(gate, kind, arm):
    """Makes the call of an order; none where the gate refuses it."""
    return (gate.begin, gate.step, gate.let_go)[kind](arm)


def fault(n, at, place, layer):
    return "fault %d at %d order %d layer %s\n" % (n, at, place, layer)


def parse(data):
    """The arm count and orders of a file, or the line of its first fault."""
    if len(data) > FILE_LIMIT:
        return None, fault(9, 0, 0, "play")
    at, count, arms, orders = 0, 0, None, []
    while at < len(data) or count == 0:
        if at >= len(data) or (data[at] >= 128 and at + 1 >= len(data)):
            return None, fault(11, at, count, "number")
        value, after = data[at], at + 1
        if value >= 128:
            if data[after] >= 128:
                return None, fault(13, at, count, "number")
            if data[after] == 0:
                return None, fault(12, at, count, "number")
            value, after = value - 128 + 128 * data[after], after + 1
        if count == 0:
            if not 1 <= value <= ARM_LIMIT:
                return None, fault(14, 0, 0, "schedule")
            arms = value
        elif value % 4 == 3:
            return None, fault(15, at, count, "schedule")
        else:
            orders.append((value % 4, value // 4))
        at, count = after, count + 1
    return (arms, orders), None


class Writer:
    """A file that grows by orders, each of which a gate obeys, up to a size."""

    def __init__(self, gate, limit=FILE_LIMIT):
        self.gate, self.limit, self.file = gate, limit, number(gate.n)

    def put(self, kind, arm):
        """Adds an order; no where there is no room for it."""
        if len(self.file) + len(order(kind, arm)) > self.limit:
            return False
        self.file += order(kind, arm)
        obey(self.gate, kind, arm)
        return True

    def next_order(self, arm):
        """The order of an arm's visit that comes next."""
        return ORDER_OF[self.gate.next_call(arm)]

    def go_on(self, arm):
        return self.put(self.next_order(arm), arm)

    def go_to(self, arm, phase):
        while self.gate.phase(arm) != phase:
            self.go_on(arm)
