"""Random programs over the fields f and g and up to three arrays, and random topologies: what `networks` and `upgrades` draw from.

The same seed draws the same everywhere, since `Dice` does.
"""
import os
import sys

sys.path.insert(0, os.path.join(os.path.dirname(os.path.realpath(__file__)), "..", "contrib", "tools"))
from snapc_schedules import Dice


class Draw:
    """Draws by a seed. `pick(n)` is a number below n."""

    def __init__(self, seed, arrays=None):
        self.pick = Dice(seed).below
        self.count = self.pick(4) if arrays is None else arrays  # of arrays
        self.switches = 0
        self.ports = []

    def field(self):
        return "f" if self.pick(2) else "g" if self.pick(2) else "inport"

    def number(self):
        return str(self.pick(3))

    def field_or_number(self):
        return self.number() if self.pick(2) else self.field()

    def place(self):
        array = "stu"[self.pick(self.count)]
        return f"{array}[{self.field() if self.pick(3) else self.number()}]"

    def test(self):
        kind = self.pick(5 if self.count else 2)
        if kind < 2:
            return f"{self.field()} = {self.number()}"
        return f"{self.place()} = {self.field() if kind == 2 else self.number()}"

    def predicate(self, depth):
        kind = self.pick(6) if depth else 0
        if kind == 3:
            return f"!({self.predicate(depth - 1)})"
        if kind in (4, 5):
            return f"({self.predicate(depth - 1)}) {'&' if kind == 4 else '|'} ({self.predicate(depth - 1)})"
        return self.test()

    def change(self):
        kind = self.pick(8 if self.count else 3)
        if kind == 0:
            return f"outport <- {self.pick(5)}"
        if kind == 1:
            return f"outport <- {self.field()}"
        if kind == 2:
            return f"{'f' if self.pick(2) else 'g'} <- {self.field_or_number()}"
        if kind == 3:
            return f"{self.place()} <- {self.field_or_number()}"
        if kind == 4:
            return f"{self.place()} += {self.number()}"
        return self.place() + ("--" if kind == 5 else "++")

    def policy(self, depth):
        kind = self.pick(8) if depth else 0
        if kind < 2:
            return self.change()
        if kind < 5:
            return f"({self.policy(depth - 1)}{' +' if kind == 2 else ';'} {self.policy(depth - 1)})"
        if kind == 5:
            return self.predicate(1)
        return f"(if {self.predicate(2)} then {self.policy(depth - 1)} else {self.policy(depth - 1)})"

    def program(self):
        """Its declarations and its policy, a text each."""
        arrays = "".join(f" array {array};" for array in "stu"[:self.count])
        return f"field f; field g;{arrays}", f"{self.policy(3)};\n{self.policy(2)}\n"

    def topology(self):
        """A path of one to four switches with some more links, and one to four ports. Sets `switches` and `ports`."""
        self.switches = 1 + self.pick(4)
        names = [f'"w{switch}"' for switch in range(self.switches)]
        links = [f"[{names[a]}, {names[b]}]" for a in range(self.switches) for b in range(a + 1, self.switches)
                 if b == a + 1 or self.pick(4) == 0]
        self.ports = list(range(1, 2 + self.pick(4)))
        ports = "".join(f"{port} = {names[self.pick(self.switches)]}\n" for port in self.ports)
        return f"switches = [{', '.join(names)}]\nlinks = [{', '.join(links)}]\n[ports]\n{ports}"

    def placement(self, groups):
        """Each group of arrays at a random switch."""
        return "".join(f'{array} = "w{at}"\n' for group in groups for at in [self.pick(self.switches)] for array in group)

    def packet(self, ports):
        return f"{ports[self.pick(len(ports))]} f={self.number()} g={self.number()}"
