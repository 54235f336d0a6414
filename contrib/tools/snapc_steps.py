"""The network that runs tables: what `snapc trace` does with a copy in one step, of both versions, with packets in turn or not.

Docs/MEANING.md and docs/FORMATS.md say what a step is. Tables that break a rule by which steps end are refused at the start; what
else is wrong with tables is a fault where a copy comes to it, and `snapc trace` tells which rule it is.
"""
from dataclasses import dataclass
from typing import List, Tuple

from snapc_tables import MOST, Equal, Fault, Go, Leaf, State, Stop, Value


@dataclass
class Copy:
    number: int  # of its packet, counted from 0
    at: int
    head: Tuple  # walk NUMBER, stage NUMBER STAGE, visit RANK NUMBER, or out PORT
    values: List[int]


class Network:
    """Tables, the numbers in their arrays that aren't 0, and the copies in flight."""

    def __init__(self, tables, ordered=False):
        self.tables, self.ordered, self.flying, self.injected, self.store = tables, ordered, [], 0, {}
        self.rank_switches = []
        if tables.version == 2:
            switches = {array.rank: array.switch for array in tables.arrays}
            if sorted(switches) != list(range(len(switches))):
                raise Fault(tables.file, 0, "a rank has no array")
            self.rank_switches = [switches[rank] for rank in sorted(switches)]
        elif ordered:
            raise Fault(tables.file, 1, "packets take no turns in tables of version 1")
        self.handled = [0] * len(self.rank_switches)
        self.check_rows()
        self.check_hops()

    def check_rows(self):
        for (switch, number), row in self.tables.rows.items():
            line = self.tables.lines[switch, number]
            if isinstance(row, (Value, Equal, State)) and min(row.yes, row.no) <= number:
                raise Fault(self.tables.file, line, "a test leads to a number that isn't above its own")
            if isinstance(row, Go) and isinstance(self.tables.rows.get((row.switch, number), row), Go):
                raise Fault(self.tables.file, line, "the switch that is to decide has no row that does")

    def check_hops(self):
        """Whether each way by next hops ends."""
        count, hops = len(self.tables.switches), self.tables.hops
        for target in range(count):
            good = {target}
            for at in range(count):
                way = []
                while at not in good and len(way) <= count:
                    way.append(at)
                    at = hops.get((at, target), at)
                if len(way) > count:
                    raise Fault(self.tables.file, 0, f"next hops towards {self.tables.switches[target]} never reach it")
                good.update(way)

    def inject(self, packet):
        """A copy of the packet comes in behind the others; a fault where its port is none of the tables."""
        self.flying.append(Copy(self.injected, self.tables.ports[packet.port], ("walk", 0), list(packet.values)))
        self.injected += 1

    def step(self, place):
        """A step of the copy at this place; whether anything changed, as it doesn't where the copy waits for its turn."""
        copy = self.flying[place]
        before = copy.at, copy.head
        kind = copy.head[0]
        if kind == "out" and self.tables.ports[copy.head[1]] == copy.at:
            del self.flying[place]
            return True
        if kind == "out":
            self.send(copy, self.tables.ports[copy.head[1]])
            return True
        outs = {"walk": self.walk, "stage": self.stages, "visit": self.visits}[kind](copy)
        if outs is not None:
            self.flying[place:place + 1] = self.forked(copy, outs)
        return outs is not None or before != (copy.at, copy.head)

    def row(self, switch, number):
        row = self.tables.rows.get((switch, number))
        if row is None or isinstance(row, Stop):
            raise Fault(self.tables.file, 0, f"at {self.tables.switches[switch]} no row decides at number {number}")
        return row

    def send(self, copy, target):
        copy.at = self.tables.hops[copy.at, target]

    def place(self, array, index, values):
        return (array, *(atom.value(values) for atom in index))

    def side(self, row, values, most=64):
        """The number to which a test leads. Arrays of greater rank than `most` are taken as 0."""
        if isinstance(row, Value):
            passed = values[row.component] == row.number
        elif isinstance(row, Equal):
            passed = values[row.left] == values[row.right] + row.plus & MOST
        else:
            seen = (self.tables.arrays[row.array].rank or 0) <= most
            passed = row.term.value(values) == (self.store.get(self.place(row.array, row.index, values), 0) if seen else 0)
        return row.yes if passed else row.no

    def update(self, updates, values):
        for one in updates:
            place, number = self.place(one.array, one.index, values), one.atom.value(values)
            number = number if one.kind == "put" else self.store.get(place, 0) + number & MOST
            self.store[place] = number

    def forked(self, copy, outs):
        """The different packets that outs make, in rising order, each on its way to its port."""
        made = set()
        for parts in outs:
            values = list(copy.values)
            for component, atom in parts:
                values[component] = atom.value(copy.values)
            made.add(tuple(values))
        return [Copy(copy.number, copy.at, ("out", values[1]), list(values)) for values in sorted(made) if values[1] in self.tables.ports]

    # What follows steps a copy, which is changed in place, and answers its outs where it forks.

    def walk(self, copy):
        number = copy.head[1]
        while True:
            row = self.tables.rows.get((copy.at, number))
            if not isinstance(row, (Value, Equal)) and not (isinstance(row, State) and self.tables.version == 1):
                break
            number = self.side(row, copy.values)
        if self.rank_switches:
            return self.visits(copy, 0, number)
        row = self.row(copy.at, number)
        if isinstance(row, Go):
            copy.head = "walk", number
            self.send(copy, row.switch)
            return None
        if self.tables.version == 2 or not row.stages:
            return row.outs
        return self.stages(copy, number, 0)

    def stages(self, copy, number=None, stage=None):
        number, stage = copy.head[1:] if number is None else (number, stage)
        leaf = self.leaf(copy.at, number)
        while stage < len(leaf.stages) and leaf.stages[stage].switch == copy.at:
            self.update(leaf.stages[stage].updates, copy.values)
            stage += 1
        if stage == len(leaf.stages):
            return leaf.outs
        copy.head = "stage", number, stage
        self.send(copy, leaf.stages[stage].switch)
        return None

    def visits(self, copy, rank=None, number=None):
        """The visits of this rank and those that follow at the same switch, of which the first that isn't due ends the step."""
        begun = rank is None
        rank, number = copy.head[1:] if begun else (rank, number)
        while rank < len(self.rank_switches) and self.rank_switches[rank] == copy.at:
            if self.ordered and self.handled[rank] != copy.number:
                if begun:
                    copy.head = "visit", rank, number
                return None
            number = self.visit(copy, rank, number)
            self.handled[rank] += 1
            rank, begun = rank + 1, True
        if rank == len(self.rank_switches):
            return self.leaf(copy.at, number).outs
        copy.head = "visit", rank, number
        self.send(copy, self.rank_switches[rank])
        return None

    def visit(self, copy, rank, number):
        """Makes the visit of a rank at a number: its tests, and the updates to which they lead."""
        row = self.row(copy.at, number)
        while isinstance(row, State) and self.tables.arrays[row.array].rank == rank:
            number = self.side(row, copy.values)
            row = self.row(copy.at, number)
        way = number
        while not isinstance(row, Leaf):
            way = self.side(row, copy.values, rank)
            row = self.row(copy.at, way)
        updates = [one for stage in row.stages for one in stage.updates if self.tables.arrays[one.array].rank == rank]
        self.update(updates, copy.values)
        return number

    def leaf(self, switch, number):
        row = self.row(switch, number)
        if not isinstance(row, Leaf):
            raise Fault(self.tables.file, self.tables.lines[switch, number], "a packet comes here as to a leaf, and this is none")
        return row
