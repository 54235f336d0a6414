"""The decision diagram that the switches of tables share: each test with its ways, each leaf with what it does."""
from dataclasses import dataclass
from typing import List, Tuple

from snapc_draw_dot import LIGHT, cell, cells, graph, of
from snapc_draw_network import colours_of
from snapc_files import address
from snapc_names import Names
from snapc_tables import Equal, Go, Leaf, State, Stop, Value
from snapc_tool import Fault

HEAD, TAIL, DROP = "#e6e6e6", "#f7f7f7", "#dddddd"


@dataclass
class Node:
    """Tests of one thing that stand one behind the other: the number for which each leads on, and where the last leads else."""
    title: str
    colour: str
    ways: List[Tuple[str, int]]


def rows_of(tables):
    """The row of each number, from a switch that decides it, and its line."""
    rows, lines = {}, {}
    for place, row in tables.rows.items():
        if not isinstance(row, (Go, Stop)) and place[1] not in rows:
            rows[place[1]], lines[place[1]] = row, tables.lines[place]
    return rows, lines


def checked(tables, rows, lines):
    """How many ways lead to each number; a fault where one leads nowhere."""
    if 0 not in rows:
        raise Fault(tables.file, 0, "no switch decides number 0, where packets begin")
    parents = {0: 1}
    for number, row in rows.items():
        for target in () if isinstance(row, Leaf) else (row.yes, row.no):
            if target not in rows:
                raise Fault(tables.file, lines[number], f"leads to number {target}, which no switch decides")
            parents[target] = parents.get(target, 0) + 1
    return parents


class Diagram:
    def __init__(self, tables):
        self.tables = tables
        self.rows, lines = rows_of(tables)
        self.parents = checked(tables, self.rows, lines)
        self.names = Names(tables)
        self.colours = [of(LIGHT, colour) for colour in colours_of(tables)]

    @staticmethod
    def subject(row):
        """What is tested, where tests of it may be drawn as one."""
        if isinstance(row, Value):
            return row.component
        return (row.array, row.index) if isinstance(row, State) else None

    def key(self, row):
        """The number that is tested for; a net as a prefix."""
        if isinstance(row, State):
            return self.names.atom(row.term)
        split = self.names.split.get(row.component)
        if split is None:
            return self.names.plain(row.number, self.names.kind(row.component))
        return f"{address(row.number, 0, split.length)}/{split.length}" if row.number < 2 ** split.length else f"net {row.number}"

    def title(self, row):
        """What is tested, and of a place where."""
        if isinstance(row, State):
            array = self.tables.arrays[row.array]
            rank = "" if array.rank is None else f"rank {array.rank} "
            return f"{self.names.index(array.name, row.index)}\n{rank}at {self.tables.switches[array.switch]}"
        split = self.names.split.get(row.component)
        return split.name if split else self.tables.components[row.component]

    def node(self, number):
        """The node of a test. It goes on with the test behind its last one where that is of the same thing and no other leads to it."""
        row = self.rows[number]
        if isinstance(row, Equal):
            return Node(self.names.test(row), HEAD, [("yes", row.yes), ("no", row.no)])
        ways, subject, last = [], self.subject(row), row
        while True:
            ways.append((self.key(last), last.yes))
            after = self.rows[last.no]
            if self.subject(after) != subject or self.parents[last.no] > 1:
                break
            last = after
        ways.append(("else", last.no))
        return Node(self.title(row), self.colours[row.array] if isinstance(row, State) else HEAD, ways)

    def leaf(self, number):
        row = self.rows[number]
        rows = [cell(self.names.update(update), self.colours[update.array])
                for stage in row.stages for update in stage.updates]
        outs = [("+ " if at else "") + self.names.out(out) for at, out in enumerate(row.outs)]
        rows += [cell(out, TAIL) for out in outs] or [cell("drop", DROP)]
        return f"  n{number} [label={cells(rows)}];"

    def test(self, number, node):
        rows = [cell(node.title, node.colour, bold=True, port="t")]
        lines = []
        for at, (text, target) in enumerate(together(node.ways)):
            if self.drops(target):
                rows.append(cell(f"{text}: drop", DROP))
                continue
            rows.append(cell(text, port=f"w{at}"))
            lines.append(f"  n{number}:w{at}:e -> {self.target(target)};")
        return [f"  n{number} [label={cells(rows)}];"] + lines

    def drops(self, number):
        """Whether nothing is done there. That is said where a way leads to it, since many lines to one node hide the others."""
        row = self.rows[number]
        return isinstance(row, Leaf) and not row.stages and not row.outs

    def target(self, number):
        return f"n{number}:w" if isinstance(self.rows[number], Leaf) else f"n{number}:t:w"

    def lines(self):
        """The nodes from the first on, each once, those that are nearer to it first."""
        lines, queue, seen = [], [0], {0}
        for number in queue:
            if isinstance(self.rows[number], Leaf):
                lines.append(self.leaf(number))
                continue
            node = self.node(number)
            lines += self.test(number, node)
            for _, target in node.ways:
                if target not in seen and not self.drops(target):
                    seen.add(target)
                    queue.append(target)
        return lines


def together(ways):
    """Ways to one node as one, with their numbers a few to a line; the last way stands last."""
    targets = {}
    for text, target in ways[:-1]:
        targets.setdefault(target, []).append(text)
    rest, last = ways[-1]
    groups = [(",\n".join(", ".join(texts[at:at + 4]) for at in range(0, len(texts), 4)), target) for target, texts in targets.items()]
    return groups + [(rest, last)]


def draw_diagram(tables):
    return graph("diagram", ["layout=dot", "rankdir=LR", "ranksep=0.6", "nodesep=0.15"], Diagram(tables).lines())
