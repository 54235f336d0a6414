"""What numbers of tables are called: fields and arrays by their names, addresses as addresses, rows as a program writes them.

The two numbers of a split field are an address. A plain field may hold one too, and where nobody says which do, those are taken
whose name ends like one of an address, for numbers from 1.0.0.0 to 255.255.255.255.
"""
import re

from snapc_files import Block, Hop, Place, address, dotted, frame_of
from snapc_tables import MOST, Equal, Fault, Go, Leaf, State, Stop, Value

LIKE_AN_ADDRESS = re.compile(r"(^|[._-])(src|dst|rdata)$|(ip|addr|address)$", re.I)


class Names:
    """Names for some tables; `addresses` and `numbers` are sets of names of plain fields that hold the ones or the others."""

    def __init__(self, tables, addresses=(), numbers=()):
        self.tables = tables
        self.split = {one.first: one for one in tables.fields if one.length}
        self.least = {}  # of plain components that may be addresses: the least number that is shown as one
        for one in tables.fields:
            if one.name in addresses:
                self.least[one.first] = 0
            elif not one.length and one.name not in numbers and LIKE_AN_ADDRESS.search(one.name):
                self.least[one.first] = 2 ** 24
        self.shapes = self.shapes_of_indices()
        # for each number the row of the switches that decide there
        self.nodes = {number: row for (_, number), row in tables.rows.items() if not isinstance(row, (Go, Stop))}

    def shapes_of_indices(self):
        """For each array what stands at each position of its index, where all rows that index it agree; constants don't tell."""
        seen = {}
        for row in self.tables.rows.values():
            updates = [update for stage in row.stages for update in stage.updates] if isinstance(row, Leaf) else []
            for use in updates + ([row] if isinstance(row, State) else []):
                shape = seen.setdefault(self.tables.arrays[use.array].name, {})
                for position, one, atom in self.parts(use.index):
                    if one:
                        shape.setdefault(position, set()).add(("address", one.length))
                        shape.setdefault(position + 1, set()).add(("rest", None))
                    elif atom.component is not None:
                        shape.setdefault(position, set()).add(self.kind(atom.component))
        return {name: {at: kinds.pop() for at, kinds in shape.items() if len(kinds) == 1} for name, shape in seen.items()}

    def parts(self, atoms):
        """An index part by part: its position, and the split field whose two components stand there or None, and its first atom."""
        at = 0
        while at < len(atoms):
            one = self.split.get(atoms[at].component)
            pair = one if one and at + 1 < len(atoms) and atoms[at + 1].component == one.first + 1 else None
            yield at, pair, atoms[at]
            at += 2 if pair else 1

    def kind(self, component):
        """What numbers of a component are: plain ones, and from which on they are shown as addresses, or None for never."""
        return "plain", self.least.get(component)

    def plain(self, number, kind):
        return dotted(number) if kind[0] == "plain" and kind[1] is not None and kind[1] <= number < 2 ** 32 else str(number)

    def packet(self, values):
        """`NAME=VALUE` for each field."""
        words = []
        for one in self.tables.fields:
            value = values[one.first]
            shown = address(value, values[one.first + 1], one.length) if one.length else self.plain(value, self.kind(one.first))
            words.append(f"{one.name}={shown}")
        return " ".join(words)

    def place(self, array, index):
        """`ARRAY[I][J]` for the numbers of an index."""
        shape, text, at = self.shapes.get(array, {}), array, 0
        while at < len(index):
            kind, length = shape.get(at, ("plain", None))
            if kind == "address" and at + 1 < len(index):
                text += f"[{address(index[at], index[at + 1], length)}]"
                at += 1
            else:
                text += f"[{self.plain(index[at], (kind, length))}]"
            at += 1
        return text

    def atom(self, atom):
        if atom.component is None:
            return str(atom.number)
        return self.tables.components[atom.component] + (f" + {atom.number}" if atom.number else "")

    def index(self, array, atoms):
        """`ARRAY[f][g]` for the atoms of an index, the two of a split field as one."""
        if all(atom.component is None for atom in atoms):
            return self.place(array, [atom.number for atom in atoms])
        return array + "".join(f"[{one.name if one else self.atom(atom)}]" for _, one, atom in self.parts(atoms))

    def test(self, row):
        """The test of a row, as `src = 10.0.1.0/24`."""
        if isinstance(row, State):
            return f"{self.index(self.tables.arrays[row.array].name, row.index)} = {self.atom(row.term)}"
        if isinstance(row, Equal):
            return f"{self.tables.components[row.left]} = {self.tables.components[row.right]}" + (f" + {row.plus}" if row.plus else "")
        one = self.split.get(row.component)
        if one and row.number < 2 ** one.length:
            return f"{one.name} = {address(row.number, 0, one.length)}/{one.length}"
        return f"{self.tables.components[row.component]} = {self.plain(row.number, self.kind(row.component))}"

    def update(self, update):
        place, number = self.index(self.tables.arrays[update.array].name, update.index), update.atom.number
        if update.kind == "put":
            return f"{place} <- {self.atom(update.atom)}"
        if number in (1, MOST):
            return place + ("++" if number == 1 else "--")
        return f"{place} += {number}" if number < 2 ** 63 else f"{place} -= {2 ** 64 - number}"

    def out(self, parts):
        """An out as assignments; `id` where it changes nothing."""
        left, texts = dict(parts), []
        for component, atom in parts:
            one = self.split.get(component)
            host = left.get(component + 1) if one else None
            if component not in left:
                continue
            if host and atom.component is None and host.component is None:
                texts.append(f"{one.name} <- {address(atom.number, host.number, one.length)}")
            elif host and atom.component in self.split and host.component == atom.component + 1:
                texts.append(f"{one.name} <- {self.split[atom.component].name}")
            else:
                shown = self.atom(atom) if atom.component is not None else self.plain(atom.number, self.kind(component))
                texts.append(f"{self.tables.components[component]} <- {shown}")
                continue
            del left[component + 1]
        return "; ".join(texts) or "id"

    def leaf(self, leaf, since=0):
        """What a leaf does from a rank or stage on, as a program writes it, in version 1 with the switch of each stage."""
        texts, arrays = [], self.tables.arrays
        for stage in leaf.stages if self.tables.version == 2 else leaf.stages[since:]:
            where = "" if stage.switch is None else f"at {self.tables.switches[stage.switch]}: "
            updates = [update for update in stage.updates if stage.switch is not None or arrays[update.array].rank >= since]
            texts += [where * (at == 0) + self.update(update) for at, update in enumerate(updates)]
        outs = [self.out(parts) for parts in leaf.outs]
        if len(outs) > 1:
            outs = ["(" + " + ".join(outs) + ")"]
        return "; ".join(texts + (outs or ["drop"]))

    def row(self, row, since=0):
        """What a row tests, with the rank of its array where it is greater than `since`, or does from this rank or stage on."""
        if isinstance(row, Leaf):
            return f"does {self.leaf(row, since)}"
        if isinstance(row, (Value, Equal, State)):
            rank = self.tables.arrays[row.array].rank if isinstance(row, State) else None
            return f"tests {self.test(row)}" + (f" at rank {rank}" if rank and rank > since else "")
        return f"leaves it to {self.tables.switches[row.switch]}" if isinstance(row, Go) else "leaves it to others"

    def hop(self, hop):
        """A hop with its frame taken apart; None where that isn't one of these tables."""
        frame = frame_of(hop.frame, self.tables)
        if frame is None:
            return None
        to = {"walk": f"number {frame.number}", "stage": f"stage {frame.stage} of number {frame.number}", "out": f"port {frame.port}",
              "visit": f"rank {frame.rank}, number {frame.number}"}[frame.kind]
        node = self.nodes.get(frame.number)
        does = f" ({self.row(node, frame.rank or frame.stage or 0)})" if node else ""
        turn = "" if frame.packet is None else f"packet {frame.packet + 1} "
        return f"hop {hop.source} {hop.target} {turn}to {to}{does}: {self.packet(frame.values)}"

    def result(self, out):
        """An out of a report; None where its fields aren't those of the tables."""
        if list(out) != [one.name for one in self.tables.fields]:
            return None
        words = ["out"]
        for one in self.tables.fields:
            value = out[one.name]
            if not one.length and re.fullmatch("[0-9]{1,20}", value):
                value = self.plain(int(value), self.kind(one.first))
            words.append(f"{one.name}={value}")
        return " ".join(words)

    def line(self, read):
        """A line of a report, as `snapc_files` has read it; None where it doesn't fit the tables."""
        if isinstance(read, Block):
            return f"packet {read.number}"
        if isinstance(read, Hop):
            return self.hop(read)
        if isinstance(read, dict):
            return self.result(read)
        if isinstance(read, Place):
            known = any(array.name == read.array for array in self.tables.arrays)
            return f"array {self.place(read.array, read.index)} = {read.value}" if known else None
        return f"lost {read}"

    def report(self, report):
        """The lines of a report."""
        lines = []
        for number, read in report.lines:
            lines.append(self.line(read))
            if lines[-1] is None:
                raise Fault(report.file, number, f"doesn't fit {self.tables.file}")
        return lines + ["end"]
