"""Tables of both versions, as docs/FORMATS.md says under "Tables".

What is in form is read, and numbers are below the counts that they must be below. Whether the tables keep the rules isn't judged:
`snapc trace` does that. Switches, arrays and components are numbers here, as they are in rows.
"""
import re
from dataclasses import dataclass, field
from typing import Dict, List, Optional, Tuple

from snapc_tool import Fault, read_text

MOST = 2 ** 64 - 1
ORDER = ["field", "switch", "array", "link", "port", "hop", "row"]


@dataclass
class Field:
    name: str
    length: Optional[int]  # of the first part of a split field; None for a plain one
    first: int  # its component, or the first of its two


@dataclass
class Array:
    name: str
    switch: int
    rank: Optional[int]  # None in tables of version 1


@dataclass(frozen=True)
class Atom:
    """A number, or a component and a number that is added to it."""
    component: Optional[int]
    number: int

    def value(self, packet):
        return self.number if self.component is None else packet[self.component] + self.number & MOST


@dataclass
class Value:
    component: int
    number: int
    yes: int
    no: int


@dataclass
class Equal:
    left: int
    right: int
    plus: int
    yes: int
    no: int


@dataclass
class State:
    array: int
    index: Tuple[Atom, ...]
    term: Atom
    yes: int
    no: int


@dataclass
class Go:
    switch: int  # which decides, in version 1


class Stop:
    """Another switch decides, in version 2."""


@dataclass
class Update:
    kind: str  # put or add
    array: int
    index: Tuple[Atom, ...]
    atom: Atom


@dataclass
class Stage:
    switch: Optional[int]  # None in version 2, where a leaf with updates has one stage
    updates: List[Update]


@dataclass
class Leaf:
    stages: List[Stage]
    outs: List[List[Tuple[int, Atom]]]


@dataclass
class Tables:
    file: str
    version: int = 0
    fields: List[Field] = field(default_factory=list)
    components: List[str] = field(default_factory=list)  # names, as `src.net`
    switches: List[str] = field(default_factory=list)
    arrays: List[Array] = field(default_factory=list)
    links: List[Tuple[int, int]] = field(default_factory=list)
    ports: Dict[int, int] = field(default_factory=dict)  # a port's switch
    hops: Dict[Tuple[int, int], int] = field(default_factory=dict)  # at a switch, towards another: the next
    rows: Dict[Tuple[int, int], object] = field(default_factory=dict)  # by switch and number, in rising order
    lines: Dict[Tuple[int, int], int] = field(default_factory=dict)  # of the file, of each row


class Words:
    """The words of a line, taken one after another."""

    def __init__(self, tables, line, words):
        self.tables, self.line, self.words, self.at = tables, line, words, 0

    def fault(self, text):
        return Fault(self.tables.file, self.line, text)

    def left(self):
        return self.at < len(self.words)

    def sees(self, *choice):
        return self.left() and self.words[self.at] in choice

    def word(self, what="a word"):
        if not self.left():
            raise self.fault(f"{what} is missing")
        self.at += 1
        return self.words[self.at - 1]

    def number(self, below=MOST + 1, what="a number", word=None):
        word = self.word(what) if word is None else word
        if not re.fullmatch(r"0|[1-9][0-9]{0,19}", word) or int(word) >= below:
            raise self.fault(f"{word[:40]} can't be {what}")
        return int(word)

    def switch(self):
        return self.number(len(self.tables.switches), "a switch")

    def array(self):
        return self.number(len(self.tables.arrays), "an array")

    def component(self, word=None):
        return self.number(len(self.tables.components), "a component", word)

    def atom(self, word=None):
        word = self.word("an atom") if word is None else word
        if word[:1] == "#":
            return Atom(None, self.number(word=word[1:]))
        if word[:1] != "c":
            raise self.fault(f"{word[:40]} is no atom")
        component, plus, number = word[1:].partition("+")
        return Atom(self.component(component), self.number(word=number) if plus else 0)

    def index(self):
        word = self.word("an index")
        if word[:1] != "[" or word[-1:] != "]":
            raise self.fault(f"{word[:40]} is no index")
        return tuple(self.atom(part) for part in word[1:-1].split(","))


def read_leaf(words):
    leaf = Leaf([], [])
    while words.sees("at", "put", "add"):
        if words.sees("at"):
            words.word()
            leaf.stages.append(Stage(words.switch(), []))
        else:
            if not leaf.stages:
                leaf.stages.append(Stage(None, []))
            kind, array, index = words.word(), words.array(), words.index()
            atom = words.atom() if kind == "put" else Atom(None, words.number())
            leaf.stages[-1].updates.append(Update(kind, array, index, atom))
    if any((stage.switch is None) == (words.tables.version == 1) for stage in leaf.stages):
        raise words.fault("a leaf of the other version")
    while words.sees("out"):
        words.word()
        leaf.outs.append([])
        while words.left() and not words.sees("out"):
            left, equals, right = words.word().partition("=")
            if left[:1] != "c" or not equals:
                raise words.fault(f"{left[:40]} begins no part of an out")
            leaf.outs[-1].append((words.component(left[1:]), words.atom(right)))
    return leaf


def read_row(words):
    kind = words.word("a row")
    if kind == "value":
        row = Value(words.component(), words.number(), words.number(), words.number())
    elif kind == "equal":
        row = Equal(words.component(), words.component(), words.number(), words.number(), words.number())
    elif kind == "state":
        row = State(words.array(), words.index(), words.atom(), words.number(), words.number())
    elif kind == "go" and words.tables.version == 1:
        row = Go(words.switch())
    elif kind == "stop" and words.tables.version == 2:
        row = Stop()
    elif kind == "leaf":
        row = read_leaf(words)
    else:
        raise words.fault(f"{kind[:40]} is no row of version {words.tables.version}")
    return row


def read_entry(tables, kind, words):
    if kind == "field":
        name, split, length = words.word("a name").partition("/")
        length = words.number(32, "a length", length) if split else None
        tables.fields.append(Field(name, length, len(tables.components)))
        tables.components += [f"{name}.net", f"{name}.host"] if split else [name]
    elif kind == "switch":
        tables.switches.append(words.word("a name"))
    elif kind == "array":
        name, switch = words.word("a name"), words.switch()
        tables.arrays.append(Array(name, switch, words.number(64, "a rank") if tables.version == 2 else None))
    elif kind == "link":
        tables.links.append((words.switch(), words.switch()))
    elif kind == "port":
        port = words.number(2 ** 32, "a port")
        tables.ports[port] = words.switch()
    elif kind == "hop":
        at, target = words.switch(), words.switch()
        tables.hops[at, target] = words.switch()
    elif kind == "row":
        place = words.switch(), words.number()
        tables.rows[place], tables.lines[place] = read_row(words), words.line
    if words.left():
        raise words.fault(f"{words.word()[:40]} stands behind the end of the line's form")


def read_line(tables, line, text, stage):
    """Reads a line, which may be of an entry from a stage on; the stage of the lines behind it."""
    words = Words(tables, line, text.split(" "))
    kind = words.word()
    if kind not in ORDER[stage:]:
        raise words.fault(f"{kind[:40]} can't stand here")
    read_entry(tables, kind, words)
    return ORDER.index(kind)


def read_tables(name):
    """The tables of a file."""
    tables, stage, lines = Tables(name), 0, read_text(name).split("\n")
    if lines[0] not in ("snap-tables 1", "snap-tables 2"):
        raise Fault(name, 1, "no tables of snapc")
    if lines[-2:] != ["end", ""]:
        raise Fault(name, len(lines), "the tables have no end")
    tables.version = int(lines[0][-1])
    for line, text in enumerate(lines[1:-2], 2):
        stage = read_line(tables, line, text, stage)
    if [one.name for one in tables.fields[:2]] != ["inport", "outport"] or not tables.switches:
        raise Fault(name, 2, "the fields inport and outport or the switches are missing")
    return tables
