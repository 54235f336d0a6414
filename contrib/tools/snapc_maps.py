"""Maps of snapc-packets: for each field of a program the ways to its value in a frame of a capture."""
import re
from dataclasses import dataclass, field

from snapc_tool import Fault, read_text

MOST = 2 ** 64 - 1
MOST_PORT = 2 ** 32 - 1
READINGS = ("address", "number", "flag", "name", "text")
ADDRESS = re.compile(r"[0-9]{1,3}(\.[0-9]{1,3}){3}")
# How a program spells a name, and how tshark spells that of a display field.
NAME = re.compile(r"[A-Za-z_]([A-Za-z0-9_]|[.-](?=[A-Za-z0-9_]))*")
DISPLAY = re.compile(r"[A-Za-z0-9_.-]+")
WAY = re.compile(r"(?P<name>[^ \t]+)[ \t]+=[ \t]+("
                 r"(?P<value>[^ \t]+)([ \t]+where[ \t]+(?P<where>.+))?|"
                 r"((?P<each>each)[ \t]+)?(?P<reading>[^ \t]+)[ \t]+(?P<display>[^ \t]+))")


@dataclass
class Way:
    """A line of a map: a value, or a display field and how it is read."""
    line: int
    value: str = ""     # the value that the line gives
    where: str = ""     # the display filter of the frames in which it does; empty where it does in all
    reading: str = ""   # how a display field is read; empty where the line gives a value
    display: str = ""
    each: bool = False  # whether there is a packet for each value


@dataclass
class Map:
    name: str
    only: str = ""                              # the display filter of the frames that are read; empty where all are
    only_line: int = 0
    fields: dict = field(default_factory=dict)  # for each field its ways, in order

    def displays(self):
        """The display fields, each with its first line."""
        found = {}
        for ways in self.fields.values():
            for way in ways:
                if way.display:
                    found.setdefault(way.display, way.line)
        return found


def is_address(text):
    return bool(ADDRESS.fullmatch(text)) and all(int(part) <= 255 for part in text.split("."))


def is_value(text):
    """Whether a packet line takes this as a field's value."""
    return is_address(text) or bool(re.fullmatch(r"[0-9]{1,40}", text)) and int(text) <= MOST


def is_port(text):
    return bool(re.fullmatch(r"[0-9]{1,40}", text)) and 1 <= int(text) <= MOST_PORT


def read_way(fault, line, parts):
    """A way, of the parts of its line."""
    if parts["value"]:
        if not (is_port if parts["name"] == "inport" else is_value)(parts["value"]):
            raise fault(f"{parts['value']} is no {'port' if parts['name'] == 'inport' else 'value'}")
        return Way(line, parts["value"], parts["where"] or "")
    if parts["reading"] not in READINGS:
        raise fault(f"{parts['reading']} is none of {', '.join(READINGS)}")
    if not DISPLAY.fullmatch(parts["display"]):
        raise fault(f"{parts['display']} is no display field")
    return Way(line, reading=parts["reading"], display=parts["display"], each=bool(parts["each"]))


def add_line(made, line, text):
    """Reads a line that isn't skipped into a map."""
    def fault(words):
        return Fault(made.name, line, words)

    only = re.fullmatch(r"only[ \t]+([^= \t\0][^\0]*)", text)
    if only:
        if made.only:
            raise fault("a second only")
        made.only, made.only_line = only[1], line
        return
    parts = WAY.fullmatch(text)
    if not parts or "\0" in text:
        raise fault("no line of a map")
    if not NAME.fullmatch(parts["name"]):
        raise fault(f"{parts['name']} is no name of a field")
    ways = made.fields.setdefault(parts["name"], [])
    if ways and ways[-1].value and not ways[-1].where:
        raise fault(f"never comes into question: line {ways[-1].line} gives {parts['name']} a value in all frames")
    ways.append(read_way(fault, line, parts))


def read_map(name):
    """The map of a file."""
    made = Map(name)
    for line, text in enumerate(read_text(name).split("\n"), 1):
        text = text.rstrip("\r").strip(" \t")
        if text and not text.startswith("#"):
            add_line(made, line, text)
    return made
