"""Captures, as tshark reads them."""
import os
import re
import subprocess
from dataclasses import dataclass
from decimal import Decimal, InvalidOperation

from snapc_tool import BYTES, Fault

# Between the values of one display field; tshark writes no such byte within a value.
BETWEEN = "\x1f"


@dataclass
class Capture:
    name: str
    port: str  # the port at which its frames come in; empty where the map says it


@dataclass
class Frame:
    capture: Capture
    number: int
    time: Decimal
    values: dict   # the values of each display field that the frame has
    filters: set   # the display filters that let the frame through, of those in question


def said_by(process):
    """The first line of what tshark says, without what it says of the user."""
    rows = [row for row in process.stderr.decode(BYTES).split("\n") if row and not row.startswith("Running as user")]
    return re.sub(r"^tshark: ", "", rows[0]) if rows else f"ended with {process.returncode}"


def tshark(capture, only, displays):
    """The process of a call of tshark for some display fields of the frames that a display filter lets through."""
    words = ["tshark", "-n", "-r", capture.name]
    if only:
        words += ["-Y", only.encode(BYTES)]
    words += ["-T", "fields", "-E", "separator=/t", "-E", "occurrence=a", "-E", f"aggregator={BETWEEN}"]
    for display in displays:
        words += ["-e", display]
    try:
        return subprocess.run(words, stdin=subprocess.DEVNULL, stdout=subprocess.PIPE, stderr=subprocess.PIPE)
    except OSError:
        raise Fault("tshark", 0, "cannot be run; it comes with Wireshark") from None


def rows_of(made, capture, only, line, displays):
    """The rows that tshark writes, as lists of columns. The display filter stands in this line of the map."""
    process = tshark(capture, only, displays)
    if process.returncode != 0:
        raise what_is_wrong(made, capture, only, line, process)
    rows = [row.split("\t") for row in process.stdout.decode(BYTES).split("\n") if row]
    for row in rows:
        if len(row) != len(displays):
            raise Fault(capture.name, 0, f"tshark writes {len(row)} columns where {len(displays)} were asked for")
    return rows


def what_is_wrong(made, capture, only, line, process):
    """The fault that tshark tells: a display field or a display filter of the map, or the capture."""
    said = process.stderr.decode(BYTES)
    if "aren't valid" in said:
        for display, place in made.displays().items():
            if re.search(r"^\s+" + re.escape(display) + "$", said, re.MULTILINE):
                return Fault(made.name, place, f"tshark knows no display field {display}")
    if only and "The file " not in said:
        return Fault(made.name, line, f"tshark: {said_by(process)}")
    return Fault(capture.name, 0, f"tshark: {said_by(process)}")


def frame_of(capture, displays, row):
    """A frame, of its row."""
    values = {display: [value for value in cell.split(BETWEEN) if value] for display, cell in zip(displays, row) if cell}
    try:
        number = int(row[0])
    except ValueError:
        raise Fault(capture.name, 0, f"tshark writes {row[0]!r} for the number of a frame") from None
    try:
        return Frame(capture, number, Decimal(row[1] or 0), values, set())
    except InvalidOperation:
        raise Fault(capture.name, 0, f"frame {number}: {row[1]} is no time") from None


def filters_of(made, capture):
    """The display filters that say where values are given, each with its line."""
    found = {}
    for name, ways in made.fields.items():
        if name != "inport" or not capture.port:
            for way in ways:
                if way.where:
                    found.setdefault(way.where, way.line)
    return found


def read_capture(made, capture):
    """The frames of a capture, with all that a map asks of them."""
    if not os.path.isfile(capture.name):
        raise Fault(capture.name, 0, "cannot be read")
    # Each once: of one that is asked for twice tshark leaves the first column empty.
    displays = list(dict.fromkeys(["frame.number", "frame.time_epoch", *made.displays()]))
    frames = [frame_of(capture, displays, row) for row in rows_of(made, capture, made.only, made.only_line, displays)]
    for where, line in filters_of(made, capture).items():
        let_through = {row[0] for row in rows_of(made, capture, where, line, ["frame.number"])}
        for frame in frames:
            if str(frame.number) in let_through:
                frame.filters.add(where)
    return frames
