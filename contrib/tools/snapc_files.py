"""The other files that the tools read: packets, reports, frames, topologies and placements, as docs/FORMATS.md says.

`read_tables` and what it answers stand in snapc_tables, and can be taken from here too.
"""
import re
from dataclasses import dataclass, field
from typing import Dict, List, Optional, Tuple

from snapc_tables import MOST, Fault, Field, Tables, read_tables, read_text
from snapc_toml import read_toml

HEADS = {1: ("walk", 9), 2: ("stage", 11), 3: ("out", 5), 4: ("visit", 11)}  # by their first byte: name, and bytes


def address(net, host, length):
    """A split field's two numbers as an address, or NET:HOST where they are none, as reports have them."""
    if net >= 2 ** length or host >= 2 ** (32 - length):
        return f"{net}:{host}"
    return dotted(net * 2 ** (32 - length) + host)


def dotted(number):
    """A number below 2^32 as an address."""
    return ".".join(str(number >> shift & 255) for shift in (24, 16, 8, 0))


def number_of(word):
    """The number of digits or of an address; None where it is neither or too large."""
    if re.fullmatch(r"[0-9]+", word):
        number = int(word.lstrip("0")[:21] or 0)
        return number if number <= MOST else None
    parts = word.split(".")
    if len(parts) != 4 or not all(re.fullmatch(r"[0-9]{1,3}", part) and int(part) < 256 for part in parts):
        return None
    return sum(int(part) << shift for part, shift in zip(parts, (24, 16, 8, 0)))


def lines_of(text):
    """Each line that has words, with its number, without blanks around it; see "Lines"."""
    for number, line in enumerate(text.split("\n"), 1):
        line = line[:-1] if line.endswith("\r") else line
        if line.strip(" \t") and not line.startswith("#"):
            yield number, re.findall(r"[^ \t]+", line)


@dataclass
class Packet:
    line: int
    port: int
    values: List[int]  # of each component
    comments: List[str]  # the lines that begin with # directly before it


def read_packets(name, tables):
    """The packets of a file for the fields of some tables. That their ports are ports of the tables isn't asked."""
    text, packets = read_text(name), []
    fields = {field.name: field for field in tables.fields[1:]}
    plain = {one: at for at, one in enumerate(tables.components) if at > 0}
    rows = text.split("\n")
    for line, words in lines_of(text):
        port = number_of(words[0]) if words[0].isdigit() else None
        if port is None or not 0 < port < 2 ** 32:
            raise Fault(name, line, f"{words[0][:40]} is no port")
        values, told = [port] + [0] * (len(tables.components) - 1), set()
        for word in words[1:]:
            left, equals, right = word.partition("=")
            parts = parts_of(left, right, fields, plain) if equals else None
            if parts is None:
                raise Fault(name, line, f"{word[:40]} is no field and its value")
            for component, value in parts:
                if component in told:
                    raise Fault(name, line, f"{tables.components[component]} is told twice")
                told.add(component)
                values[component] = value
        first = line - 1
        while first > 0 and rows[first - 1].startswith("#"):
            first -= 1
        packets.append(Packet(line, port, values, rows[first:line - 1]))
    return packets


def parts_of(name, text, fields, plain):
    """The components that NAME=VALUE sets, with their numbers; None where it isn't in form."""
    if name in plain:
        number = number_of(text)
        return None if number is None else [(plain[name], number)]
    if name not in fields:
        return None
    at, length = fields[name].first, fields[name].length
    net, colon, host = text.partition(":")
    if colon:
        net, host = (number_of(part) if part.isdigit() else None for part in (net, host))
        return None if net is None or host is None else [(at, net), (at + 1, host)]
    number = number_of(text) if "." in text else None
    return None if number is None else [(at, number >> 32 - length), (at + 1, number & 2 ** (32 - length) - 1)]


@dataclass
class Hop:
    source: str
    target: str
    frame: str  # as in the report; frame_of takes it apart


@dataclass
class Block:
    """What a report says of a packet."""
    number: int
    line: int
    hops: List[Hop] = field(default_factory=list)
    outs: List[Dict[str, str]] = field(default_factory=list)
    lost: Optional[int] = None  # None in a report of one big switch


@dataclass
class Place:
    array: str
    index: List[int]
    value: int


@dataclass
class Report:
    file: str
    blocks: List[Block] = field(default_factory=list)
    places: List[Place] = field(default_factory=list)
    lines: List[Tuple[int, object]] = field(default_factory=list)  # each line's number, and its Block, Hop, out, number lost or Place


def read_report(name):
    """The report of `obs` or `trace` in a file, whole."""
    return report_of(read_text(name), name)


def report_of(text, name):
    """The report that a text is; `name` is what faults say it comes from."""
    report, lines = Report(name), text.split("\n")
    ended = False
    for line, row in enumerate(lines[:-1], 1):
        read = None if ended else report_line(report, line, row.split(" "))
        if read is None:
            raise Fault(name, line, "a line behind the end" if ended else f"no line of a report: {row[:60]}")
        ended = read == "end"
        if not ended:
            report.lines.append((line, read))
    if not ended or lines[-1]:
        raise Fault(name, len(lines), "the report has no end")
    return report


def report_line(report, line, words):
    """What a line says, which is put where it belongs; None where it isn't in form."""
    kind, blocks = words[0], report.blocks
    block = blocks[-1] if blocks and not report.places else None
    if words == ["end"]:
        return "end"
    if kind == "array" and len(words) > 4 and words[-2] == "=":
        numbers = [number_of(word) if word.isdigit() else None for word in words[2:-2] + words[-1:]]
        if None in numbers:
            return None
        report.places.append(Place(words[1], numbers[:-1], numbers[-1]))
        return report.places[-1]
    if kind == "packet" and len(words) == 2 and words[1] == str(len(blocks) + 1) and not report.places:
        blocks.append(Block(len(blocks) + 1, line))
        return blocks[-1]
    if block is None or block.lost is not None:
        return None
    if kind == "hop" and len(words) == 4 and re.fullmatch("([0-9a-f]{2})+", words[3]):
        block.hops.append(Hop(*words[1:]))
        return block.hops[-1]
    if kind == "out" and all(re.fullmatch("[^=]+=[0-9.:]+", word) for word in words[1:]):
        block.outs.append(dict(word.split("=") for word in words[1:]))
        return block.outs[-1]
    if kind == "lost" and len(words) == 2 and re.fullmatch("[0-9]{1,20}", words[1]):
        block.lost = int(words[1])
        return block.lost
    return None


@dataclass
class Frame:
    packet: Optional[int]  # counted from 0, with --ordered
    kind: str  # walk, stage, out or visit
    number: Optional[int]  # at which the copy goes on; of a stage that of its leaf
    stage: Optional[int]
    port: Optional[int]
    rank: Optional[int]
    values: List[int]  # of each component


def frame_of(text, tables):
    """A frame of hexadecimal digits taken apart; None where it has another form. Their length tells whether packets are numbered."""
    data = bytes.fromhex(text)
    length = len(data) - 8 * len(tables.components)
    packet = None
    if length in (13, 17, 19):
        packet, data, length = int.from_bytes(data[:8], "big"), data[8:], length - 8
    kind, bytes_of_head = HEADS.get(data[0] if data else 0, ("", 0))
    if length != bytes_of_head:
        return None
    head = [int.from_bytes(data[low:high], "big") for low, high in {
        "walk": [(1, 9)], "stage": [(1, 9), (9, 11)], "out": [(1, 5)], "visit": [(3, 11), (1, 3)]}[kind]]
    values = [int.from_bytes(data[at:at + 8], "big") for at in range(length, len(data), 8)]
    return Frame(packet, kind, None if kind == "out" else head[0], head[1] if kind == "stage" else None,
                 head[0] if kind == "out" else None, head[1] if kind == "visit" else None, values)


@dataclass
class Topology:
    switches: List[str]
    links: List[Tuple[str, str]]
    ports: Dict[int, str]


def read_topology(name):
    """A topology; its shape is asked, and that switches are declared, and no more."""
    told = read_toml(read_text(name), name)
    switches, links, ports = (told.get(key) for key in ("switches", "links", "ports"))
    if set(told) != {"switches", "links", "ports"} or not isinstance(switches, list) or not isinstance(ports, dict):
        raise Fault(name, 0, "no topology: a list `switches`, a list `links` and a table `ports` make one")
    known = {one for one in switches if isinstance(one, str)}
    if not isinstance(links, list) or not all(isinstance(link, list) and len(link) == 2 for link in links):
        raise Fault(name, 0, "a link isn't a list of two switches")
    for one in switches + [end for link in links for end in link] + list(ports.values()):
        if not isinstance(one, str) or one not in known:
            raise Fault(name, 0, f"{str(one)[:40]} is no switch")
    if not all(re.fullmatch("[1-9][0-9]{0,9}", port) for port in ports):
        raise Fault(name, 0, "a port isn't a number")
    return Topology(switches, [(a, b) for a, b in links], {int(port): ports[port] for port in sorted(ports, key=int)})


def read_placement(name):
    """A placement: the switch of each array, by names."""
    told = read_toml(read_text(name), name)
    for array, switch in told.items():
        if not isinstance(switch, str):
            raise Fault(name, 0, f"the place of {array[:40]} is no name of a switch")
    return told
