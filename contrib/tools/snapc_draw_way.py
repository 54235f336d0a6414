"""The ways of packets through a network, from a report of `trace --hops`: arrows over links, in at a port and out at others."""
from dataclasses import dataclass, field
from typing import List, Optional

from snapc_draw_dot import DARK, INK, PLAIN, of
from snapc_draw_network import Arrow, Passage, drawing, network_of
from snapc_files import Block, Hop, frame_of, number_of, read_report
from snapc_tool import Fault


@dataclass
class Aim:
    """The hops of a packet over one link, in one direction and for one thing."""
    source: int
    target: int
    text: str
    colour: str
    hops: List[int] = field(default_factory=list)


@dataclass
class Way:
    packet: int
    aims: List[Aim]
    entry: Optional[int]  # the port, where the report shows it
    exits: List[int]
    caption: str


def aim_of(frame):
    """What a copy crosses a link for, and the colour of it."""
    if frame.kind == "visit":
        return f"to rank {frame.rank}", of(DARK, frame.rank)
    if frame.kind == "out":
        return f"to port {frame.port}", PLAIN
    if frame.kind == "stage":
        return f"to stage {frame.stage} of number {frame.number}", PLAIN
    return f"to number {frame.number}", PLAIN


def hops_of(report, packet):
    """The hops of a packet, each with its line in the report."""
    block = None
    for line, told in report.lines:
        if isinstance(told, Block):
            block = told
        elif isinstance(told, Hop) and block.number == packet:
            yield line, told


def aims_of(tables, report, packet):
    """What a packet's hops are for, and the packet as the frame of its first hop has it."""
    numbers = {name: switch for switch, name in enumerate(tables.switches)}
    links = {frozenset(link) for link in tables.links}
    aims, first = {}, None
    for count, (line, hop) in enumerate(hops_of(report, packet), 1):
        frame, ends = frame_of(hop.frame, tables), (numbers.get(hop.source), numbers.get(hop.target))
        if frame is None:
            raise Fault(report.file, line, "the frame doesn't fit the tables")
        if frozenset(ends) not in links:
            raise Fault(report.file, line, f"the tables have no link between {hop.source} and {hop.target}")
        first = first or frame.values
        text, colour = aim_of(frame)
        aims.setdefault((ends, text), Aim(ends[0], ends[1], text, colour)).hops.append(count)
    return list(aims.values()), first


def port_of(out, name):
    """The number in a port field of an `out` line."""
    return number_of(out[name]) if out.get(name, "").isdigit() else None


def caption_of(block, exits):
    said = [f"out at port {', '.join(map(str, exits))}"] if exits else []
    said += [f"{block.lost} lost"] if block.lost else []
    return f"packet {block.number}: {', '.join(said) or 'dropped'}"


def way_of(tables, report, packet):
    if not 0 < packet <= len(report.blocks):
        raise Fault(report.file, 0, f"has no packet {packet}")
    block = report.blocks[packet - 1]
    if block.lost is None:
        raise Fault(report.file, block.line, "is no report of a network")
    aims, first = aims_of(tables, report, packet)
    found = {port_of(out, "outport") for out in block.outs}
    if not found <= set(tables.ports):
        raise Fault(report.file, block.line, f"packet {packet} goes out where the tables have no port")
    exits = sorted(found)
    # A program may change `inport`: it is shown where it leads to the switch where the packet began.
    inport = first[0] if first else port_of(block.outs[0], "inport") if block.outs else None
    begin = aims[0].source if aims else tables.ports[exits[0]] if exits else None
    entry = inport if begin is not None and tables.ports.get(inport) == begin else None
    return Way(packet, aims, entry, exits, caption_of(block, exits))


def arrows_of(way, ink):
    """The arrows of a way. Among several packets each has a colour of its own, and its number stands with its hops."""
    arrows = []
    for aim in way.aims:
        hops = ", ".join(map(str, aim.hops))
        name = f"packet {way.packet}, hop{'s' * (len(aim.hops) > 1)} "
        text = f"{name}{hops}\n{aim.text}" if ink else f"{hops}: {aim.text}"
        arrows.append(Arrow(aim.source, aim.target, text, ink or aim.colour))
    return arrows


def passages_of(way, ink):
    name = f"packet {way.packet} " if ink else ""
    entries = [Passage(way.entry, False, name + "in", ink or PLAIN)] if way.entry else []
    return entries + [Passage(port, True, name + "out", ink or PLAIN) for port in way.exits]


def draw_net(tables, report_name=None, packets=()):
    """The network of tables, with the ways of these packets of a report."""
    report = read_report(report_name) if packets else None
    ways, arrows, passages = [way_of(tables, report, packet) for packet in packets], [], []
    for place, way in enumerate(ways):
        ink = of(INK, place) if len(ways) > 1 else None
        arrows += arrows_of(way, ink)
        passages += passages_of(way, ink)
    return drawing(network_of(tables), arrows, passages, "\n".join(way.caption for way in ways))
