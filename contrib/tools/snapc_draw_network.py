"""Networks as drawings: switches with their ports and groups, and the links between them.

Where each link leads one link farther from the nearest port or nearer to it, as in a fat tree, switches stand in layers by this
distance, those with ports below, and their places are told: Graphviz makes a tangle of large ones. All other networks, and rows of
switches, go from left to right, away from a switch at an end, and Graphviz places them.
"""
from dataclasses import dataclass, field
from typing import Dict, List, Tuple

from snapc_draw_dot import LIGHT, PALE, PLAIN, cell, cells, edge, graph, of, quoted
from snapc_draw_widths import text_width

MOST_SWITCHES = 256  # that tables have


@dataclass
class Group:
    colour: int
    text: str


@dataclass
class Network:
    switches: List[str]
    links: List[Tuple[int, int]]
    ports: Dict[int, int]  # the switch of each
    groups: Dict[int, List[Group]] = field(default_factory=dict)  # at a switch, by rank


def colours_of(tables):
    """The colour of each array: that of its rank, in version 1 that of its switch."""
    owners = {switch: place for place, switch in enumerate(dict.fromkeys(array.switch for array in tables.arrays))}
    return [owners[array.switch] if array.rank is None else array.rank for array in tables.arrays]


def group_text(rank, names):
    return ("" if rank is None else f"rank {rank}: ") + ",\n".join(names)


def links_of(pairs):
    """Links between different switches, each once."""
    return list(dict.fromkeys(tuple(sorted(pair)) for pair in pairs if pair[0] != pair[1]))


def network_of(tables):
    network = Network(tables.switches, links_of(tables.links), tables.ports)
    named = {}
    for array, colour in zip(tables.arrays, colours_of(tables)):
        named.setdefault((array.switch, colour, array.rank), []).append(array.name)
    for (switch, colour, rank), names in sorted(named.items(), key=lambda one: one[0][:2]):
        network.groups.setdefault(switch, []).append(Group(colour, group_text(rank, names)))
    return network


class Layout:
    """The distance at which each switch stands, from the ports where they make layers, else from a switch at an end."""

    def __init__(self, network):
        self.near = [[] for _ in network.switches]
        for a, b in network.links:
            self.near[a].append(b)
            self.near[b].append(a)
        self.distance = self.distances(sorted(set(network.ports.values())))
        self.layers = not self.is_row() and any(self.distance) and all(self.distance[a] != self.distance[b] for a, b in network.links)
        self.places = self.in_layers(network) if self.layers else {}
        if not self.layers:
            self.distance = self.distances([self.end()])

    def is_row(self):
        return all(len(others) <= 2 for others in self.near) and sum(map(len, self.near)) == 2 * (len(self.near) - 1)

    def end(self):
        """The first switch that is farthest away from another."""
        return max(range(min(len(self.near), MOST_SWITCHES)), key=lambda switch: (max(self.distances([switch])), -switch))

    def distances(self, begins):
        """How many links each switch is away from the nearest of these; 0 too where there is no way."""
        found, queue = dict.fromkeys(begins, 0), list(begins)
        for switch in queue:
            for other in self.near[switch]:
                if other not in found:
                    found[other] = found[switch] + 1
                    queue.append(other)
        return [found.get(switch, 0) for switch in range(len(self.near))]

    def in_layers(self, network):
        """Where each switch stands, in inches: the lowest layer in the order of the tables, each other above those that it is near to."""
        layers = [[] for _ in range(max(self.distance) + 1)]
        for switch, distance in enumerate(self.distance):
            layers[distance].append(switch)
        whole = max(len(layer) * max(width(lines_of(network, switch)) for switch in layer) for layer in layers)
        places = {}
        for distance, layer in enumerate(layers):
            below = {switch: [places[one][0] for one in self.near[switch] if one in places] or [0] for switch in layer}
            layer.sort(key=lambda switch: sum(below[switch]) / len(below[switch]))
            for at, switch in enumerate(layer):
                places[switch] = (at + 0.5) * whole / len(layer), distance * max(1.8, whole / 8)
        return places

    def settings(self):
        if self.layers:
            return ["layout=neato", "splines=true", "outputorder=edgesfirst"]
        return ["layout=dot", "rankdir=LR", "ranksep=0.6", "nodesep=0.35"]

    def place(self, switch, right=0.0, up=0.0):
        """The setting of a node's place, beside that of a switch."""
        return self.between(switch, switch, 0, right, up)

    def between(self, source, target, part, right=0.0, up=0.0):
        """The setting of a node's place, so far on the way from a switch to another."""
        if not self.layers:
            return ""
        x, y = (a + (b - a) * part for a, b in zip(self.places[source], self.places[target]))
        return f', pos="{x + right:.2f},{y + up:.2f}!"'


def width(lines):
    """About how many inches a table of these lines takes, with what is free beside it."""
    return max(1.5, 0.5 + max(text_width(text, bold=at == 0) for at, text in enumerate(lines)) / 72)


def ranges(numbers):
    """Numbers in rising order, as `1 to 4, 9`."""
    parts = []
    for number in sorted(numbers):
        if parts and parts[-1][1] == number - 1:
            parts[-1][1] = number
        else:
            parts.append([number, number])
    return ", ".join(f"{low}" if low == high else f"{low}, {high}" if high == low + 1 else f"{low} to {high}" for low, high in parts)


def port_text(ports):
    return ("port " if len(ports) == 1 else "ports ") + ranges(ports)


def lines_of(network, switch):
    """The lines of a switch: its name, its ports, its groups."""
    ports = [port for port, place in network.ports.items() if place == switch]
    texts = [network.switches[switch]] + ([port_text(ports)] if ports else [])
    return texts + [group.text for group in network.groups.get(switch, [])]


def switch_line(network, layout, switch):
    groups, texts = network.groups.get(switch, []), lines_of(network, switch)
    rows = [cell(text, bold=at == 0) for at, text in enumerate(texts[:len(texts) - len(groups)])]
    rows += [cell(group.text, of(LIGHT, group.colour)) for group in groups]
    return f"  s{switch} [label={cells(rows)}{layout.place(switch)}];"


def link_edge(layout, source, target, **settings):
    """An edge over a link from one switch to another. Its text has the nearer end first, so that it doesn't turn the drawing."""
    turned = (layout.distance[source], source) > (layout.distance[target], target)
    if turned:
        source, target = target, source
        settings["dir"] = {"forward": "back"}.get(settings["dir"], settings["dir"])
    return edge(f"s{source}", f"s{target}", **settings)


@dataclass
class Arrow:
    """An arrow from a switch to another, in place of the link between them or dashed beside all links."""
    source: int
    target: int
    text: str
    colour: str
    is_dashed: bool = False


@dataclass
class Passage:
    """Where a packet comes in or goes out."""
    port: int
    is_exit: bool
    text: str
    colour: str


def arrow_lines(layout, arrows):
    """In layers texts stand on their arrows: Graphviz would put those of one link upon each other."""
    lines, texts = [], {}
    for number, arrow in enumerate(arrows):
        texts.setdefault(tuple(sorted((arrow.source, arrow.target))), []).append((f"text{number}", arrow))
        settings = {"color": arrow.colour, "penwidth": 1.5, "dir": "forward"}
        settings.update({"style": "dashed", "constraint": "false"} if arrow.is_dashed else {})
        settings.update({} if layout.layers else {"label": arrow.text, "fontcolor": arrow.colour})
        lines.append(link_edge(layout, arrow.source, arrow.target, **settings))
    for ends, named in texts.items() if layout.layers else ():
        for at, (node, arrow) in enumerate(named, 1):
            place = layout.between(*ends, at / (len(named) + 1))
            box = f"shape=box, color=white, margin=0.02, height=0, width={text_width(arrow.text, 11) / 72 + 0.05:.2f}"
            lines.append(f'  {node} [label={quoted(arrow.text)}, fontsize=11, fontcolor="{arrow.colour}", {box}, style=filled, '
                         f'fillcolor=white{place}];')
    return lines


def passage_lines(network, layout, passages):
    """The nodes of ports where packets come in and go out, and an arrow at each."""
    lines, beside = [], {}
    for passage in passages:
        beside.setdefault(network.ports[passage.port], []).append(passage)
    for passage in passages:
        switch = network.ports[passage.port]
        others = beside[switch]
        node = f"{'out' if passage.is_exit else 'in'}{passage.port}"
        place = layout.place(switch, right=0.5 * (2 * others.index(passage) - len(others) + 1), up=-1)
        across = max(0.3, text_width(str(passage.port)) / 72 + 0.15)
        lines.append(f'  {node} [shape=circle, margin=0.04, width={across:.2f}, label="{passage.port}"{place}];')
        ends, way = [node, f"s{switch}"], "back" if passage.is_exit else "forward"
        if layout.distance[switch] == max(layout.distance) > 0 or passage.is_exit and layout.distance[switch] > 0:
            ends, way = ends[::-1], "forward" if passage.is_exit else "back"
        lines.append(edge(*ends, dir=way, label=passage.text, color=passage.colour, fontcolor=passage.colour, penwidth=1.5))
    return lines


def drawing(network, arrows=(), passages=(), caption=""):
    """The text of a network with arrows."""
    layout, taken = Layout(network), {frozenset((arrow.source, arrow.target)) for arrow in arrows if not arrow.is_dashed}
    lines = [switch_line(network, layout, switch) for switch in range(len(network.switches))]
    lines += [link_edge(layout, a, b, dir="none", color=PALE) for a, b in network.links if frozenset((a, b)) not in taken]
    lines += arrow_lines(layout, arrows) + passage_lines(network, layout, passages)
    settings = layout.settings()
    if caption:
        settings += [f"label={quoted(caption)}", f'fontcolor="{PLAIN}"', "labelloc=b"]
    return graph("network", settings, lines)
