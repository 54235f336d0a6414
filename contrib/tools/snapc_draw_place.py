"""Placements: where the groups of a program stand in a topology, and the order in which packets visit them."""
from snapc_draw_dot import DARK, of
from snapc_draw_network import Arrow, Group, Network, drawing, group_text, links_of
from snapc_files import read_placement, read_topology
from snapc_tool import Fault, snapc


def groups_of(program):
    """The arrays of each rank, as `snapc deps` tells them."""
    try:
        text = snapc(["deps", "--", program])
    except Fault as fault:
        raise Fault(program, 0, str(fault)) from None
    return [line.split(" ")[1:] for line in text.split("\n") if line.startswith("group ")]


def places_of(groups, placement, name, numbers):
    """The switch of each group."""
    known = {array for group in groups for array in group}
    for array, switch in placement.items():
        if array not in known:
            raise Fault(name, 0, f"the program has no array {array}")
        if switch not in numbers:
            raise Fault(name, 0, f"{array} is placed at {switch}, which is no switch of the topology")
    places = []
    for group in groups:
        for array in group:
            if array not in placement:
                raise Fault(name, 0, f"{array} has no place")
            if placement[array] != placement[group[0]]:
                raise Fault(name, 0, f"{group[0]} and {array} are tied and placed apart")
        places.append(numbers[placement[group[0]]])
    return places


def draw_place(program, topology_name, placement_name):
    topology, placement = read_topology(topology_name), read_placement(placement_name)
    if not topology.switches:
        raise Fault(topology_name, 0, "has no switches")
    numbers = {name: switch for switch, name in reversed(list(enumerate(topology.switches)))}
    links = links_of((numbers[a], numbers[b]) for a, b in topology.links)
    network = Network(topology.switches, links, {port: numbers[name] for port, name in topology.ports.items()})
    groups = groups_of(program)
    places = places_of(groups, placement, placement_name, numbers)
    for rank, (group, switch) in enumerate(zip(groups, places)):
        network.groups.setdefault(switch, []).append(Group(rank, group_text(rank, group)))
    arrows = [Arrow(source, target, f"then rank {rank}", of(DARK, rank), is_dashed=True)
              for rank, (source, target) in enumerate(zip(places, places[1:]), 1) if source != target]
    return drawing(network, arrows)
