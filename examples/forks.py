"""Which tables have a single owner, and in which order packets fork there when a schedule is followed.

Tables have a single owner where no packet meets arrays at two switches: in version 2 where all arrays stand at one switch, in version
1 where each way from number 0 to a leaf meets the arrays of one switch alone. Whatever the schedule, the network does then what one big
switch does with the packets in that order.
"""
import os
import sys

sys.path.insert(0, os.path.join(os.path.dirname(os.path.realpath(__file__)), "..", "contrib", "tools"))
from snapc_steps import Network
from snapc_tables import Equal, Go, Leaf, State, Stop, Value


def is_single_owner(tables):
    if tables.version == 2:
        return len({array.switch for array in tables.arrays}) <= 1
    nodes = {number: row for (_, number), row in tables.rows.items() if not isinstance(row, (Go, Stop))}
    met = {number: set() for number in nodes}  # the switches that have been met where a way comes to a number
    met[0] = {None}
    for number in sorted(nodes):
        node, come = nodes[number], met[number]
        needed = []
        if isinstance(node, State):
            needed = [tables.arrays[node.array].switch]
        elif isinstance(node, Leaf):
            needed = [stage.switch for stage in node.stages]
        for switch in needed:
            if come - {None, switch}:
                return False
            come = {switch} if come else come
        if isinstance(node, (Value, Equal, State)):
            met[node.yes] |= come
            met[node.no] |= come
    return True


def forks(tables, packets, schedule):
    """The numbers of the packets, from 0, in the order in which they fork when the lines of the schedule are followed."""
    network, order, injected = Network(tables), [], 0
    for line in schedule:
        if line == "inject":
            network.inject(packets[injected])
            injected += 1
        else:
            place = int(line.split()[1])
            copy, rest = network.flying[place], len(network.flying) - place
            leaves = copy.head[0] == "out"
            network.step(place)
            same = len(network.flying) - place == rest and network.flying[place] is copy
            if not leaves and not same:
                order.append(copy.number)
    return order
