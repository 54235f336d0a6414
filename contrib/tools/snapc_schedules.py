"""Random schedules: in which order the packets of a network come in and its copies take steps, drawn from a seed."""
from snapc_tables import MOST

MOST_IN_FLIGHT = 16  # without a limit they would be ever more in order, where most wait


class Dice:
    """Numbers that look random and follow from a seed, by splitmix64, which is the same in every version of Python."""

    def __init__(self, seed):
        self.state = seed

    def below(self, count):
        self.state = self.state + 0x9E3779B97F4A7C15 & MOST
        mixed = self.state
        mixed = (mixed ^ mixed >> 30) * 0xBF58476D1CE4E5B9 & MOST
        mixed = (mixed ^ mixed >> 27) * 0x94D049BB133111EB & MOST
        return (mixed ^ mixed >> 31) % count


def events(network, packets, dice, calm):
    """The lines of a schedule that leaves nothing in flight."""
    lines, coming = [], 0
    while coming < len(packets) or network.flying:
        may_come = coming < len(packets) and len(network.flying) < (1 if calm else MOST_IN_FLIGHT)
        place = dice.below(len(network.flying) + may_come)
        if place == len(network.flying):
            network.inject(packets[coming])
            coming += 1
            lines.append("inject")
        else:
            network.step(place)
            lines.append(f"step {place}")
    return lines
