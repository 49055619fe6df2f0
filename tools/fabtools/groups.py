"""A dragonfly by its groups: those round a large circle, and the switches of each, which are all cabled with each
other, round a small one, each turned to where its cables lead."""

import math

from fabtools.layout import Free, hosts_of, neighbours

FEWEST = 3
REACH = 56


def groups_of(fabric):
    """The groups of switches in which each two are cabled, where all switches are in groups of three and more, at least
    three of them; None where that isn't so."""
    near = {it: {far for far in neighbours(fabric, it) if far in fabric.switches} - {it} for it in fabric.switches}
    left, groups = dict.fromkeys(fabric.switches), []
    while left:
        group = largest_with(next(iter(left)), near, left)
        if len(group) < FEWEST:
            return None
        groups.append([it for it in left if it in group])
        for it in group:
            del left[it]
    return groups if len(groups) >= FEWEST else None


def largest_with(name, near, left):
    """The largest group with a switch that was met, each begun with one of the switches that it is cabled with."""
    found = [name]
    for other in near[name] & left.keys():
        group = {name, other}
        for it in sorted(near[name] & near[other] & left.keys()):
            if near[it] >= group:
                group.add(it)
        found = max(found, group, key=len)
    return found


class Groups(Free):
    """The groups of a dragonfly."""

    def __init__(self, fabric, groups):
        self.groups = groups
        hosts = max(len(hosts_of(fabric, it)) for it in fabric.switches)
        small = max(78, max(map(len, groups)) * (74 + 16 * hosts) / (2 * math.pi))
        large = (small + REACH + 58) / math.sin(math.pi / len(groups))
        self.centre = {}
        for at, group in enumerate(groups):
            angle = 2 * math.pi * at / len(groups) - math.pi / 2
            self.centre.update(dict.fromkeys(group, (1.15 * large * math.cos(angle), 0.98 * large * math.sin(angle))))
        spots = {}
        for group in groups:
            spots.update(self.round_centre(fabric, group, small))
        super().__init__(fabric, spots, REACH)

    def round_centre(self, fabric, group, radius):
        """The switches of a group round its centre, in the order of where their cables lead."""
        x, y = self.centre[group[0]]
        outward = math.atan2(y, x)

        def leads(name):
            far = [self.centre[it] for it in neighbours(fabric, name) if it in fabric.switches and it not in group]
            if not far:
                return math.pi
            u, v = (sum(it) / len(far) for it in zip(*far))
            return (math.atan2(v - y, u - x) - outward) % (2 * math.pi)

        for at, name in enumerate(sorted(group, key=leads)):
            angle = outward + 2 * math.pi * (at + 0.5) / len(group)
            yield name, (x + 1.1 * radius * math.cos(angle), y + 0.85 * radius * math.sin(angle))

    def outward(self, name):
        (x, y), (u, v) = self.spots[name], self.centre[name]
        return math.atan2(y - v, x - u + 0.001)

    def frames(self):
        """Each group with its hosts. It has no name but those of its switches."""
        for group in self.groups:
            yield "", group + [host for it in group for host in hosts_of(self.fabric, it)]
