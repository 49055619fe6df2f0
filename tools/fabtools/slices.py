"""A torus or a mesh of three dimensions as its slices, side by side: a cable between two slices is two short pieces."""

import re

from fabtools.layout import Grid, between_switches

# A slice is so far from the next one, and a cable that is cut so long.
APART, STUB = 34, 22
LETTER = 6.2


def box_of(fabric):
    """The place of each switch as (slice, row, column), and how many of each, where they are a torus or a mesh of three
    dimensions in the text's order or by the numbers of their names; None where they aren't."""
    names, cables = list(fabric.switches), between_switches(fabric)
    for order in (names, sorted(names, key=numbers)):
        for sizes in boxes(len(names)):
            at = {name: place(index, sizes) for index, name in enumerate(order)}
            if cables and all(are_beside(at[a[0]], at[b[0]], sizes) for a, b in cables):
                return at, sizes
    return None


def numbers(name):
    return [int(it) for it in re.findall(r"[0-9]+", name)]


def boxes(count):
    """The ways to write a count as a product of three numbers, none of them 1."""
    for slices in range(2, count // 4 + 1):
        for rows in range(2, count // slices // 2 + 1):
            if count % (slices * rows) == 0:
                yield slices, rows, count // slices // rows


def place(index, sizes):
    _, rows, columns = sizes
    return index // (rows * columns), index // columns % rows, index % columns


def are_beside(one, other, sizes):
    """Whether two places differ in one dimension alone, and there by one step, also round the edge."""
    apart = [(a - b) % size for a, b, size in zip(one, other, sizes)]
    return sorted(map(bool, apart)) == [False, False, True] and all(
        it in (0, 1, size - 1) for it, size in zip(apart, sizes)
    )


class Slices(Grid):
    """Slices of a torus of three dimensions, each a grid."""

    def __init__(self, fabric, box):
        at, (self.slices, rows, columns) = box
        super().__init__(fabric, (rows, columns))
        self.at = {name: it[1:] for name, it in at.items()}
        self.slice = {name: it[0] for name, it in at.items()}
        self.aside = LETTER * max(map(len, at))

    def are_apart(self, a, b):
        """Whether a cable joins two slices."""
        return a[0] in self.at and b[0] in self.at and self.slice[a[0]] != self.slice[b[0]]

    def sides(self, a, b):
        if not self.are_apart(a, b):
            return super().sides(a, b)
        is_next = (self.slice[b[0]] - self.slice[a[0]]) % self.slices == 1
        return ("back", "front") if is_next else ("front", "back")

    def is_cut(self, a, b):
        return self.are_apart(a, b) or super().is_cut(a, b)

    def places(self, sizes):
        spots = super().places(sizes)
        # All slices lie over each other so far. A cable that is cut has the name of its other end beside it.
        kept = [it for name in self.at for it in (name, *self.hosts(name))]
        wide = breadth(spots, sizes, kept, 0) + 2 * (self.aside + STUB) + APART
        high = breadth(spots, sizes, kept, 1) + 2 * STUB + 2 * APART
        across = min(range(1, self.slices + 1), key=lambda it: abs(it * wide - 1.7 * -(-self.slices // it) * high))
        for name in self.at:
            down, right = divmod(self.slice[name], across)
            for it in (name, *self.hosts(name)):
                spots[it] = (spots[it][0] + right * wide, spots[it][1] + down * high)
        for it in [it for it in self.fabric.hosts if it not in self.owner]:
            spots[it] = (spots[it][0], spots[it][1] + (-(-self.slices // across) - 1) * high)
        return spots

    def hosts(self, name):
        return [host for host, owner in self.owner.items() if owner == name]

    def frames(self):
        """Each slice with what it is called and what is in it."""
        for number in range(self.slices):
            names = [it for it in self.at if self.slice[it] == number]
            yield f"slice {number + 1} of {self.slices}", names + [host for it in names for host in self.hosts(it)]


def breadth(spots, sizes, names, k):
    """How far boxes spread, across or down."""
    ends = [(spots[it][k] - sizes[it][k] / 2, spots[it][k] + sizes[it][k] / 2) for it in names]
    return max(it[1] for it in ends) - min(it[0] for it in ends)
