"""Many switches that have no shape, in rows and columns: the fewer cables lie between two, the nearer they stand."""

import math

from fabtools.layout import Grid, neighbours

# Above so many switches springs take long, and hold boxes over each other.
FEW = 64
# Distances are measured from so many switches, and each direction is turned towards the best one so many times.
PIVOTS, ROUNDS = 24, 40
# About how wide a switch and a host are, and how high a row is.
SWITCH, HOST, ROW = 190, 85, 150


class Crowd(Grid):
    """Each switch in the row and the column where its distances would have it, with its hosts below it to the right."""

    def __init__(self, fabric):
        super().__init__(fabric, (1, 1))
        hosts = -(-len(self.owner) // max(1, len(self.at)))
        self.columns = max(1, round(math.sqrt(1.5 * len(self.at) * ROW / (SWITCH + HOST * hosts))))
        self.count = -(-len(self.at) // self.columns)
        self.at = in_rows(spots(switches_near(fabric)), self.columns)

    def is_cut(self, a, b):
        return False

    def sides(self, a, b):
        if a[0] not in self.at or b[0] not in self.at or a[0] == b[0]:
            return super().sides(a, b)
        (r, c), (s, d) = self.at[a[0]], self.at[b[0]]
        if r == s and abs(c - d) > 1:
            return "top", "top"
        if abs(c - d) >= abs(r - s):
            return ("right", "left") if c < d else ("left", "right")
        return ("front", "top") if r < s else ("top", "front")


def in_rows(spots, columns):
    """The row and the column of each name, so many columns a row."""
    down = sorted(spots, key=lambda it: spots[it][1])
    rows = [sorted(down[at : at + columns], key=lambda it: spots[it][0]) for at in range(0, len(down), columns)]
    return {name: (r, c) for r, row in enumerate(rows) for c, name in enumerate(row)}


def switches_near(fabric):
    return {it: [far for far in neighbours(fabric, it) if far in fabric.switches] for it in fabric.switches}


def spots(near):
    """A place of the plane for each switch, by the two directions in which its distances from some differ most."""
    rows = centred(from_pivots(near))
    first = direction(rows, [])
    second = direction(rows, [first])
    return {name: (dot(row, first), dot(row, second)) for name, row in zip(near, rows)}


def from_pivots(near):
    """The squares of the distances of each switch from some, of which each is the farthest from those before it."""
    names, rows, least = list(near), {it: [] for it in near}, dict.fromkeys(near, math.inf)
    for _ in range(min(PIVOTS, len(names))):
        away = distances(near, max(names, key=least.get))
        most = max(away.values()) + 1
        for name in names:
            least[name] = min(least[name], away.get(name, most))
            rows[name].append(away.get(name, most) ** 2)
    return list(rows.values())


def distances(near, begin):
    away, row = {begin: 0}, [begin]
    while row:
        row = [far for name in row for far in near[name] if far not in away and not away.update({far: away[name] + 1})]
    return away


def centred(rows):
    """The rows less the mean of each row and of each column."""
    means = [sum(it) / len(rows) for it in zip(*rows)]
    lower = [[it - mean for it, mean in zip(row, means)] for row in rows]
    return [[it - sum(row) / len(row) for it in row] for row in lower]


def direction(rows, others):
    """The direction, at a right angle to others, in which rows differ most: each round turns it nearer."""
    found = [math.cos(at + 1) for at in range(len(rows[0]))]
    for _ in range(ROUNDS):
        shares = [dot(row, found) for row in rows]
        turned = [dot(shares, column) for column in zip(*rows)]
        for other in others:
            over = dot(turned, other)
            turned = [it - over * by for it, by in zip(turned, other)]
        length = math.hypot(*turned) or 1
        found = [it / length for it in turned]
    return found


def dot(one, other):
    return sum(a * b for a, b in zip(one, other))
