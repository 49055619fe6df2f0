"""Where the vertices of a picture stand: by levels, on a grid, round a ring, or held apart as if by springs.

A layout names the side of its box by which each cable leaves, and the middle of each box in pixels, y downwards. The sides
come first, since a box is as wide as the ports at its sides need.
"""

import math
from bisect import bisect_right, insort

GAP = 14
# So far the middle of a host stays from the cables of others.
CLEAR = 24
# So far the middle of a switch that springs hold stays from the cables of others.
BESIDE = 46


def between_switches(fabric):
    return [(a, b) for a, b in fabric.cables if a[0] in fabric.switches and b[0] in fabric.switches]


def neighbours(fabric, vertex):
    """The vertices at the other ends of a vertex's cables, one for each cable."""
    ends = ((vertex, port) for port in range(fabric.ports(vertex)))
    return [fabric.far(it)[0] for it in ends if fabric.far(it)]


def hosts_of(fabric, switch):
    return [it for it in neighbours(fabric, switch) if it in fabric.hosts]


def levels(fabric):
    """The distance of each vertex from the nearest host; 1 for switches that no cables join to a host."""
    level, todo = {it: 0 for it in fabric.hosts}, list(fabric.hosts)
    while todo:
        vertex = todo.pop(0)
        for far in neighbours(fabric, vertex):
            if far not in level:
                level[far] = level[vertex] + 1
                todo.append(far)
    return {it: level.get(it, 1) for it in fabric.vertices()}


def grid_of(fabric):
    """The rows and columns of which the switches, in the text's order, are a mesh or a torus; None where they are neither."""
    names = list(fabric.switches)
    at = {name: index for index, name in enumerate(names)}
    cables = [(at[a[0]], at[b[0]]) for a, b in between_switches(fabric)]
    for rows in range(2, len(names) // 2 + 1):
        columns, rest = divmod(len(names), rows)
        if not rest and max(rows, columns) > 2 and cables and all(are_beside(*it, rows, columns) for it in cables):
            return rows, columns
    return None


def are_beside(one, other, rows, columns):
    """Whether two places of a grid, counted row by row, are beside each other, also round its edge."""
    (r, c), (s, d) = divmod(one, columns), divmod(other, columns)
    down, across = (r - s) % rows, (c - d) % columns
    return (down == 0 and across in (1, columns - 1)) or (across == 0 and down in (1, rows - 1))


def ring_of(fabric):
    """The switches round their ring, where they are one; None where they aren't."""
    near = {it: sorted({far for far in neighbours(fabric, it) if far in fabric.switches}) for it in fabric.switches}
    if len(near) < 3 or any(len(it) != 2 for it in near.values()):
        return None
    ring = [next(iter(near))]
    while len(ring) < len(near):
        following = [it for it in near[ring[-1]] if it not in ring]
        if not following:
            return None
        ring.append(following[0] if len(ring) > 1 else min(following, key=list(near).index))
    return ring


def square(count):
    rows = max(1, math.isqrt(count))
    return rows, -(-count // rows)


class Levels:
    """Hosts below, each switch as high as it is far from the nearest host. No cable spans more than one level."""

    def __init__(self, fabric):
        self.fabric, self.level = fabric, levels(fabric)
        self.rows = [[] for _ in range(max(self.level.values(), default=0) + 1)]
        for name, level in self.level.items():
            self.rows[level].append(name)
        if len(self.rows) > 1:
            self.rows[1:] = least_crossing(self.rows[1:], self.links())
        self.rows[0] = self.hosts_in_order()
        self.index = {name: at for row in self.rows for at, name in enumerate(row)}

    def links(self):
        return [(a[0], b[0]) for a, b in between_switches(self.fabric)]

    def hosts_in_order(self):
        """The hosts under their switches; those without one stand last."""
        under = [host for name in (self.rows[1] if len(self.rows) > 1 else []) for host in hosts_of(self.fabric, name)]
        return under + [it for it in self.rows[0] if it not in under]

    def sides(self, a, b):
        one, other = self.level[a[0]], self.level[b[0]]
        if one != other:
            return ("top", "bottom") if one < other else ("bottom", "top")
        apart = self.index[b[0]] - self.index[a[0]]
        if abs(apart) != 1:
            return "top", "top"
        return ("right", "left") if apart > 0 else ("left", "right")

    def places(self, sizes):
        across = self.blocks(sizes)
        for row in self.rows[2:]:
            across.update(self.spread(row, sizes, across))
        return {name: (across[name], y) for row, y in zip(self.rows, self.heights(sizes, across)) for name in row}

    def blocks(self, sizes):
        """Where the lowest switches stand across the picture, each above its hosts, and these."""
        across, left = {}, 0
        for name in self.rows[1] if len(self.rows) > 1 else []:
            hosts = hosts_of(self.fabric, name)
            wide = sum(sizes[it][0] + GAP / 2 for it in hosts) - GAP / 2
            block = max(wide, sizes[name][0])
            across[name] = left + block / 2
            across.update(side_by_side(hosts, sizes, left + (block - wide) / 2, GAP / 2))
            left += block + (5 if self.is_chained(name) else 2) * GAP
        across.update(side_by_side([it for it in self.rows[0] if it not in across], sizes, left, 4 * GAP))
        return across

    def is_chained(self, name):
        """Whether a switch is cabled to the next one of its row."""
        row, at = self.rows[self.level[name]], self.index[name]
        return row[at + 1 : at + 2] != [] and row[at + 1] in neighbours(self.fabric, name)

    def spread(self, row, sizes, across):
        """A row above others, as near as may be above the middle of those below."""
        wide = max(across.values()) - min(across.values())
        apart = max(max(sizes[it][0] for it in row) + 2 * GAP, min(wide / max(1, len(row)), 170))
        wanted = []
        for name in row:
            below = [across[it] for it in neighbours(self.fabric, name) if it in across]
            wanted.append(sum(below) / len(below) if below else wide / 2)
        return dict(zip(row, held_apart(wanted, apart)))

    def heights(self, sizes, across):
        """The middle of each row, from the hosts up."""
        wide = max(across.values(), default=0) - min(across.values(), default=0)
        gap, at, found = min(240, max(54, wide / 9)), 0, []
        for number, row in enumerate(self.rows):
            high = max((sizes[it][1] for it in row), default=0)
            found.append(at - high / 2)
            at -= high + (gap if number else max(44, min(100, gap * 0.6)))
        return found


def side_by_side(names, sizes, left, gap):
    across = {}
    for name in names:
        across[name] = left + sizes[name][0] / 2
        left += sizes[name][0] + gap
    return across


def held_apart(wanted, apart):
    """The places nearest to those wanted, in their order, that are so far apart at least (pooled means of neighbours)."""
    pools = []
    for at, place in enumerate(wanted):
        pools.append([place - at * apart, 1])
        while len(pools) > 1 and pools[-2][0] > pools[-1][0]:
            mean, count = pools.pop()
            below = pools[-1]
            pools[-1] = [(below[0] * below[1] + mean * count) / (below[1] + count), below[1] + count]
    flat = [mean for mean, count in pools for _ in range(count)]
    return [mean + at * apart for at, mean in enumerate(flat)]


def least_crossing(rows, links):
    """The rows, each ordered by the means of its neighbours above or below, swept up and down; the best order that was met."""
    near = {}
    for a, b in links:
        near.setdefault(a, []).append(b)
        near.setdefault(b, []).append(a)
    best, fewest = [list(it) for it in rows], crossings(rows, near)
    rows = [list(it) for it in rows]
    for sweep in range(16):
        numbers = range(1, len(rows)) if sweep % 2 == 0 else range(len(rows) - 2, -1, -1)
        for number in numbers:
            beside = rows[number - 1 if sweep % 2 == 0 else number + 1]
            rows[number] = by_means(rows[number], beside, near)
        count = crossings(rows, near)
        if count < fewest:
            best, fewest = [list(it) for it in rows], count
    return best


def by_means(row, beside, near):
    at = {name: index / len(beside) for index, name in enumerate(beside)}

    def mean(index):
        found = [at[it] for it in near.get(row[index], []) if it in at]
        return sum(found) / len(found) if found else index / len(row)

    return [row[it] for it in sorted(range(len(row)), key=mean)]


def crossings(rows, near):
    total = 0
    for lower, upper in zip(rows, rows[1:]):
        at, seen = {name: index for index, name in enumerate(upper)}, []
        for name in lower:
            ends = sorted(at[it] for it in near.get(name, []) if it in at)
            total += sum(len(seen) - bisect_right(seen, it) for it in ends)
            for it in ends:
                insort(seen, it)
    return total


class Free:
    """Switches at places of the plane, and their hosts beside them. Cables leave by the side that looks at their far end."""

    # Boxes push each other away, so the sides are looked for once more where they stand then.
    rounds = 2

    def __init__(self, fabric, spots, reach):
        self.fabric, self.spots, self.reach, self.sizes = fabric, dict(spots), reach, {}
        self.middle = [sum(it) / len(spots) for it in zip(*spots.values())]
        self.lines = [(spots[a[0]], spots[b[0]]) for a, b in between_switches(fabric)]
        for name in spots:
            self.place_hosts(name)
        lost = [it for it in fabric.vertices() if it not in self.spots]
        low = max((y for _, y in self.spots.values()), default=0) + 2 * reach
        self.spots.update({name: (at * reach, low) for at, name in enumerate(lost)})

    def place_hosts(self, name):
        """Each host of a switch in the widest gap between the cables that leave it."""
        x, y = self.spots[name]
        taken = [math.atan2(self.spots[it][1] - y, self.spots[it][0] - x) for it in neighbours(self.fabric, name) if it in self.spots and it != name]
        for host in hosts_of(self.fabric, name):
            angle, self.spots[host] = self.free_spot(name, taken)
            taken.append(angle)

    def free_spot(self, name, taken):
        """The angle and the place of one more host: on no cable, as near as may be; if all are on one, where it is furthest off."""
        x, y = self.spots[name]
        lines = [it for it in [*self.lines, *zip(self.spots.values(), self.spots.values())] if distance((x, y), *it) < 3 * self.reach]
        best = (-1,)
        for reach in (self.reach, 1.3 * self.reach, 1.6 * self.reach):
            spots = {it: (x + reach * math.cos(it), y + 0.8 * reach * math.sin(it)) for it in angles_from(self.outward(name))}
            clear = {it: min([distance(spot, *line) for line in lines] + [CLEAR]) for it, spot in spots.items()}
            most = max(clear.values())
            if most > best[0]:
                angle = widest(taken, self.outward(name), [it for it in spots if clear[it] == most])
                best = most, angle, spots[angle]
        return best[1:]

    def outward(self, name):
        x, y = self.spots[name]
        return math.atan2(y - self.middle[1], x - self.middle[0] + 0.001)

    def sides(self, a, b):
        if a[0] == b[0]:
            return "top", "top"
        (x, y), (u, v) = self.spots[a[0]], self.spots[b[0]]
        if self.are_side_by_side(a[0], b[0]):
            return ("right", "left") if u > x else ("left", "right")
        return ("bottom", "top") if v > y else ("top", "bottom")

    def are_side_by_side(self, one, other):
        """Whether a cable between two boxes is to leave them aside: not where one lies above the other."""
        across, down = (abs(self.spots[one][k] - self.spots[other][k]) for k in (0, 1))
        wide, high = (sum(self.sizes.get(it, (0, 0))[k] for it in (one, other)) / 2 for k in (0, 1))
        return across > wide and (down < high or across > 0.8 * down)

    def places(self, sizes):
        self.spots, self.sizes = pushed_apart(self.spots, sizes), sizes
        return self.spots


def pushed_apart(spots, sizes):
    """The places, where boxes that overlap have pushed each other away, along the way that is shorter."""
    spots, names = {it: list(at) for it, at in spots.items()}, list(spots)
    wide, high = (max((it[k] for it in sizes.values()), default=0) + GAP for k in (0, 1))
    # Fewer rounds of a large fabric, each of which looks at every two boxes.
    for _ in range(max(3, min(300, 20_000_000 // (len(names) ** 2 + 1)))):
        moved = False
        for at, one in enumerate(names):
            here = spots[one]
            for other in names[at + 1 :]:
                there = spots[other]
                if abs(here[1] - there[1]) < high and abs(here[0] - there[0]) < wide:
                    moved |= push(here, there, sizes[one], sizes[other])
        if not moved:
            break
    return {it: tuple(at) for it, at in spots.items()}


def push(one, other, size, far_size):
    """Moves two places apart where their boxes come closer than the gap; whether they did."""
    over = [(size[k] + far_size[k]) / 2 + GAP - abs(one[k] - other[k]) for k in (0, 1)]
    if min(over) <= 0.01:
        return False
    k = 0 if over[0] < over[1] else 1
    by = over[k] / 2 if one[k] <= other[k] else -over[k] / 2
    one[k] -= by
    other[k] += by
    return True


def angles_from(wanted):
    return [wanted + step * math.pi / 24 for step in range(48)]


def widest(taken, wanted, angles):
    """The angle that is furthest from all that are taken; among those nearly as far the one nearest to that wanted."""
    def apart(one, other):
        return abs((one - other + math.pi) % (2 * math.pi) - math.pi)

    return max(angles, key=lambda it: min([apart(it, other) for other in taken] + [1.2]) - 0.3 * apart(it, wanted))


def distance(spot, one, other):
    """How far a place is from the straight line between two others."""
    (x, y), (u, v), (p, q) = spot, one, other
    long = (p - u) ** 2 + (q - v) ** 2
    along = min(1, max(0, ((x - u) * (p - u) + (y - v) * (q - v)) / long)) if long else 0
    return math.hypot(x - u - along * (p - u), y - v - along * (q - v))


class Round(Free):
    """The switches round a circle."""

    def __init__(self, fabric):
        ring = ring_of(fabric) or list(fabric.switches)
        radius = max(86, 130 * len(ring) / (2 * math.pi))
        # A ring of four stands as a square.
        begin = -3 * math.pi / 4 if len(ring) == 4 else -math.pi / 2
        spots = {}
        for at, name in enumerate(ring):
            angle = begin + 2 * math.pi * at / len(ring)
            spots[name] = (1.25 * radius * math.cos(angle), 0.85 * radius * math.sin(angle))
        super().__init__(fabric, spots, 92)


class Springs(Free):
    """The switches as far from each other in the picture as by cables, as nearly as may be."""

    def __init__(self, fabric):
        super().__init__(fabric, beside_cables(fabric, stressed(fabric)), 70)


def beside_cables(fabric, spots):
    """The places, where each switch has moved off the cables of others: one behind it would look like two that end there."""
    at = {it: list(spot) for it, spot in spots.items()}
    cables = sorted({tuple(sorted((a[0], b[0]))) for a, b in between_switches(fabric) if a[0] != b[0]})
    for _ in range(max(3, min(60, 400_000 // (len(at) * len(cables) + 1)))):
        moved = False
        for name, spot in at.items():
            for one, other in cables:
                if name not in (one, other) and distance(spot, at[one], at[other]) < BESIDE:
                    moved |= step_off(spot, at[one], at[other])
        if not moved:
            break
    return {it: tuple(spot) for it, spot in at.items()}


def step_off(spot, one, other):
    """Moves a place away from a straight line between two others, on its side of it; whether it did."""
    across, down = one[1] - other[1], other[0] - one[0]
    long = math.hypot(across, down)
    if not long:
        return False
    side = across * (spot[0] - one[0]) + down * (spot[1] - one[1])
    by = (1 if side >= 0 else -1) * max(1, (BESIDE - abs(side) / long) / 2) / long
    spot[0] += across * by
    spot[1] += down * by
    return True


def distances(fabric):
    """The distance of each two switches over switches alone, in cables; where none joins them, one more than any."""
    found = {}
    for begin in fabric.switches:
        near, todo = {begin: 0}, [begin]
        while todo:
            vertex = todo.pop(0)
            for far in neighbours(fabric, vertex):
                if far in fabric.switches and far not in near:
                    near[far] = near[vertex] + 1
                    todo.append(far)
        found[begin] = near
    most = max((it for near in found.values() for it in near.values()), default=0) + 1
    return {one: {other: near.get(other, most) for other in fabric.switches} for one, near in found.items()}


def stressed(fabric):
    """Places by stress majorization, begun round a circle: each switch moves to the mean of where the others would have it."""
    names, apart = list(fabric.switches), distances(fabric)
    unit = 85 + 22 * max((len(hosts_of(fabric, it)) for it in names), default=0)
    if len(names) < 2:
        return {it: (0, 0) for it in names}
    at = {it: (unit * math.cos(6.2832 * k / len(names)), unit * math.sin(6.2832 * k / len(names))) for k, it in enumerate(names)}
    # Fewer rounds of a large fabric, each of which looks at every two switches.
    for _ in range(max(3, min(200, 3_000_000 // len(names) ** 2))):
        for name in names:
            at[name] = pulled(name, names, at, apart[name], unit)
    return {it: (1.2 * x, 0.9 * y) for it, (x, y) in laid_down(at).items()}


def laid_down(at):
    """The places turned so that they spread most from left to right, which a screen and a page have room for."""
    middle = [sum(it) / len(at) for it in zip(*at.values())]
    flat = {it: (x - middle[0], y - middle[1]) for it, (x, y) in at.items()}
    across, down, both = (sum(f(x, y) for x, y in flat.values()) for f in (lambda x, y: x * x, lambda x, y: y * y, lambda x, y: x * y))
    angle = math.atan2(2 * both, across - down) / 2
    cos, sin = math.cos(angle), math.sin(angle)
    return {it: (x * cos + y * sin, y * cos - x * sin) for it, (x, y) in flat.items()}


def pulled(name, names, at, apart, unit):
    across = down = total = 0
    x, y = at[name]
    for other in names:
        if other != name:
            u, v = at[other]
            length, wanted = math.hypot(x - u, y - v) or 0.01, unit * apart[other]
            weight = 1 / apart[other] ** 2
            across += weight * (u + wanted * (x - u) / length)
            down += weight * (v + wanted * (y - v) / length)
            total += weight
    return across / total, down / total


class Grid:
    """The switches in rows and columns, in the text's order, each with its hosts below it to the right. A cable round the
    edge is cut there, and each piece named by where the other is."""

    # So much more room is beside a switch.
    aside = 0

    def __init__(self, fabric, grid):
        self.fabric, (self.count, self.columns) = fabric, grid
        self.at = {name: divmod(index, self.columns) for index, name in enumerate(fabric.switches)}
        self.owner = {host: name for name in fabric.switches for host in hosts_of(fabric, name)}

    def sides(self, a, b):
        if a[0] in self.owner or b[0] in self.owner:
            return ("left", "corner") if a[0] in self.owner else ("corner", "left")
        if a[0] not in self.at or b[0] not in self.at:
            return ("right", "left") if a < b else ("left", "right")
        (r, c), (s, d) = self.at[a[0]], self.at[b[0]]
        if (r, c) == (s, d):
            return "top", "top"
        if r == s:
            return ("right", "left") if (c < d) == (abs(c - d) == 1) else ("left", "right")
        return ("bottom", "top") if (r < s) == (abs(r - s) == 1) else ("top", "bottom")

    def is_cut(self, a, b):
        """Whether a cable leads round the edge."""
        if a[0] not in self.at or b[0] not in self.at:
            return False
        (r, c), (s, d) = self.at[a[0]], self.at[b[0]]
        across, down = abs(c - d), abs(r - s)
        return (down == 0 and across == self.columns - 1 > 1) or (across == 0 and down == self.count - 1 > 1)

    def places(self, sizes):
        wide = max(sizes[it][0] for it in self.at)
        high = max(sizes[it][1] for it in self.at)
        sizes.update({name: (wide, high) for name in self.at})
        hosts = {name: hosts_of(self.fabric, name) for name in self.at}
        below = max((sum(sizes[it][0] + GAP / 2 for it in found) for found in hosts.values()), default=0)
        across, down = wide + max(below + GAP, 50) + self.aside, high + (58 if below else 40)
        spots = {name: (c * across, r * down) for name, (r, c) in self.at.items()}
        for name, found in hosts.items():
            x, y = spots[name]
            for host, at in side_by_side(found, sizes, x + wide / 2 + GAP / 2, GAP / 2).items():
                spots[host] = (at, y + high / 2 + 21)
        lost = [it for it in self.fabric.hosts if it not in spots]
        spots.update(side_down(lost, sizes, self.count * down))
        return spots


def side_down(names, sizes, y):
    return {name: (x, y) for name, x in side_by_side(names, sizes, 0, 4 * GAP).items()}
