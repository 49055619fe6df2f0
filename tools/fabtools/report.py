"""A report, read line by line: its maps, routes, installations, settles and all other lines, each with its number."""

from fabtools import forms
from fabtools.fabric import reached
from fabtools.reading import number

COMPARE = "tools/compare says all that differs"


class Shown:
    """What a map of a report shows: its mapper, and its vertices and cables by the names that the map gives them."""

    def __init__(self, line, host, asks):
        self.line, self.host, self.asks = line, host, asks
        self.vertices, self.core, self.cables, self.far_ends = [], {}, [], {}

    def add(self, words):
        if words[0] == "cable":
            a, b = (words[1], int(words[2])), (words[3], int(words[4]))
            self.cables.append((a, b))
            self.far_ends[a], self.far_ends[b] = b, a
        else:
            self.vertices.append(words[1])
            self.core[words[1]] = words[-1] != "outside"

    def switches(self):
        return [it for it in self.vertices if it.startswith("#")]

    def hosts(self):
        return [it for it in self.vertices if not it.startswith("#")]


class Map(Shown):
    """A map by packets, with its words."""

    def __init__(self, line, host, words, asks, packets):
        super().__init__(line, host, asks)
        self.words, self.packets = words, packets


class CircuitMap(Shown):
    """A map of circuit links, with its depth. What is outside isn't shown."""

    def __init__(self, line, host, depth, asks):
        super().__init__(line, host, asks)
        self.depth = depth


class Routes:
    """Routes of a report as (from, to, turns), and ranks by the map's ports."""

    def __init__(self, line):
        self.line, self.routes, self.ranks = line, [], {}

    def add(self, words):
        if words[0] == "route":
            self.routes.append((words[1], words[2], [int(it) for it in words[3:]]))
        else:
            self.ranks[words[1], int(words[2])] = int(words[3])


class Broken:
    """The installed routes that cross a pulled cable, by the hosts from and to which they lead."""

    def __init__(self, line):
        self.line, self.pairs = line, []

    def add(self, words):
        self.pairs.append((words[1], words[2]))


class Report:
    """The items of a report in order: Map, CircuitMap, Routes, Broken, or (line, words) for any other line."""

    def __init__(self, text):
        self.text, self.items, open_item = text, [], None
        for line, words in forms.saying(text):
            open_item = self.inside(open_item, words) if open_item else self.begin(line, words)

    def begin(self, line, words):
        if words[0] == "map" and "asks" in words[2:]:
            at = words.index("asks", 2)
            item = Map(line, words[1], " ".join(words[2:at]), number(words[at + 1], None), number(words[at + 3], None))
            self.items.append(item)
            return None if item.words == "incomplete nodes" else item
        if words[0] == "circuit" and words[2] == "depth":
            self.items.append(CircuitMap(line, words[1], number(words[3]), number(words[5], None)))
            return self.items[-1]
        if words[0] == "routes" and words[1] != "refused":
            self.items.append(Routes(line))
            return self.items[-1]
        if words[0] == "endbroken" or (words[0] == "broken" and words[1:] != ["refused", "noroutes"]):
            self.items.append(Broken(line))
            return self.inside(self.items[-1], words)
        self.items.append((line, words))
        return None

    def inside(self, item, words):
        if words[0] in ("endmap", "endroutes", "endbroken"):
            return None
        item.add(words)
        return item

    def standing(self, fabric):
        """The items, each with the fabric as it stands there by the lines `pull` and `plug` so far."""
        for item in self.items:
            if isinstance(item, tuple):
                fabric = fabric.after(item[1])
            yield item, fabric

    def moves(self, fabric, line=0):
        """The cables in place at a line that lines after it pull, and those that these plug and leave in place; the fabric is the text's."""
        pulled, plugged, before = [], [], fabric
        for item, standing in self.standing(fabric):
            if standing is not before and item[0] > line:
                for cable in [it for it in before.cables if it not in standing.cables]:
                    (plugged.remove if cable in plugged else pulled.append)(cable)
                plugged += [it for it in standing.cables if it not in before.cables]
            before = standing
        return pulled, plugged

    def of(self, kind):
        return [it for it in self.items if isinstance(it, kind)]


def place(fabric, shown):
    """How a map lies in its fabric: for each of its vertices the fabric's name and the port that its port 0 is.

    Follows the map's cables from the mapper's host. A vertex of an incomplete map may be shown twice: both get the one name.
    """
    at = {shown.host: (shown.host, 0)}
    todo = [shown.host]
    while todo:
        vertex = todo.pop(0)
        for (a, p), (b, q) in both_ways(shown.cables):
            if a == vertex and b not in at:
                far = fabric.far((at[a][0], at[a][1] + p))
                if far:
                    at[b] = (far[0], far[1] - q)
                    todo.append(b)
    return at


def misfit(fabric, shown):
    """Why a map by packets is none of its fabric, or None.

    Whatever words such a map has, each of its cables is one of the fabric's; and a complete one has each that is joined to its mapper.
    """
    at, seen = place(fabric, shown), set()
    for a, b in shown.cables:
        ends = real_end(at, a), real_end(at, b)
        if None in ends or fabric.far(ends[0]) != ends[1] or not all(stands(fabric, at, it) for it, _ in (a, b)):
            return f"it maps a 'cable {a[0]} {port_text(a[1])} {b[0]} {port_text(b[1])}', and the text has none there; {COMPARE}"
        seen.add(frozenset(ends))
    lacking = lacks(fabric, shown, seen) if shown.words == "complete" else None
    return lacking and "its complete map lacks the text's 'cable {} {} {} {}'; {}".format(*lacking[0], *lacking[1], COMPARE)


def lacks(fabric, shown, seen):
    """The first cable that is surely joined to a map's host and isn't among the seen ones, or None."""
    fabric = fabric.without_planned()
    joined = reached(fabric, shown.host)
    return next((it for it in fabric.cables if it[0][0] in joined and frozenset(it) not in seen), None)


def stands(fabric, at, vertex):
    """Whether a vertex of a map lies at one of its kind, a host at itself."""
    name = at[vertex][0]
    return name in fabric.switches if vertex.startswith("#") else name == vertex


def port_text(port):
    """A port as a map's line has it."""
    return f"{port:+}" if port else "0"


def both_ways(cables):
    for a, b in cables:
        yield a, b
        yield b, a


def real_end(at, end):
    """An end of a map as an end of the fabric, or None where its vertex has no place."""
    vertex, port = end
    if vertex not in at:
        return None
    return at[vertex][0], at[vertex][1] + port
