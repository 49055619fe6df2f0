"""A run: a fabric with a report, how the last map lies in the fabric, and the ways that the last routes take."""

from collections import Counter

from fabtools import fabric as fabrics
from fabtools.report import Map, Routes, place, real_end


class Run:
    """The fabric of a text, first, last and as it stood when the last map was made, and what that map and the last routes of a report say of it."""

    def __init__(self, fabric, report):
        self.first, self.report = fabric, report
        standing = list(self.report.standing(self.first))
        self.last = standing[-1][1] if standing else self.first
        maps, routes = [it for it in standing if isinstance(it[0], Map)], self.report.of(Routes)
        self.shown, self.fabric = maps[-1] if maps else (None, self.first)
        # The routes are those of the last map before them.
        self.routed = next((over for it, over in reversed(maps) if routes and it.line < routes[-1].line), self.fabric)
        self.at = place(self.fabric, self.shown) if self.shown else {}
        self.routes = routes[-1].routes if routes else []
        self.routes_line = routes[-1].line if routes else 0

    def map_names(self, vertex):
        """What the map calls a switch; an incomplete map may show one twice."""
        return [it for it in self.at if self.at[it][0] == vertex and it != vertex]

    def is_outside(self, vertex):
        names = self.map_names(vertex)
        return bool(names) and not any(self.shown.core[it] for it in names)

    def is_lost(self, vertex):
        """Whether there is a map, and the vertex isn't on it."""
        return self.shown is not None and all(at[0] != vertex for at in self.at.values())

    def unseen(self):
        """The cables that the map lacks, as sets of two ends."""
        if self.shown is None:
            return set()
        seen = {frozenset((real_end(self.at, a), real_end(self.at, b))) for a, b in self.shown.cables}
        return {frozenset(it) for it in self.fabric.cables} - seen

    def way(self, sender, receiver):
        """The channels of the route from one host to another, as pairs of ends; none where there is no route."""
        for one, other, turns in self.routes:
            if (one, other) == (sender, receiver):
                return fabrics.follow(self.routed, one, turns)[0]
        return []

    def loads(self):
        """How many routes use each channel."""
        load = Counter()
        for sender, _, turns in self.routes:
            load.update(fabrics.follow(self.routed, sender, turns)[0])
        return load
