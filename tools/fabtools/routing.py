"""The routes of a report, followed through the fabric: their ways, how long they are, and what they load."""

from collections import Counter

from fabtools import fabric as fabrics
from fabtools.report import both_ways, real_end


def end_text(end):
    return f"{end[0]}:{end[1]}"


def channel_text(channel):
    return f"{end_text(channel[0])}>{end_text(channel[1])}"


def way_text(way):
    return " ".join(map(channel_text, way))


class Route:
    """A route as the channels that it goes through, and how many cables the shortest way has."""

    def __init__(self, sender, receiver, way, shortest):
        self.sender, self.receiver, self.way, self.shortest = sender, receiver, way, shortest

    def leads_there(self):
        return bool(self.way) and self.way[-1][1] == (self.receiver, 0)

    def detour(self):
        """How many cables more than the shortest way it crosses; none where it leads elsewhere."""
        return len(self.way) - self.shortest if self.leads_there() else 0

    def line(self):
        more = f"  ({self.detour()} more than the shortest way)" if self.detour() else ""
        return f"{self.sender} to {self.receiver}: {way_text(self.way)}{more}"

    def facts(self):
        ways = [channel_text(it) for it in self.way]
        return {"from": self.sender, "to": self.receiver, "way": ways, "cables": len(ways), "shortest": self.shortest}


class Routed:
    """The routes of a report with the ranks of their channels, in the fabric's names, and the cables pulled since their map."""

    def __init__(self, fabric, shown, at, routes, pulled=frozenset()):
        self.fabric, self.line, self.pulled = fabric, routes.line, pulled
        self.ranks = {real_end(at, end): rank for end, rank in routes.ranks.items()}
        self.seen = {at[it][0] for it in shown.vertices if it in at}
        self.load, self.routes, near = Counter(), [], {}
        for sender, receiver, turns in routes.routes:
            if sender not in near:
                near[sender] = fabrics.reached(fabric, sender)
            way, _ = fabrics.follow(fabric, sender, turns)
            self.load.update(way)
            self.routes.append(Route(sender, receiver, way, near[sender].get(receiver, 0)))

    def of(self, sender, receiver):
        return next((it for it in self.routes if (it.sender, it.receiver) == (sender, receiver)), None)

    def is_cut(self, route):
        return any(frozenset(it) in self.pulled for it in route.way)

    def across(self, channel):
        return [it for it in self.routes if channel in it.way]

    def faults(self):
        return [fault for it in self.routes for fault in self.faults_of(it)]

    def faults_of(self, route):
        """What is wrong with a route: that it ends elsewhere, or that a rank doesn't rise."""
        named = f"the route from {route.sender} to {route.receiver}"
        if not route.leads_there():
            yield f"{named} doesn't lead there"
        for before, after in zip(route.way, route.way[1:]):
            if before[0] not in self.ranks or after[0] not in self.ranks:
                yield f"a channel of {named} has no rank"
            elif not self.ranks[before[0]] < self.ranks[after[0]]:
                does = "stays the same" if self.ranks[before[0]] == self.ranks[after[0]] else "falls"
                yield f"the rank {does} from {channel_text(before)} to {channel_text(after)} on {named}"

    def lengths(self):
        return Counter(len(it.way) for it in self.routes)

    def detours(self):
        return Counter(it.detour() for it in self.routes)

    def longest_detour(self):
        return max(self.routes, key=Route.detour, default=None)

    def unused(self):
        """The channels of the map that no route uses."""
        return sorted(it for it in both_ways(self.fabric.cables) if it[0][0] in self.seen and it not in self.load)

    def loads(self):
        """Each channel of the map with the number of routes that cross it, the most first."""
        return sorted(self.load.items(), key=lambda it: (-it[1], it[0])) + [(it, 0) for it in self.unused()]

    def facts(self):
        return {
            "line": self.line,
            "kind": "routes",
            "faults": self.faults(),
            "ranks": len(self.ranks),
            "lengths": dict(sorted(self.lengths().items())),
            "detours": dict(sorted(self.detours().items())),
            "routes": [it.facts() for it in self.routes],
            "loads": load_facts(self.loads()),
        }


def load_facts(loads):
    return [{"channel": channel_text(it), "routes": count} for it, count in loads]


def shortest_way(fabric, sender, receiver):
    """A shortest way between two hosts, as channels; None where cables don't join them."""
    before, todo = {sender: None}, [sender]
    while todo:
        vertex = todo.pop(0)
        for port in range(fabric.ports(vertex)):
            far = fabric.far((vertex, port))
            if far and far[0] not in before:
                before[far[0]] = ((vertex, port), far)
                todo.append(far[0])
    if receiver not in before:
        return None
    way, at = [], receiver
    while before[at]:
        way.insert(0, before[at])
        at = before[at][0][0]
    return way
