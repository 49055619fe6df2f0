"""Forwarding tables of a subnet manager, and the text and reports by which the program judges them: the fabric as its
own map, the route of each two hosts by the tables, and numbers of channels that rise along all of them, if any do."""

import re

from fabtools import circles, converting
from fabtools import fabric as fabrics
from fabtools.subnet import NO_PORT, NoTables

HEAD = re.compile(r"Unicast lids .*\bguid 0x([0-9a-f]+)\b", re.I)
ENTRY = re.compile(r"(0x[0-9a-f]+)\s+(\d+)\s*[:#]", re.I)
TAIL = re.compile(r"\d+ (valid )?lids dumped", re.I)
LONGEST_WALK = 64


def read(text):
    """For each switch, by its guid, the port of each LID."""
    tables, table, is_open, ends = {}, None, 0, TAIL.search(text)
    for number, line in enumerate(text.splitlines(), 1):
        head, entry = HEAD.match(line), ENTRY.match(line)
        if head and is_open and ends:
            raise NoTables(f"line {number}: the table of line {is_open} has no end, as '12 lids dumped'")
        if head:
            table, is_open = tables.setdefault(int(head[1], 16), {}), number
        elif entry and table is not None:
            table[int(entry[1], 16)] = int(entry[2])
        is_open = 0 if TAIL.match(line) else is_open
    if is_open and ends:
        raise NoTables(f"line {is_open}: this table has no end, as '12 lids dumped': the file is cut off")
    if not tables:
        head = "Unicast lids [0x0-0x15] of switch Lid 15 guid 0x0000000000200009 (s11):"
        raise NoTables(f"it has no line like '{head}', which opensm and dump_lfts write")
    return tables


class Routed:
    """A subnet in the names and ports of a fabric's text."""

    def __init__(self, subnet):
        self.subnet = subnet
        self.fabric, table = converting.convert(subnet.nodes)
        self.names = {(node.key, port): name for name, port, node, _ in table}
        is_large = converting.is_large(subnet.nodes)
        self.ports = {it.key: converting.port_numbers(it, is_large) for it in subnet.switches()}

    def end(self, end):
        """An end of the files as one of the fabric."""
        key, port = end
        is_switch = self.subnet.nodes[key].is_switch
        return (self.names[key, None], self.ports[key][port]) if is_switch else (self.names[end], 0)

    def way(self, sender, lid):
        """The channels from one host towards a LID, as ends, and the turns; these end where no table leads on."""
        way, turns, at = [sender.end], [], self.subnet.far(sender.end)
        while at and self.subnet.nodes[at[0]].is_switch and len(turns) < LONGEST_WALK:
            port = self.subnet.out[at[0]].get(lid)
            if port in NO_PORT or not self.subnet.far((at[0], port)):
                break
            way.append((at[0], port))
            turns.append(self.ports[at[0]][port] - self.ports[at[0]][at[1]])
            at = self.subnet.far((at[0], port))
        return [self.end(it) for it in way], turns

    def ways_of(self, number):
        """The way between each two hosts by one of the receiver's LIDs: the first of each, or the second, and so on."""
        hosts = {self.names[it.end]: it for it in self.subnet.hosts}
        pairs = [(a, b) for a in self.fabric.hosts for b in self.fabric.hosts if a != b]
        return {(a, b): self.way(hosts[a], hosts[b].lids[number % len(hosts[b].lids)]) for a, b in pairs}

    def text(self):
        """The text: the fabric, a map and its routes."""
        return f"{self.fabric.text()}map {self.fabric.hosts[0]} {fabrics.MOST_DEPTH} 1\nroutes\nend\n"

    def reports(self):
        """A report for each of the LIDs of a host: the fabric as its own map, the routes of the tables and their ranks,
        which rise along the routes of all reports together."""
        rounds = [self.ways_of(it) for it in range(max(len(it.lids) for it in self.subnet.hosts))]
        ranks = circles.ranks(waiting(way for ways in rounds for way, _ in ways.values()))
        for ways in rounds:
            used = {it: ranks[it] for way, _ in ways.values() for it in way}
            yield "\n".join([*self.map_lines(), *self.route_lines(ways, used), "end injected 0 dropped 0", ""])

    def map_lines(self):
        called = self.called()
        yield f"map {self.fabric.hosts[0]} complete asks 0 packets 0"
        yield from (f"host {it}" for it in self.fabric.hosts)
        yield from (f"switch {called[it]} core" for it in self.fabric.switches)
        yield from (f"cable {end_text(called, a)} {end_text(called, b)}" for a, b in self.fabric.cables)
        yield "endmap"

    def route_lines(self, ways, ranks):
        place, called = {it: at for at, it in enumerate(self.fabric.vertices())}, self.called()
        yield f"routes {len(ways)}"
        yield from (" ".join(["route", *pair, *map(turn, turns)]) for pair, (_, turns) in ways.items())
        ends = sorted(ranks, key=lambda it: (place[it[0]], it[1]))
        yield from (f"rank {end_text(called, it)} {ranks[it]}" for it in ends)
        yield "endroutes"

    def called(self):
        """What the map calls each vertex."""
        numbers = {name: f"#{at}" for at, name in enumerate(self.fabric.switches)}
        return {it: numbers.get(it, it) for it in self.fabric.vertices()}


def waiting(ways):
    """For each channel those for which it may wait: the next ones on some route."""
    after = {}
    for way in ways:
        for end in way:
            after.setdefault(end, {})
        for one, other in zip(way, way[1:]):
            after[one][other] = None
    return after


def end_text(called, end):
    return f"{called[end[0]]} {turn(end[1])}"


def turn(number):
    return f"{number:+d}" if number else "0"
