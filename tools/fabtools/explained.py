"""What tools/explain says of a report's lines: as facts for another program, and as lines of text."""

import json
from collections import Counter

from fabtools import fabric as fabrics
from fabtools import meanings, script
from fabtools.forms import LONGEST_TEXT
from fabtools.report import place, real_end
from fabtools.routing import channel_text, end_text
from fabtools.words import counted

# So many entries of a list are told in brief.
FEW = 6


def as_json(facts):
    return json.dumps(facts.facts(), indent=1)


def cut_short(words, is_brief, between=" "):
    """The words in a row; in brief the first ones, and how many more there are."""
    if is_brief and len(words) > FEW:
        return f"{between.join(words[:FEW])} and {len(words) - FEW} more"
    return between.join(words)


class Refusal:
    """A text that isn't run: for a fault, or for its size."""

    def __init__(self, text, fault):
        self.text, self.fault, self.is_large = text, fault, len(text) > LONGEST_TEXT

    def report_lines(self):
        return [] if self.is_large else [["refused", str(self.fault.line), self.fault.kind]]

    def has_faults(self):
        return False

    def facts(self):
        if self.is_large:
            return {"kind": "too large", "bytes": len(self.text), "status": 7}
        return {"kind": "refused", "line": self.fault.line, "fault": self.fault.kind, "told": list(script.told(self.text, self.fault)), "status": 3}

    def lines(self):
        if self.is_large:
            size = f"the text has {len(self.text):,} bytes, and a text at most {LONGEST_TEXT:,}"
            return [f"{size}: the program ends with status 7", "nothing was run"]
        return [*script.told(self.text, self.fault), "nothing was run"]


class MapFacts:
    """A map, or a map of circuit links, laid over its fabric."""

    def __init__(self, fabric, shown):
        self.fabric, self.shown, self.at = fabric, shown, place(fabric, shown)
        self.is_circuit = not hasattr(shown, "packets")
        self.seen = {self.at[it][0] for it in shown.vertices if it in self.at}

    def twice(self):
        """Switches that an incomplete map shows more than once."""
        names = Counter(self.at[it][0] for it in self.shown.vertices if it in self.at)
        return {name: count for name, count in names.items() if count > 1}

    def missing(self):
        """What of the fabric isn't on the map, with its distance from the mapper, or None where no cables lead to it."""
        if self.is_circuit or not self.shown.vertices:
            return {}
        near = fabrics.reached(self.fabric, self.shown.host)
        return {it: near.get(it) for it in self.fabric.vertices() if it not in self.seen}

    def missing_cables(self):
        """The cables of the fabric between vertices of the map that aren't on it."""
        if self.is_circuit or not self.shown.vertices:
            return []
        ends = {frozenset((real_end(self.at, a), real_end(self.at, b))) for a, b in self.shown.cables if a[0] in self.at and b[0] in self.at}
        return [it for it in self.fabric.cables if it[0][0] in self.seen and it[1][0] in self.seen and frozenset(it) not in ends]

    def facts(self):
        shown = self.shown
        told = {"line": shown.line, "kind": "circuit" if self.is_circuit else "map", "host": shown.host, "asks": shown.asks}
        if self.is_circuit:
            told["depth"] = shown.depth
        else:
            told.update(words=shown.words, packets=shown.packets, enough_depth=fabrics.enough_depth(self.fabric, shown.host))
        told["switches"] = [self.switch_facts(it) for it in shown.switches()]
        told["missing"] = [{"vertex": it, "cables_away": away} for it, away in self.missing().items()]
        told["missing_cables"] = [list(map(end_text, it)) for it in self.missing_cables()]
        return told

    def switch_facts(self, vertex):
        name, port = self.at.get(vertex, ("?", 0))
        return {"number": vertex, "name": name, "port_0": port, "core": self.shown.core[vertex]}

    def lines(self, is_brief):
        told = self.circuit_head() if self.is_circuit else self.map_head()
        if is_brief:
            switches, hosts = self.shown.switches(), self.shown.hosts()
            told.append(f"  {counted(len(switches), 'switch', 'switches')}, {counted(len(hosts), 'host')}, {counted(len(self.shown.cables), 'cable')}")
        else:
            told += map(self.switch_line, self.shown.switches())
        told += [f"  {it} is shown {count} times: the map is too shallow to see that these are one switch" for it, count in self.twice().items()]
        return told + self.missing_lines(is_brief)

    def map_head(self):
        shown = self.shown
        depth = meanings.of_depth(self.fabric, shown.host, shown.words == "complete")
        return [
            f"line {shown.line}: map {shown.host} {shown.words}",
            f"  {meanings.of_map(shown.words, shown.host)}",
            f"  {counted(shown.asks, 'ask')} by {counted(shown.packets, 'packet')}; {depth}",
        ]

    def circuit_head(self):
        shown = self.shown
        return [
            f"line {shown.line}: circuit {shown.host} depth {shown.depth}",
            f"  mapped as over circuit links, {counted(shown.depth, 'cable')} deep, by {counted(shown.asks, 'ask')} and no packet; the map leaves out what is outside",
            "  nothing in it shows whether that is deep enough; one more than the number of the core's cables always is",
        ]

    def switch_line(self, vertex):
        name, port = self.at.get(vertex, ("?", 0))
        side = "" if self.shown.core[vertex] else "; outside the core: behind one cable, on a side without hosts"
        return f"  {vertex} is {name}, and its port 0 is port {port} of {name}{side}"

    def missing_lines(self, is_brief):
        missing, cables = self.missing(), [f"{end_text(a)} - {end_text(b)}" for a, b in self.missing_cables()]
        if not is_brief:
            return [self.missing_line(*it) for it in missing.items()] + [f"  the cable {it} isn't on the map" for it in cables]
        told = []
        for why, names in (
            (f"no cables lead to them from {self.shown.host}", [it for it, away in missing.items() if away is None]),
            ("though cables lead to them", [it for it, away in missing.items() if away is not None]),
        ):
            if names:
                told.append(f"  not on the map, {why}: {cut_short(names, True)}")
        return told + ([f"  cables not on the map: {cut_short(cables, True, ', ')}"] if cables else [])

    def missing_line(self, vertex, away):
        host = self.shown.host
        if away is None:
            return f"  {vertex} isn't on the map: no cables lead to it from {host}"
        if vertex not in fabrics.reached(self.fabric.without_planned(), host):
            return f"  {vertex} isn't on the map: a planned pull may have taken a cable on the way ({away} from {host})"
        return f"  {vertex} isn't on the map, though cables lead to it ({away} from {host})"


class RoutesFacts:
    """All that is said of routes."""

    def __init__(self, routed):
        self.routed = routed

    def facts(self):
        return self.routed.facts()

    def lines(self, is_brief):
        routed = self.routed
        told = [f"line {routed.line}: {counted(len(routed.routes), 'route')}"]
        if not is_brief:
            told += [f"  {it.line()}" for it in routed.routes]
        lengths = routed.lengths()
        told += self.rank_lines()
        told.append("  cables crossed: " + ", ".join(f"{lengths[it]} routes cross {it}" for it in sorted(lengths)))
        return told + self.detour_lines() + self.load_lines(is_brief)

    def rank_lines(self):
        faults = self.routed.faults()
        if faults:
            return [f"  WRONG: {it}" for it in faults]
        return [
            f"  checked again: each route leads to its host, and the {len(self.routed.ranks)} ranks rise along all of them,",
            "  so no packets on these routes can deadlock",
        ]

    def detour_lines(self):
        detours, longest = self.routed.detours(), self.routed.longest_detour()
        if not any(it > 0 for it in detours):
            return ["  each route is a shortest way"] if detours else []
        more = ", ".join(f"{detours[it]} cross {it} more" for it in sorted(detours) if it > 0)
        return [
            f"  detours: {detours[0]} routes are a shortest way, {more}; most from {longest.sender} to {longest.receiver},"
            f" {len(longest.way)} cables in place of {longest.shortest}"
        ]

    def load_lines(self, is_brief):
        load = self.routed.load
        if not load:
            return []
        most = max(load.values())
        busiest = sorted(it for it in load if load[it] == most)
        unused = [channel_text(it) for it in self.routed.unused()]
        return [
            f"  busiest, with {counted(most, 'route')}: " + cut_short(list(map(channel_text, busiest)), is_brief),
            "  used by no route: " + (cut_short(unused, is_brief) or "none"),
        ]


class BrokenFacts:
    """The installed routes that cross a pulled cable, and what to do about them."""

    def __init__(self, broken):
        self.broken = broken

    def facts(self):
        return {"line": self.broken.line, "kind": "broken", "pairs": [list(it) for it in self.broken.pairs]}

    def lines(self, is_brief):
        pairs = [f"{sender} to {receiver}" for sender, receiver in self.broken.pairs]
        if not pairs:
            return [f"line {self.broken.line}: no installed route crosses a pulled cable"]
        return [
            f"line {self.broken.line}: {counted(len(pairs), 'installed route')} cross{'es'[: 2 * (len(pairs) == 1)]} a pulled cable",
            f"  {cut_short(pairs, is_brief, ', ')}",
            f"  {meanings.BROKEN}",
        ]


class LineFacts:
    """Another line of a report, with what it means."""

    def __init__(self, line, words, meaning):
        self.line, self.words, self.meaning = line, words, meaning

    def facts(self):
        return {"line": self.line, "kind": "line", "words": self.words, "meaning": self.meaning}

    def lines(self, is_brief):
        return [f"line {self.line}: {' '.join(self.words)}", *(f"  {it}" for it in self.meaning)]
