"""What is asked of tools/explain, and the facts that answer it."""

from fabtools import meanings, restarts, waiting
from fabtools.entry import Failure
from fabtools.explained import BrokenFacts, LineFacts, MapFacts, RoutesFacts
from fabtools.report import Broken, CircuitMap, Map, Routes
from fabtools.routing import Routed, channel_text, end_text, load_facts, shortest_way, way_text
from fabtools.words import counted


class NoSuchThing(Failure):
    """What was asked for isn't in the text or its report."""


def facts(fabric, report, asked):
    if asked.pair:
        return Pair(last_routes(fabric, report), *asked.pair)
    if asked.cable:
        return Cable(last_routes(fabric, report), asked.cable)
    if asked.loads:
        return Loads(last_routes(fabric, report))
    return Whole(fabric, report, asked.brief)


def routed(fabric, report):
    """The items of a report, its maps laid over the fabric, and its routes as followed through it by the last map before them."""
    shown = last = None
    for item, standing in report.standing(fabric):
        if isinstance(item, (Map, CircuitMap)):
            laid = MapFacts(standing, item)
            shown, last = (item, laid) if isinstance(item, Map) else (shown, last)
            yield laid
        elif isinstance(item, Routes):
            if shown:
                yield Routed(last.fabric, shown, last.at, item, set(map(frozenset, report.moves(fabric, shown.line)[0])))
        else:
            yield item


def last_routes(fabric, report):
    found = [it for it in routed(fabric, report) if isinstance(it, Routed)]
    if not found:
        raise NoSuchThing("the report has no routes")
    return found[-1]


class Whole:
    """All of a report, or all in brief."""

    def __init__(self, fabric, report, is_brief):
        self.items, self.is_brief = [], is_brief
        waits = waiting.after_settles(fabric, report.items)
        told = restarts.pairs(fabric.script, report.items)
        for item in routed(fabric, report):
            if isinstance(item, MapFacts):
                self.items.append(item)
            elif isinstance(item, Routed):
                self.items.append(RoutesFacts(item))
            elif isinstance(item, Broken):
                self.items.append(BrokenFacts(item))
            elif meanings.of_line(item[1]):
                line, words = item
                self.items.append(LineFacts(line, words, waits.get(line) or [meanings.of_line(words)]))
        if told:
            self.items.append(restarts.Restarts(told))

    def facts(self):
        return {"items": [it.facts() for it in self.items]}

    def lines(self):
        return [line for it in self.items for line in it.lines(self.is_brief)]

    def has_faults(self):
        return any(it.routed.faults() for it in self.items if isinstance(it, RoutesFacts))


class Pair:
    """The routes between two hosts, there and back."""

    def __init__(self, routed, a, b):
        self.routed = routed
        for host in (a, b):
            if host not in routed.fabric.hosts:
                raise NoSuchThing(f"the text has no host {host}; its hosts: {' '.join(routed.fabric.hosts)}")
        self.found = {(a, b): routed.of(a, b), (b, a): routed.of(b, a)}

    def facts(self):
        return {"routes": [{**it.facts(), "pulled": self.routed.is_cut(it)} for it in self.found.values() if it]}

    def lines(self):
        return [line for (sender, receiver), it in self.found.items() for line in self.route_lines(sender, receiver, it)]

    def route_lines(self, sender, receiver, route):
        if not route:
            yield f"{sender} to {receiver}: the report has no such route"
            return
        more = f"{route.detour()} more than the shortest way" if route.detour() else "a shortest way"
        cut = "; a cable of it is gone" if self.routed.is_cut(route) else ""
        yield f"{sender} to {receiver}: {counted(len(route.way), 'cable')}, {more}{cut}"
        wide = max(map(len, map(channel_text, route.way)))
        for it in route.way:
            gone = ", pulled since" if frozenset(it) in self.routed.pulled else ""
            yield f"  {channel_text(it):{wide}}  rank {self.routed.ranks.get(it[0], '?')}, on {counted(self.routed.load[it], 'route')}{gone}"
        if route.detour():
            yield f"  a shortest way: {way_text(shortest_way(self.routed.fabric, sender, receiver))}"

    def has_faults(self):
        return any(True for it in self.found.values() if it for _ in self.routed.faults_of(it))


class Cable:
    """The routes that cross a cable, in both directions."""

    def __init__(self, routed, word):
        vertex, colon, port = word.partition(":")
        fabric = routed.fabric
        if not colon or not port.isdigit() or int(port) >= fabric.ports(vertex):
            raise NoSuchThing(f"{word} is no port of the text, as V:P")
        end = (vertex, int(port))
        far = fabric.far(end)
        if not far:
            raise NoSuchThing(f"no cable is at {word}")
        self.channels = [(end, far), (far, end)]
        self.across = {it: routed.across(it) for it in self.channels}
        self.is_gone = frozenset(self.channels[0]) in routed.pulled

    def facts(self):
        pairs = {it: [[route.sender, route.receiver] for route in self.across[it]] for it in self.channels}
        return {"channels": [{"channel": channel_text(it), "pairs": pairs[it], "pulled": self.is_gone} for it in self.channels]}

    def lines(self):
        told = [f"the cable {end_text(self.channels[0][0])} - {end_text(self.channels[0][1])}{', pulled since' * self.is_gone}"]
        for channel in self.channels:
            told.append(f"  {channel_text(channel)}: {counted(len(self.across[channel]), 'route')}")
            senders = dict.fromkeys(it.sender for it in self.across[channel])
            for sender in senders:
                told.append(f"    {sender} to {', '.join(it.receiver for it in self.across[channel] if it.sender == sender)}")
        return told

    def has_faults(self):
        return False


class Loads:
    """How many routes cross each channel."""

    def __init__(self, routed):
        self.loads = routed.loads()

    def facts(self):
        return {"loads": load_facts(self.loads)}

    def lines(self):
        return ["routes  channel", *(f"{count:6}  {channel_text(it)}" for it, count in self.loads)]

    def has_faults(self):
        return False
