"""What differs between a plan and a map: parts that are missing or unplanned, and cables that are, or that end elsewhere."""

from fabtools.pairing import pairings
from fabtools.report import real_end


class Difference:
    """One difference: its sentence, the plan's vertices and cables that it is about, and the map's cables in the plan's names."""

    def __init__(self, text, vertices=(), meant=(), found=()):
        self.text, self.vertices, self.meant, self.found = text, list(vertices), list(meant), list(found)


def end_text(end):
    return f"{end[0]}:{end[1]}"


def cable_text(cable):
    return " - ".join(end_text(it) for it in sorted(cable))


def listed(words):
    return ", ".join(words[:-1]) + " and " + words[-1] if len(words) > 1 else words[0]


class Compared:
    """A plan and a map by one pairing."""

    def __init__(self, plan, shown, at):
        self.plan, self.shown, self.at = plan, shown, at
        there = {it[0] for it in at.values()}
        self.missing = [it for it in plan.vertices() if it not in there]
        self.unplanned = [self.name(it) for it in shown.vertices if it not in at]
        meant = [frozenset(it) for it in plan.cables]
        built = [frozenset(self.end(it) for it in cable) for cable in shown.cables]
        self.gone = [it for it in meant if it not in set(built)]
        self.new = [it for it in built if it not in set(meant)]

    def name(self, vertex):
        """What a vertex of the map that has no place is called."""
        return f"{vertex} of the map" if vertex.startswith("#") else vertex

    def end(self, end):
        return real_end(self.at, end) or (self.name(end[0]), end[1])

    def kind(self, name):
        return "switch" if name in self.plan.switches or name.startswith("#") else "host"

    def differences(self):
        gone, new = set(self.gone), set(self.new)
        found = [*self.parts(self.missing, gone, "missing"), *self.parts(self.unplanned, new, "not in the plan")]
        found += [self.moved(*it) for it in moves(gone, new, self.plan.hosts)]
        found += [Difference(f"missing: cable {cable_text(it)}", meant=[it]) for it in sorted(gone, key=sorted)]
        return found + [Difference(f"not in the plan: cable {cable_text(it)}", found=[it]) for it in sorted(new, key=sorted)]

    def parts(self, vertices, cables, what):
        """What is missing or unplanned, by parts that its cables join, each with the cables that join it to the rest."""
        left = list(vertices)
        while left:
            part, todo = [], [left[0]]
            while todo:
                it = todo.pop()
                if it in left:
                    left.remove(it)
                    part.append(it)
                    todo += [end[0] for cable in cables for end in cable if it in ends_of(cable)]
            own = [it for it in cables if ends_of(it) & set(part)]
            cables.difference_update(own)
            part.sort(key=vertices.index)
            yield self.part(part, sorted(own, key=sorted), what)

    def part(self, part, cables, what):
        names = []
        for kind in ("switch", "host"):
            of_kind = [it for it in part if self.kind(it) == kind]
            plural = "es" if kind == "switch" else "s"
            if of_kind:
                names.append(f"{kind}{plural[: 2 * (len(of_kind) > 1)]} {', '.join(of_kind)}")
        outer = [cable_text(it) for it in cables if ends_of(it) - set(part)]
        joined = f", with cable{'s'[: len(outer) > 1]} {listed(outer)}" if outer else ""
        planned = what == "missing"
        return Difference(f"{what}: {', '.join(names)}{joined}", part, cables if planned else (), () if planned else cables)

    def moved(self, cable, other):
        kept = min(cable & other, key=lambda it: (it[0] not in self.plan.hosts, it))
        (meant,), (found,) = cable - {kept}, other - {kept}
        what = "wrong port" if meant[0] == found[0] else "wrong end"
        text = f"{what}: the cable from {end_text(kept)} goes to {end_text(found)}, and the plan says {end_text(meant)}"
        return Difference(text, meant=[cable], found=[other])


def ends_of(cable):
    return {it[0] for it in cable}


def moves(gone, new, hosts):
    """Pairs of a planned cable and one that is there and has one end of it, as many as can be; takes them out of both sets.

    Those that have a host's end in common come first, and then those that lead to another port of the same switch.
    """
    def near(cable):
        return sorted((it for it in new if len(cable & it) == 1), key=lambda it: (not is_host(cable & it), len(ends_of(cable | it)), sorted(it)))

    def is_host(ends):
        return any(it[0] in hosts for it in ends)

    def take(cable, seen):
        for other in choices[cable]:
            if other not in seen:
                seen.add(other)
                if other not in whose or take(whose[other], seen):
                    whose[other] = cable
                    return True
        return False

    choices, whose = {it: near(it) for it in gone}, {}
    for cable in sorted(gone, key=lambda it: (not is_host(it), sorted(it))):
        take(cable, set())
    gone.difference_update(whose.values())
    new.difference_update(whose)
    return sorted(((cable, other) for other, cable in whose.items()), key=lambda it: sorted(it[0]))


def find(plan, shown):
    """The differences between a plan and a map: of the pairings with the fewest cables that differ, those by one with the fewest."""
    best, least = None, None
    for at in pairings(plan, shown):
        compared = Compared(plan, shown, at)
        found = compared.differences()
        cost = (len(compared.gone) + len(compared.new), len(found))
        if least is None or cost < least:
            best, least = found, cost
        if not best:
            break
    return best
