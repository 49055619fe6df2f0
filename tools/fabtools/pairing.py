"""Which switch of a plan each switch of a map is: the pairing by which the fewest cables differ.

A map names hosts, but numbers switches and counts their ports from one of them. So a switch of the map is paired with one of the
plan and an offset, which port of it the map's port 0 is. The search begins with what hosts and cables speak for, and then
improves switch by switch and offset by offset until nothing helps. As one wrong cable can mislead a beginning, several hosts
are taken as the only ones to be trusted at first, and of all ends the best is kept.
"""

from collections import Counter, defaultdict

from fabtools.report import both_ways

# So many hosts are trusted alone, at most, each in a search of its own.
MOST_STARTS = 16
# So often switches without a place get one by their ports.
MOST_ROUNDS = 3


class Pairing:
    """For vertices of a map their vertex of the plan and the port that their port 0 is; no two have one vertex of the plan."""

    def __init__(self, plan, shown):
        self.plan = plan
        self.at = {it: (it, 0) for it in shown.hosts() if it in plan.hosts}
        self.taken = {it: it for it in self.at}
        self.switches = shown.switches()
        self.links = defaultdict(list)
        for (a, p), (b, q) in both_ways(shown.cables):
            self.links[a].append((p, b, q))
        self.span = {}
        for it in self.switches:
            ports = [p for p, _, _ in self.links[it]] or [0]
            self.span[it] = (min(ports), max(ports))

    def can_be(self, vertex, name, offset):
        """The vertex's cabled ports are ports of that switch."""
        least, most = self.span[vertex]
        return 0 <= least + offset and most + offset < self.plan.ports(name)

    def put(self, vertex, place):
        """Pairs a switch anew, or with nothing."""
        old = self.at.pop(vertex, None)
        if old:
            del self.taken[old[0]]
        if place:
            self.at[vertex] = place
            self.taken[place[0]] = vertex

    def votes(self, vertex, trusted=None):
        """For each place that this switch can have, how many of its cables would be as planned."""
        votes = Counter()
        for p, other, q in self.links[vertex]:
            if other == vertex or other not in self.at or not (trusted is None or other in trusted or other.startswith("#")):
                continue
            name, offset = self.at[other]
            far = self.plan.far((name, offset + q))
            if far and far[0] in self.plan.switches and self.can_be(vertex, far[0], far[1] - p):
                votes[far[0], far[1] - p] += 1
        for place in votes:
            votes[place] += sum(self.is_planned_loop(place, p, q) for p, other, q in self.links[vertex] if other == vertex) // 2
        return votes

    def is_planned_loop(self, place, p, q):
        return self.plan.far((place[0], place[1] + p)) == (place[0], place[1] + q)

    def fits(self, vertices):
        """How many of the map's cables at these vertices are as planned."""
        count = 0
        for vertex in vertices:
            if vertex in self.at:
                name, offset = self.at[vertex]
                for p, other, q in self.links[vertex]:
                    counted = other in vertices and (other, q) < (vertex, p)
                    if other in self.at and not counted:
                        count += self.plan.far((name, offset + p)) == (self.at[other][0], self.at[other][1] + q)
        return count

    def begin(self, trusted=None):
        """Pairs one switch after another, that first for which most speaks; of the hosts only trusted ones do."""
        left = {it for it in self.switches if it not in self.at}
        votes = {it: self.votes(it, trusted) for it in left}
        while left:
            best = max(((count, it, place) for it in left for place, count in votes[it].items() if place[0] not in self.taken), default=None)
            if not best:
                return
            _, vertex, place = best
            self.put(vertex, place)
            left.discard(vertex)
            for _, other, _ in self.links[vertex]:
                if other in left:
                    votes[other] = self.votes(other, trusted)

    def improve(self):
        """Pairs a switch anew where more cables are as planned then, until there is none."""
        while any([self.improve_at(it) for it in self.switches]):
            pass

    def improve_at(self, vertex):
        places = [place for place, _ in self.votes(vertex).most_common() if place != self.at.get(vertex)]
        return any(self.is_better(vertex, place) for place in places)

    def is_better(self, vertex, place):
        """Takes the place for the switch where that is better. Who had it gets the best that is free then."""
        other = self.taken.get(place[0])
        both = {vertex, other} - {None}
        old, before = {it: self.at.get(it) for it in both}, self.fits(both)
        for it in both:
            self.put(it, None)
        self.put(vertex, place)
        if other not in (None, vertex):
            self.put(other, self.best_free(other))
        if self.fits(both) > before:
            return True
        for it in both:
            self.put(it, None)
        for it in both:
            self.put(it, old[it])
        return False

    def best_free(self, vertex):
        return next((place for place, _ in self.votes(vertex).most_common() if place[0] not in self.taken), None)

    def pair_the_rest(self):
        """Pairs switches without one cable as planned by the vertices that their cables lead to."""
        for vertex in self.switches:
            if vertex not in self.at:
                likely = Counter()
                for p, other, _ in self.links[vertex]:
                    for end in self.ends_towards(other):
                        if end[0] not in self.taken and self.can_be(vertex, end[0], end[1] - p):
                            likely[end[0], end[1] - p] += 1
                self.put(vertex, next((place for place, _ in likely.most_common(1)), None))

    def pair_by_ports(self):
        """Pairs the switches that are left by the ports that are cabled, and by what they lead to then; whether there was one."""
        left = [it for it in self.switches if it not in self.at]
        for vertex in left:
            if vertex not in self.at:
                self.put(vertex, self.most_alike(vertex))
                self.begin()
        return bool(left)

    def most_alike(self, vertex):
        """The free place with the most cabled ports at the same numbers."""
        own, alike = {p for p, _, _ in self.links[vertex]}, Counter()
        for name, ports in self.plan.switches.items():
            planned = {it for it in range(ports) if self.plan.far((name, it))}
            for offset in range(-15, 16) if name not in self.taken else ():
                if self.can_be(vertex, name, offset):
                    alike[name, offset] = len(planned & {it + offset for it in own})
        return next((place for place, _ in alike.most_common(1)), None)

    def ends_towards(self, other):
        """The ends of the plan's switches that are cabled with the vertex that `other` is."""
        if other in self.at:
            name = self.at[other][0]
            for port in range(self.plan.ports(name)):
                far = self.plan.far((name, port))
                if far and far[0] in self.plan.switches:
                    yield far


def pairings(plan, shown):
    """Pairings that nothing improves: from what all hosts speak for, and from what some of them do alone."""
    hosts = [it for it in shown.hosts() if it in plan.hosts]
    step = max(1, -(-len(hosts) // MOST_STARTS))
    for trusted in [None, *({it} for it in hosts[::step])]:
        pairing = Pairing(plan, shown)
        pairing.begin(trusted)
        pairing.improve()
        pairing.pair_the_rest()
        pairing.improve()
        yield dict(pairing.at)
        for _ in range(MOST_ROUNDS):
            if pairing.pair_by_ports():
                pairing.improve()
                yield dict(pairing.at)
