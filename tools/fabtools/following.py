"""Routes by tables: every host to every LID, which channel waits for which on the way, and where a route fails.

A channel is an end that packets leave, with the lane that they take there. This is plain Python, and not proved.
"""

from collections import Counter

from fabtools.lanes import DROPPED
from fabtools.subnet import NO_PORT, by_switch, guid_of

ARRIVES, PENDING = "arrives", "pending"


class Fault:
    """Hosts whose routes to a LID of another fail in the same way: its kind, and what happens where."""

    def __init__(self, kind, text, end=None, way=()):
        self.kind, self.text, self.end, self.way = kind, text, end, way


class Followed:
    """What the tables do with every route: `after` has for each channel those that may come next, with a sender, its
    receiver and the LID that show it; `faults` has senders, receiver, LID and fault; `loads` counts them by channel."""

    def __init__(self, subnet, lanes=None):
        self.subnet, self.lanes, self.sources = subnet, lanes, by_switch(subnet)
        self.after, self.faults, self.loads, self.count, self.lids = {}, [], Counter(), 0, 0
        for receiver in subnet.hosts:
            for lid in receiver.lids:
                self.lids += 1
                self.towards(receiver, lid)

    def towards(self, receiver, lid):
        """All routes to one LID."""
        known = {}
        for state, senders in self.starts(receiver, lid):
            fate = self.walk(state, senders[0], receiver, lid, known)
            self.count += len(senders)
            if fate is not ARRIVES:
                self.faults.append((senders, receiver, lid, fate))
            else:
                self.add_loads(state, len(senders), known)

    def starts(self, receiver, lid):
        """Where routes enter the network, each with the hosts that are routed alike from there."""
        for end, hosts in self.sources.items():
            senders = [it for it in hosts if it is not receiver]
            if senders and self.lanes is None:
                yield (*end, 0), senders
            elif senders:
                yield from self.by_level(senders, lid)

    def by_level(self, senders, lid):
        for sender in senders:
            for level in self.lanes.level(sender, lid):
                yield (*self.subnet.far(sender.end), level), [sender]

    def walk(self, state, sender, receiver, lid, known):
        """How a route ends that comes to a switch; what the switches on its way do with it is known from then on."""
        before, trail = None, []
        while True:
            if not self.subnet.nodes[state[0]].is_switch:
                fate = self.arrival(state[:2], receiver)
                break
            seen = known.get(state)
            channel, following = seen[:2] if seen else self.step(state, lid)
            if before and channel:
                self.after.setdefault(before, {}).setdefault(channel, (sender, receiver, lid))
            if seen:
                fate = self.round(trail[trail.index(state) :], known) if seen[2] is PENDING else seen[2]
                break
            known[state] = channel, following, PENDING
            trail.append(state)
            if channel is None:
                fate = following
                break
            before, state = channel, following
        for it in trail:
            known[it] = (*known[it][:2], fate)
        return fate

    def arrival(self, end, receiver):
        return ARRIVES if end == receiver.end else Fault("astray", f"it comes to {self.subnet.end_text(end)}", end)

    def step(self, state, lid):
        """The channel by which a switch sends a LID on, and where that leads; or none, and the fault."""
        key, enters, level = state
        name, port = self.subnet.names[key], self.subnet.out[key].get(lid)
        if port in NO_PORT:
            return None, Fault("no entry", f"{name} has no entry for it", (key, 0))
        if port == 0:
            return None, Fault("kept", f"{name} keeps it", (key, 0))
        far = self.subnet.far((key, port))
        if far is None:
            return None, Fault("no cable", f"{name} sends it out of port {port}, which has no cable", (key, port))
        lane = self.lanes.lane(guid_of(self.subnet.nodes[key]), name, enters, port, level) if self.lanes else 0
        if lane == DROPPED:
            said = f"{name} drops service level {level} from port {enters} to port {port}"
            return None, Fault("dropped", said, (key, port))
        is_switch = self.subnet.nodes[far[0]].is_switch
        return (key, port, lane), (far[0], far[1] if self.lanes or not is_switch else 0, level)

    def round(self, trail, known):
        """A route that comes to a switch a second time."""
        way = [known[it][0][:2] for it in trail]
        return Fault("round", "it goes round " + ", ".join(map(self.subnet.end_text, way)), way[0], way)

    def add_loads(self, state, count, known):
        while state in known:
            channel, state, _ = known[state]
            self.loads[channel[:2]] += count

    def lost(self):
        """How many routes don't lead to their host."""
        return sum(len(it[0]) for it in self.faults)
