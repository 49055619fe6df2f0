"""The text of a fabric and its script, as the program reads it: names, ports, cables, and the script's lines as words."""

import errno
import sys
from pathlib import Path

from fabtools.forms import FABRIC_FORMS, MOST_DEPTH, MOST_HOSTS, MOST_SWITCHES, NAME, PORT_COUNTS, SCRIPT_FORMS, Fault
from fabtools.forms import check_count, name, nearest, number, past_the_last, saying, shown

# A switch of a fabric that isn't bound may have as many ports as InfiniBand has numbers for them.
MOST_PORTS = 254
__all__ = ["MOST_DEPTH", "MOST_HOSTS", "MOST_SWITCHES", "NAME", "PORT_COUNTS", "Fault"]


def load(path=None):
    """The text of a file, or of standard input without one and for `-`, each byte a character."""
    try:
        read = sys.stdin.buffer.read() if path in (None, "-") else Path(path).read_bytes()
    except OSError as error:
        raise OSError(error.errno, error.strerror, path or "standard input") from None
    except ValueError as error:
        raise OSError(errno.EINVAL, str(error), path) from None
    return read.decode("latin-1")


def save(path, text):
    """Writes a text into a file."""
    try:
        Path(path).write_text(text)
    except OSError as error:
        raise OSError(error.errno, error.strerror, path) from None


class Names(list):
    """Names in their order, of which one is found at once."""

    def __init__(self):
        super().__init__()
        self.known = set()

    def append(self, name):
        super().append(name)
        self.known.add(name)

    def __contains__(self, name):
        return name in self.known


class Fabric:
    """Hosts by name, switches by name with their ports, and cables as pairs of ends (name, port). Where it isn't bound it may
    be larger than the program takes."""

    def __init__(self, is_bound=True):
        self.hosts, self.switches, self.cables, self.script = Names(), {}, [], []
        self.far_ends, self.is_bound = {}, is_bound

    def ports(self, name):
        """The number of ports of a vertex, 0 where there is none of this name."""
        return 1 if name in self.hosts else self.switches.get(name, 0)

    def far(self, end):
        """The end at the other side of the cable at this end, or None."""
        return self.far_ends.get(end)

    def vertices(self):
        return self.hosts + list(self.switches)

    def add_host(self, name):
        self.hosts.append(name)

    def add_switch(self, name, ports):
        self.switches[name] = ports

    def add_cable(self, a, b):
        self.cables.append((a, b))
        self.far_ends[a], self.far_ends[b] = b, a

    def after(self, words):
        """The fabric after a line of a report: another one where a cable was pulled or plugged."""
        if words[0] not in ("pull", "plug") or words[-1] != "done":
            return self
        ends = [(words[at], int(words[at + 1])) for at in range(1, len(words) - 1, 2)]
        if any(port >= self.ports(vertex) for vertex, port in ends):
            return self
        changed = Fabric(self.is_bound)
        changed.hosts, changed.switches, changed.script = self.hosts, self.switches, self.script
        for cable in self.cables:
            if words[0] == "plug" or ends[0] not in cable:
                changed.add_cable(*cable)
        if words[0] == "plug":
            changed.add_cable(*ends)
        return changed

    def lost_since(self, before):
        """The cables that an earlier fabric of a run has and this one lacks, as sets of two ends; none where it is the same one."""
        return set() if self is before else {frozenset(it) for it in before.cables if it not in self.cables}

    def without_planned(self):
        """The fabric without the cables that a planned pull of the script may have taken: no line says whether it did."""
        fabric = self
        for _, words in self.script:
            if words[:2] == ["plan", "pull"]:
                fabric = fabric.after(["pull", *words[3:5], "done"])
        return fabric

    def text(self):
        """The fabric's lines, up to the line `script`."""
        lines = [f"host {it}" for it in self.hosts]
        lines += [f"switch {name} {ports}" for name, ports in self.switches.items()]
        lines += [f"cable {a} {p} {b} {q}" for (a, p), (b, q) in self.cables]
        return "\n".join([*lines, "script", ""])


def check_new(fabric, line, new):
    if fabric.ports(new):
        what = "host" if new in fabric.hosts else "switch"
        raise Fault(line, "nametaken", f"{shown(new)} is the name of a {what} that stands above")


def check_end(fabric, line, end):
    """The vertex of an end is there, and has its port."""
    vertex, port = end
    if not fabric.ports(vertex):
        raise Fault(line, "novertex", f"no host or switch {shown(vertex)} stands above{nearest(vertex, fabric.vertices())}")
    if port >= fabric.ports(vertex):
        has = "port 0 alone" if vertex in fabric.hosts else f"ports 0 to {fabric.ports(vertex) - 1}"
        raise Fault(line, "portrange", f"{shown(vertex)} has no port {port}: it has {has}")


def check_ends(fabric, line, ends):
    """Ends are there: first the vertex of each, then each port."""
    for vertex, _ in ends:
        if not fabric.ports(vertex):
            check_end(fabric, line, (vertex, 0))
    for end in ends:
        check_end(fabric, line, end)


def host_line(fabric, line, words):
    new = name(line, words[0])
    check_new(fabric, line, new)
    if fabric.is_bound and len(fabric.hosts) == MOST_HOSTS:
        raise Fault(line, "full", f"a fabric has at most {MOST_HOSTS} hosts")
    fabric.add_host(new)


def switch_line(fabric, line, words):
    new, ports = name(line, words[0]), number(line, "PORTS", words[1])
    if ports not in PORT_COUNTS and (fabric.is_bound or not 1 <= ports <= MOST_PORTS):
        raise Fault(line, "portrange", f"a switch has 4, 8 or 16 ports, and not {ports}")
    check_new(fabric, line, new)
    if fabric.is_bound and len(fabric.switches) == MOST_SWITCHES:
        raise Fault(line, "full", f"a fabric has at most {MOST_SWITCHES} switches")
    fabric.add_switch(new, ports)


def cable_line(fabric, line, words):
    most = None if fabric.is_bound else MOST_PORTS - 1
    ends = [(name(line, words[at]), number(line, field, words[at + 1], most)) for at, field in ((0, "P"), (2, "Q"))]
    check_ends(fabric, line, ends)
    for end in ends:
        if fabric.far(end):
            raise Fault(line, "portused", f"port {end[1]} of {end[0]} has a cable already, to port {'{1} of {0}'.format(*fabric.far(end))}")
    if ends[0] == ends[1]:
        raise Fault(line, "portused", "both ends are one port")
    fabric.add_cable(*ends)


LINES = {"host": host_line, "switch": switch_line, "cable": cable_line}


def no_such_line(first, words):
    if first == "script":
        return "the line 'script' has no further word"
    if first in {it.split()[0] for it in SCRIPT_FORMS}:
        return f"{shown(first)} is a line of the script, and stands before the line 'script'"
    return f"{shown(first)} begins no line of a fabric{nearest(first, words)}"


def read(text, is_bound=True):
    """The fabric of a text with the words of its script's lines; raises Fault at its first fault in the fabric's part. Where it
    isn't bound it may be larger than the program takes."""
    fabric, scripted = Fabric(is_bound), False
    for line, words in saying(text):
        if scripted:
            fabric.script.append((line, words))
        elif words == ["script"]:
            scripted = True
        elif words[0] in LINES:
            check_count(line, words[0], words[1:], FABRIC_FORMS)
            LINES[words[0]](fabric, line, words[1:])
        else:
            raise Fault(line, "badword", no_such_line(words[0], FABRIC_FORMS))
    if not scripted:
        raise Fault(past_the_last(text), "noend", "the line 'script' is missing")
    return fabric


def follow(fabric, host, turns):
    """The way of a walk from a host: the ends that it leaves by and enters, in pairs, and whether it was stuck."""
    way, at = [], (host, 0)
    for turn in [*turns, None]:
        to = fabric.far(at)
        if not to:
            return way, True
        way.append((at, to))
        if turn is None:
            return way, False
        if to[0] in fabric.hosts or not 0 <= to[1] + turn < fabric.ports(to[0]):
            return way, True
        at = (to[0], to[1] + turn)
    return way, False


def reached(fabric, host):
    """The vertices that cables join to a host, with their distance in cables."""
    near, todo = {host: 0}, [host]
    while todo:
        vertex = todo.pop(0)
        for port in range(fabric.ports(vertex)):
            far = fabric.far((vertex, port))
            if far and far[0] not in near:
                near[far[0]] = near[vertex] + 1
                todo.append(far[0])
    return near


def enough_depth(fabric, host):
    """Q + D + 1 of a host's part: a map to this depth can't be cut off."""
    return farthest_from_hosts(fabric, host) + max(reached(fabric, host).values()) + 1


def farthest_from_hosts(fabric, host):
    """Q of a host's part: how far its farthest switch is from the host nearest to it."""
    near, todo = {}, [it for it in reached(fabric, host) if it in fabric.hosts]
    near.update(dict.fromkeys(todo, 0))
    while todo:
        vertex = todo.pop(0)
        for port in range(fabric.ports(vertex)):
            far = fabric.far((vertex, port))
            if far and far[0] not in near:
                near[far[0]] = near[vertex] + 1
                todo.append(far[0])
    return max(near.values())


def least_depth(fabric, host):
    """A map to less than this depth is cut off: each switch of the host's part must be nearer than that."""
    return max([distance + 1 for it, distance in reached(fabric, host).items() if it in fabric.switches], default=1)


def deep_hosts(fabric, host):
    """The hosts of a host's part from which the greatest depth surely suffices; where none does, those from which it may."""
    part = [it for it in reached(fabric, host) if it in fabric.hosts]
    sure = [it for it in part if enough_depth(fabric, it) <= MOST_DEPTH]
    return sure, [it for it in part if least_depth(fabric, it) <= MOST_DEPTH]
