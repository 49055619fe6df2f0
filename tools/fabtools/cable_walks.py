"""Random texts of a fabric whose cables are pulled and plugged, and whose routes are given up and installed anew."""

import random

from fabtools import fabric as fabrics
from fabtools import waiting
from fabtools.cable_model import steps
from fabtools.report import Report, Routes


def free_ports(fabric):
    return [(it, port) for it in fabric.vertices() for port in range(fabric.ports(it)) if not fabric.far((it, port))]


def two_free(rng, fabric):
    """Two free ports, the first often a host's; None where fewer are free."""
    free = free_ports(fabric)
    if len(free) < 2:
        return None
    hosts = [it for it in free if it[0] in fabric.hosts]
    a = rng.choice(hosts) if hosts and rng.random() < 0.6 else rng.choice(free)
    return a, rng.choice([it for it in free if it != a])


def some_fabric(rng):
    fabric = fabrics.Fabric()
    for name in "abcde"[: rng.randint(2, 5)]:
        fabric.add_host(name)
    for number in range(rng.randint(1, 4)):
        fabric.add_switch(f"s{number}", rng.choice((4, 4, 4, 8)))
    for _ in range(rng.randint(3, 12)):
        ends = two_free(rng, fabric)
        if ends:
            fabric.add_cable(*ends)
    return fabric


class Script:
    """Lines of a script, with the fabric as it stands after them."""

    def __init__(self, rng, fabric):
        self.rng, self.fabric, self.lines = rng, fabric, []

    def add(self, *lines):
        self.lines += lines

    def map(self):
        host = self.rng.choice(self.fabric.hosts)
        self.add(f"map {host} {min(fabrics.MOST_DEPTH, fabrics.enough_depth(self.fabric, host))} 1", "routes")

    def pull(self):
        a = self.some_port() if self.rng.random() < 0.1 or not self.fabric.cables else self.rng.choice(self.rng.choice(self.fabric.cables))
        self.add(f"pull {a[0]} {a[1]}")
        if self.fabric.far(a):
            self.fabric = self.fabric.after(["pull", a[0], str(a[1]), "done"])

    def plug(self):
        a, b = two_free(self.rng, self.fabric) or (self.some_port(), self.some_port())
        a = self.some_port() if self.rng.random() < 0.1 else a
        words = ["plug", a[0], str(a[1]), b[0], str(b[1])]
        self.add(" ".join(words))
        if a != b and not self.fabric.far(a) and not self.fabric.far(b):
            self.fabric = self.fabric.after([*words, "done"])

    def some_port(self):
        return self.rng.choice([(it, port) for it in self.fabric.vertices() for port in range(self.fabric.ports(it))])

    def send(self):
        sender, receiver = self.rng.sample(self.fabric.hosts, 2)
        length = self.rng.choice((0, 1, 9, 30, 1500))
        if self.rng.random() < 0.9:
            self.add(f"provide {receiver} 0 {waiting.least_size(length)} 0")
        self.add(f"send {sender} 0 {receiver} 0 0 {length} 7")

    def walk(self):
        turns = [str(self.rng.randint(-3, 3)) for _ in range(self.rng.randint(0, 2))]
        self.add(" ".join(["walk", self.rng.choice(self.fabric.hosts), *turns]))

    def renew(self):
        self.map()
        self.add(*["revoke"][: self.rng.random() < 0.8], "install 1")

    def some(self):
        """A line, or a few."""
        one = self.rng.choice("map pull pull plug plug send send send renew renew revoke broken settle walk install".split())
        self.add({"install": "install 1"}.get(one, one)) if one in ("revoke", "broken", "settle", "install") else getattr(self, one)()


def text(seed):
    """A text of the lines that the model knows."""
    rng = random.Random(seed)
    fabric = some_fabric(rng)
    script = Script(rng, fabric)
    script.add(*(f"open {it} 0 64 64" for it in fabric.hosts))
    if rng.random() < 0.8:
        script.renew()
    for _ in range(rng.randint(5, 30)):
        script.some()
    return fabric.text() + "".join(f"{it}\n" for it in [*script.lines, "settle", "broken", "end"])


def stepped(seed, run):
    """A text in which a message is stepped over moved cables, and what its steps must answer; None where no two hosts are joined. `run` gives a text's report."""
    rng = random.Random(seed)
    fabric = some_fabric(rng)
    joined = [it for it in fabric.hosts if it in fabrics.reached(fabric, fabric.hosts[0])]
    if len(joined) < 2:
        return None
    sender, receiver = rng.sample(joined, 2)
    script = Script(rng, fabric)
    script.add(f"map {joined[0]} {min(fabrics.MOST_DEPTH, fabrics.enough_depth(fabric, joined[0]))} 1", "routes", "install 1")
    script.add(f"open {sender} 0 1 0", f"open {receiver} 0 0 1", f"provide {receiver} 0 4 0", f"send {sender} 0 {receiver} 0 0 1 7")
    head = fabric.text() + "".join(f"{it}\n" for it in script.lines)
    routes = Report(run(f"{head}end\n")).of(Routes)
    turns = next((it for a, b, it in routes[0].routes if (a, b) == (sender, receiver)), []) if routes else []
    way = fabrics.follow(fabric, sender, turns)[0] or fabric.cables
    script.lines = []
    new = moved(rng, script, way)
    told = steps(script.fabric, new, sender, receiver, turns)
    return head + "".join(f"{it}\n" for it in [*script.lines, *(line for line, _ in told), "end"]), told


def moved(rng, script, way):
    """Pulls some cables, most of them on the way of a route, and plugs others; those that are new then."""
    new = set()
    for _ in range(rng.randint(1, 4)):
        a = rng.choice(rng.choice(way[1:] if way[1:] and rng.random() < 0.7 else script.fabric.cables or way))
        b = script.fabric.far(a)
        if b:
            script.add(f"pull {a[0]} {a[1]}")
            script.fabric = script.fabric.after(["pull", a[0], str(a[1]), "done"])
            new.discard(frozenset((a, b)))
        if b and rng.random() < 0.8:
            b = b if rng.random() < 0.5 else rng.choice([it for it in free_ports(script.fabric) if it != a])
            script.add(f"plug {a[0]} {a[1]} {b[0]} {b[1]}")
            script.fabric = script.fabric.after(["plug", a[0], str(a[1]), b[0], str(b[1]), "done"])
            new.add(frozenset((a, b)))
    return new
