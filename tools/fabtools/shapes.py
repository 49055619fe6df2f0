"""Fabrics of known shapes: fat trees of two and three levels, tori, rings, dragonflies, and random ones."""

from itertools import product
from random import Random

from fabtools.fabric import MOST_HOSTS, MOST_SWITCHES, PORT_COUNTS, Fabric


class Misfit(Exception):
    """Why a shape is no fabric of the program."""


class Builder:
    """A fabric that grows by vertices, and by cables at the least ports that are free."""

    def __init__(self, ports):
        if ports not in PORT_COUNTS:
            raise Misfit(f"a switch has 4, 8 or 16 ports, and not {ports}")
        self.fabric, self.ports, self.next = Fabric(), ports, {}

    def switch(self, name):
        if len(self.fabric.switches) == MOST_SWITCHES:
            raise Misfit(f"that is more than {MOST_SWITCHES} switches")
        self.fabric.add_switch(name, self.ports)
        return name

    def hosts_at(self, switch, count):
        """So many hosts at a switch, numbered on from those before."""
        for _ in range(count):
            if len(self.fabric.hosts) == MOST_HOSTS:
                raise Misfit(f"that is more than {MOST_HOSTS} hosts")
            host = f"h{len(self.fabric.hosts)}"
            self.fabric.add_host(host)
            self.join(host, switch)

    def join(self, one, other):
        self.fabric.add_cable(self.free(one), self.free(other))

    def free(self, name):
        port = self.next.get(name, 0)
        if port == self.fabric.ports(name):
            raise Misfit(f"{name} has no port left: its {self.fabric.ports(name)} ports have cables")
        self.next[name] = port + 1
        return name, port

    def has_free(self, name):
        return self.next.get(name, 0) < self.fabric.ports(name)


def least_ports(needed):
    """The least switch with so many ports."""
    for ports in PORT_COUNTS:
        if ports >= needed:
            return ports
    raise Misfit(f"a switch would need {needed} ports, and 16 are the most")


def fat_tree(ports, leaves=None):
    """Leaves with half of their ports down, and a spine for each port up, at which each leaf is."""
    made, half, leaves = Builder(ports), ports // 2, ports if leaves is None else leaves
    if not 1 <= leaves <= ports:
        raise Misfit(f"spines of {ports} ports have room for 1 to {ports} leaves")
    names = [made.switch(f"leaf{it}") for it in range(leaves)]
    for leaf in names:
        made.hosts_at(leaf, half)
    for number in range(half):
        spine = made.switch(f"spine{number}")
        for leaf in names:
            made.join(leaf, spine)
    return made.fabric


def fat_tree_of_three(ports, pods=None):
    """Pods of leaves and of switches above them, each of half the ports, and a core over all pods."""
    made, half = Builder(ports), ports // 2
    most = min(ports, (MOST_SWITCHES - half * half) // ports)
    pods = most if pods is None else pods
    if not 1 <= pods <= most:
        raise Misfit(f"with {ports} ports there is room for 1 to {most} pods" if most > 0 else f"a core for {ports} ports is too large")
    uppers = [pod_of(made, pod, half) for pod in range(pods)]
    for number in range(half * half):
        core = made.switch(f"core{number}")
        for upper in uppers:
            made.join(upper[number // half], core)
    return made.fabric


def pod_of(made, pod, half):
    """A pod; its upper switches."""
    leaves = [made.switch(f"p{pod}leaf{it}") for it in range(half)]
    upper = [made.switch(f"p{pod}up{it}") for it in range(half)]
    for leaf in leaves:
        made.hosts_at(leaf, half)
        for it in upper:
            made.join(leaf, it)
    return upper


def torus(sizes, hosts):
    """A grid of two or three dimensions, each row of each closed to a ring where it has more than two switches."""
    made, places = Builder(least_ports(2 * len(sizes) + hosts)), list(product(*map(range, sizes)))
    is_flat = len(sizes) == 2
    names = {it: made.switch(f"s{at}" if is_flat else f"s{'_'.join(map(str, it))}") for at, it in enumerate(places)}
    for name in names.values():
        made.hosts_at(name, hosts)
    for place in places:
        for at in reversed(range(len(sizes))):
            if sizes[at] > 2 or place[at] + 1 < sizes[at]:
                beside = (*place[:at], (place[at] + 1) % sizes[at], *place[at + 1 :])
                made.join(names[place], names[beside])
    return made.fabric


def ring(count, hosts):
    return torus((1, count), hosts)


def dragonfly(groups, size, hosts):
    """Groups in which each two switches are cabled, and each two groups are by one cable, spread over their switches."""
    made = Builder(least_ports(size - 1 + -(-(groups - 1) // size) + hosts))
    names = [[made.switch(f"g{group}s{it}") for it in range(size)] for group in range(groups)]
    for group in names:
        for at, name in enumerate(group):
            made.hosts_at(name, hosts)
            for other in group[at + 1 :]:
                made.join(name, other)
    for one in range(groups):
        for other in range(one + 1, groups):
            made.join(names[one][(other - 1) % size], names[other][one % size])
    return made.fabric


def random(switches, cables, hosts, seed):
    """A tree over all switches, and further cables between switches with a port left, no two of them the same."""
    made, chance = Builder(16), Random(seed)
    names = [made.switch(f"s{it}") for it in range(switches)]
    for name in names:
        made.hosts_at(name, hosts)
    if cables < switches - 1:
        raise Misfit(f"{switches} switches need {switches - 1} cables at least")
    for at in range(1, switches):
        free = [it for it in names[:at] if made.has_free(it)]
        made.join(free[chance.randrange(len(free))], names[at])
    for _ in range(cables - switches + 1):
        pairs = [(a, b) for at, a in enumerate(names) for b in names[at + 1 :] if made.has_free(a) and made.has_free(b)]
        pairs = [it for it in pairs if not are_joined(made.fabric, *it)] or pairs
        if not pairs:
            raise Misfit("no two switches have a port left")
        made.join(*pairs[chance.randrange(len(pairs))])
    return made.fabric


def are_joined(fabric, one, other):
    return any(fabric.far((one, port)) and fabric.far((one, port))[0] == other for port in range(fabric.ports(one)))
