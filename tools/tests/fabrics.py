"""For the tests of tools/compare: fabrics, changes of their cables, and the map that a program makes of them, without a program."""

import random
import sys

sys.dont_write_bytecode = True
sys.path.insert(0, "..")
from fabtools import fabric as fabrics  # noqa: E402
from fabtools.report import Map  # noqa: E402


def add_hosts(fabric, switch, count):
    for port in range(count):
        host = f"h{len(fabric.hosts)}"
        fabric.add_host(host)
        fabric.add_cable((host, 0), (switch, port))


def fat_tree(leaves=4, spines=2, hosts=2, parallel=1):
    """Two levels, with so many parallel cables between a leaf and a spine."""
    fabric = fabrics.Fabric()
    for name in [f"leaf{it}" for it in range(leaves)] + [f"spine{it}" for it in range(spines)]:
        fabric.add_switch(name, 16)
    for leaf in range(leaves):
        add_hosts(fabric, f"leaf{leaf}", hosts)
        for spine in range(spines):
            for it in range(parallel):
                fabric.add_cable((f"leaf{leaf}", hosts + spine * parallel + it), (f"spine{spine}", leaf * parallel + it))
    return fabric


def pods(count=4):
    """Three levels: pods of two edge and two aggregation switches, and four cores."""
    fabric = fabrics.Fabric()
    for pod in range(count):
        for name in ("edge", "agg"):
            for it in range(2):
                fabric.add_switch(f"{name}{pod}_{it}", 8)
    for core in range(4):
        fabric.add_switch(f"core{core}", 8)
    for pod in range(count):
        for edge in range(2):
            add_hosts(fabric, f"edge{pod}_{edge}", 2)
            for agg in range(2):
                fabric.add_cable((f"edge{pod}_{edge}", 2 + agg), (f"agg{pod}_{agg}", edge))
        for agg in range(2):
            for it in range(2):
                fabric.add_cable((f"agg{pod}_{agg}", 2 + it), (f"core{2 * agg + it}", pod))
    return fabric


def torus(rows=4, columns=4, hosts=1):
    fabric = fabrics.Fabric()
    for it in range(rows * columns):
        fabric.add_switch(f"s{it}", 8)
        add_hosts(fabric, f"s{it}", hosts)
    for row in range(rows):
        for column in range(columns):
            here = f"s{row * columns + column}"
            fabric.add_cable((here, 4), (f"s{row * columns + (column + 1) % columns}", 5))
            fabric.add_cable((here, 6), (f"s{(row + 1) % rows * columns + column}", 7))
    return fabric


def dragonfly(groups=5, routers=4, hosts=2):
    """Groups whose routers are all cabled with each other, and a cable between each two groups."""
    fabric = fabrics.Fabric()
    outer = {it: 0 for it in range(groups)}
    for group in range(groups):
        for router in range(routers):
            fabric.add_switch(f"r{group}_{router}", 16)
            add_hosts(fabric, f"r{group}_{router}", hosts)
        for a in range(routers):
            for b in range(a + 1, routers):
                fabric.add_cable((f"r{group}_{a}", hosts + b), (f"r{group}_{b}", hosts + a))
    for a in range(groups):
        for b in range(a + 1, groups):
            ends = [(f"r{it}_{outer[it] % routers}", 10 + outer[it] // routers) for it in (a, b)]
            outer[a], outer[b] = outer[a] + 1, outer[b] + 1
            fabric.add_cable(*ends)
    return fabric


def recabled(fabric, cables):
    new = fabrics.Fabric()
    new.hosts, new.switches = list(fabric.hosts), dict(fabric.switches)
    for cable in cables:
        new.add_cable(*cable)
    return new


def exchanged(fabric, swaps):
    """The fabric with these ends in the place of others, by a table."""
    return recabled(fabric, [tuple(swaps.get(end, end) for end in cable) for cable in fabric.cables])


def without(fabric, *ends):
    """The fabric without the cables at these ends."""
    return recabled(fabric, [it for it in fabric.cables if not set(it) & set(ends)])


def mapped(fabric, host, rng):
    """A complete map from the host, its switches numbered in the order of their distance and their ports from one of them."""
    near, shown = fabrics.reached(fabric, host), Map(1, host, "complete", 0, 0)
    switches = [it for it in near if it in fabric.switches]
    names = {it: f"#{at}" for at, it in enumerate(switches)}
    first = {it: rng.choice([p for p in range(fabric.ports(it)) if fabric.far((it, p))]) for it in switches}
    for it in near:
        shown.add(["switch", names[it], "core"] if it in names else ["host", it])
    for cable in fabric.cables:
        if cable[0][0] in near:
            ends = [(names.get(it, it), str(port - first.get(it, 0))) for it, port in cable]
            shown.add(["cable", *ends[0], *ends[1]])
    return shown


def random_change(fabric, rng):
    """One change of the cables: an end moved, two ends exchanged, a cable taken away or added."""
    cables = list(fabric.cables)
    free = [(it, p) for it in fabric.switches for p in range(fabric.ports(it)) if not fabric.far((it, p))]
    a, b = rng.sample(range(len(cables)), 2)
    what = rng.randrange(4)
    if what == 0:
        cables[a] = (cables[a][0], rng.choice(free))
    elif what == 1:
        cables[a], cables[b] = (cables[a][0], cables[b][1]), (cables[b][0], cables[a][1])
    elif what == 2:
        del cables[a]
    else:
        cables.append(tuple(rng.sample(free, 2)))
    return recabled(fabric, cables)


def differing(a, b):
    """The cables that only one of two fabrics has."""
    return {frozenset(it) for it in a.cables} ^ {frozenset(it) for it in b.cables}


RNG = random.Random(5)
