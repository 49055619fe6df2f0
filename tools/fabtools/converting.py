"""A topology of InfiniBand as a fabric of this program: its names, its ports from 0, and its sizes."""

import re

from fabtools import fabric as fabrics
from fabtools.topology import name_of

LONGEST_NAME = 16


def wanted_name(node):
    """The name that a node should have: its own, in this program's form."""
    letter = "s" if node.is_switch else "h"
    own = name_of(node)
    name = re.sub(r"[^a-z0-9_]", "_", own.lower()).strip("_") or letter
    return (name if name[0].isalpha() else f"{letter}{name}")[:LONGEST_NAME]


class Names:
    """Names that were given, each once."""

    def __init__(self):
        self.given, self.numbers = set(), {}

    def free(self, wanted):
        """The wanted name, or where it is given already the first that is free with a number after it."""
        name, number = wanted, self.numbers.get(wanted, 2)
        while name in self.given:
            end = f"_{number}"
            name, number = wanted[: LONGEST_NAME - len(end)] + end, number + 1
        self.numbers[wanted] = number
        self.given.add(name)
        return name


def new_names(nodes):
    """The new name of each switch and of each cabled port of an adapter. The least changed come first."""

    def order(end):
        node, port = end
        wanted = wanted_name(node)
        changes = (port is not None and port != min(node.far), wanted != node.called, wanted != name_of(node))
        return *changes, by_number(node.called), node.key, port or 0

    ends = [(it, port) for it in nodes.values() for port in ([None] if it.is_switch else sorted(it.far))]
    names = Names()
    return {(node.key, port): names.free(wanted_name(node)) for node, port in sorted(ends, key=order)}


def by_number(name):
    """A key that sorts names by their letters, and numbers in them by what they count."""
    return [(int(it), "") if it.isdigit() else (-1, it) for it in re.split(r"([0-9]+)", name) if it]


def is_large(nodes):
    """Whether the program takes no such fabric: too many hosts or switches, or too many cables at a switch."""
    switches = [it for it in nodes.values() if it.is_switch]
    hosts = sum(len(it.far) for it in nodes.values() if not it.is_switch)
    is_wide = any(len(it.far) > fabrics.PORT_COUNTS[-1] for it in switches)
    return is_wide or hosts > fabrics.MOST_HOSTS or len(switches) > fabrics.MOST_SWITCHES


def port_numbers(node, is_free=False):
    """The new number of each port of a switch; without a limit each is one less."""
    used = sorted(node.far)
    if is_free or not used or used[-1] <= fabrics.PORT_COUNTS[-1]:
        return {it: it - 1 for it in used}
    return {it: at for at, it in enumerate(used)}


def port_count(node, numbers, is_free):
    most = max([*numbers.values(), -1]) + 1
    if is_free:
        return max(node.ports, most)
    fits = [it for it in fabrics.PORT_COUNTS if it >= most]
    return min(it for it in fits if it >= min(node.ports, fits[-1]) or it == fits[-1])


def convert(nodes):
    """The fabric of a topology, and its table: new name, port or None, node, and what its ports are numbered. Where the
    program takes no such fabric, a switch has as many ports as it has, each numbered one less."""
    names, fabric, table, is_free = new_names(nodes), fabrics.Fabric(), [], is_large(nodes)
    numbers = {it.key: port_numbers(it, is_free) for it in nodes.values() if it.is_switch}
    for name, (key, port) in sorted(((name, end) for end, name in names.items()), key=lambda it: by_number(it[0])):
        node = nodes[key]
        if node.is_switch:
            fabric.add_switch(name, port_count(node, numbers[key], is_free))
        else:
            fabric.add_host(name)
        table.append((name, port, node, renumbered(numbers[key]) if node.is_switch else ""))
    table.sort(key=lambda it: it[2].is_switch)
    for _, own, node, _ in table:
        for port in sorted(node.far) if own is None else [own]:
            add_cable(fabric, nodes, names, numbers, (node.key, port), node.far[port])
    return fabric, table


def renumbered(numbers):
    if all(new == old - 1 for old, new in numbers.items()):
        return ""
    return "; its ports: " + " ".join(f"{old}={new}" for old, new in numbers.items())


def add_cable(fabric, nodes, names, numbers, *ends):
    """Adds the cable between two ends of the file, unless its other end told it already."""
    new = []
    for key, port in ends:
        is_switch = nodes[key].is_switch
        new.append((names[key, None if is_switch else port], numbers[key][port] if is_switch else 0))
    if not fabric.far(new[0]):
        fabric.add_cable(*new)


def excess(fabric):
    """Why a fabric is too large for the program, or None."""
    if len(fabric.hosts) > fabrics.MOST_HOSTS or len(fabric.switches) > fabrics.MOST_SWITCHES:
        most = f"{fabrics.MOST_HOSTS} and {fabrics.MOST_SWITCHES} are the most"
        return f"{len(fabric.hosts):,} hosts and {len(fabric.switches):,} switches; {most}"
    wide = next((it for it, ports in fabric.switches.items() if ports > fabrics.PORT_COUNTS[-1]), None)
    if wide:
        return f"switch {wide} has {fabric.switches[wide]} ports, and {fabrics.PORT_COUNTS[-1]} are the most"
    return None
