"""A subnet as its manager sees it: hosts with their LIDs, switches with their tables, in the files' names and ports."""

from collections import Counter, defaultdict

from fabtools.converting import by_number
from fabtools.topology import NoTopology

# What a table has for a LID that leads nowhere.
NO_PORT = (None, 255)


class NoTables(Exception):
    """The text has no table, or lacks that of a switch of the topology, or is cut off."""


class Host:
    """A cabled port of an adapter, with its LIDs: 2^LMC of them, from the base LID on."""

    def __init__(self, node, port, name):
        self.node, self.port, self.name, self.end = node, port, name, (node.key, port)
        base = node.lids.get(port)
        if not base:
            raise NoTopology(f'it gives "{name}" no LID: take what ibnetdiscover prints once there is a subnet manager')
        self.lids = list(range(base, base + 2 ** node.lmcs.get(port, 0)))


class Subnet:
    """The nodes of a topology, and the tables of its switches by their own names."""

    def __init__(self, nodes, tables):
        self.nodes = nodes
        self.out = {it.key: tables[guid_of(it)] for it in nodes.values() if it.is_switch and guid_of(it) in tables}
        called = Counter(it.called for it in nodes.values())
        alone = {name for name, count in called.items() if count == 1}
        self.names = {it.key: it.called if it.called in alone else f"{it.called} ({it.key})" for it in nodes.values()}
        ends = [(it, port) for it in nodes.values() if not it.is_switch for port in it.far]
        ends.sort(key=lambda it: (by_number(it[0].called), it[0].key, it[1]))
        self.hosts = [Host(it, port, self.host_name(it, port)) for it, port in ends]
        self.check_lids()
        self.check_parts()

    def host_name(self, node, port):
        return self.names[node.key] if len(node.far) == 1 else f"{self.names[node.key]} port {port}"

    def switches(self):
        return [it for it in self.nodes.values() if it.is_switch]

    def far(self, end):
        return self.nodes[end[0]].far.get(end[1])

    def end_text(self, end):
        node = self.nodes[end[0]]
        return f"{self.names[end[0]]} port {end[1]}" if node.is_switch else self.host_name(node, end[1])

    def channel_text(self, end):
        return f"{self.end_text(end)} to {self.end_text(self.far(end))}"

    def check_lids(self):
        """No LID is of two hosts; where the file doesn't tell how many each has, tables have none that nobody has."""
        owner = {}
        for host in self.hosts:
            for lid in host.lids:
                if owner.setdefault(lid, host) is not host:
                    raise NoTopology(f'LID {lid} is one of "{owner[lid].name}" and of "{host.name}"')
        if any(host.port not in host.node.lmcs for host in self.hosts):
            known = {*owner, *(it.lids.get(0) for it in self.switches())}
            led = {lid for table in self.out.values() for lid, port in table.items() if port not in NO_PORT}
            if led - known:
                why = f"the tables have LID {min(led - known)}, which this form of a topology gives nobody"
                raise NoTopology(f"{why}: with an LMC above 0, or hosts that are gone, take what ibnetdiscover prints")

    def check_tables(self):
        """Each switch has a table."""
        lacking = [it.called for it in self.switches() if not self.out.get(it.key)]
        if lacking and not self.out:
            raise NoTables("none of its tables is of a switch of the topology")
        if lacking:
            count = f"{len(lacking)} of {len(self.switches())} switches"
            raise NoTables(f"it has no table of {count}, {lacking[0]} among them: is it cut off?")

    def check_parts(self):
        """Cables join all."""
        near, todo = set(), [self.hosts[0].end[0]] if self.hosts else []
        while todo:
            key = todo.pop()
            if key not in near:
                near.add(key)
                todo += [far for far, _ in self.nodes[key].far.values()]
        apart = [it.called for it in self.nodes.values() if it.key not in near and (it.is_switch or it.far)]
        if self.hosts and apart:
            raise NoTopology(f'no cable joins "{apart[0]}" to "{self.hosts[0].name}": judge each part by itself')


def guid_of(node):
    """The guid in a node's own name, `S-0002c90200423e70`; None where it has none, as in a file of ibsim."""
    try:
        return int(node.key.split("-")[-1], 16)
    except ValueError:
        return None


def by_switch(subnet):
    """The hosts by the end that their cable leads to: all hosts of a switch under one."""
    at = defaultdict(list)
    for host in subnet.hosts:
        key, port = subnet.far(host.end)
        at[key, port if not subnet.nodes[key].is_switch else 0].append(host)
    return at
