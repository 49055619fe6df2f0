"""Topologies that tell cables one by one: what iblinkinfo prints, and ibutils' `.lst`, as opensm-subnet.lst.

iblinkinfo has a head for each node, `Switch: 0x0002c902 name:` or `CA: name:`, and a line for each port,
`6 1[ ] ==( 4X .. LinkUp)==> 13 1[ ] "name"`: by LIDs. A `.lst` has both ends of a cable in a line, with numbers in
hexadecimal.
"""

import re

from fabtools.topology import Node, NoTopology, check_ascii, strange

HEAD = re.compile(r"(?:(CA|RT): (.*)|(Switch):? 0x([0-9a-f]+) (.*)):\s*\Z", re.I)
OWN, FAR = r"(?:0x([0-9a-f]+)\s+)?(\d+)\s+(\d+)\[[^]]*\]", r"(?:(\d+)\s+(\d+))?\s*\[[^]]*\]"
LINK = re.compile(rf"{OWN}\s+==\([^)]*\)==>\s*{FAR}", re.I)
NUMBER = "([0-9A-F]+)"
OF_NODE = rf"(CA|SW|RT)\S* Ports:{NUMBER} SystemGUID:\S+ NodeGUID:{NUMBER} PortGUID:\S+"
END = rf"\{{ {OF_NODE} .*?\{{(.*?)\}} LID:{NUMBER} PN:{NUMBER} \}}"
CABLE = re.compile(rf"{END} {END} PHY=", re.I)


def read(text):
    """The nodes of such a text by their own names, or none where it has another form."""
    lines = [(number, it.strip()) for number, it in enumerate(text.split("\n"), 1) if it.strip()]
    if any(it.startswith("{ ") and "PN:" in it for _, it in lines):
        return read_cables(lines)
    return read_ports(lines) if any(HEAD.match(it) for _, it in lines) and any("==>" in it for _, it in lines) else {}


def read_ports(lines):
    """The nodes of what iblinkinfo prints; the far ends, which it tells by their LIDs, are found once all are read."""
    nodes, node, links = {}, None, []
    for number, line in lines:
        head, link = HEAD.match(line), LINK.match(line)
        check_ascii(number, line)
        if head:
            node = Node("switch", 0, f"S-{head[4]}", head[5]) if head[3] else Node("ca", 0, "", head[2])
        elif link and node:
            links += port_of(nodes, node, number, link)
        elif not line.startswith("#"):
            raise NoTopology(strange(number, line))
    at = {(lid, 0 if it.is_switch else port): it for it in nodes.values() for port, lid in it.lids.items()}
    for number, node, port, lid, other in links:
        far = at.get((lid, 0)) or at.get((lid, other))
        if not far or not lid:
            why = f"no node of the file has LID {lid}: is it cut off, or made of switches only?"
            raise NoTopology(f"line {number}: {why}")
        node.cable(number, port, (far.key, other))
    alone = next((it.called for it in nodes.values() if not it.far), None)
    if alone:
        raise NoTopology(f'it has no cable of "{alone}": is the file cut off?')
    return nodes


def port_of(nodes, node, number, link):
    """Notes a port of a node, and gives its cable, where it has one."""
    guid, lid, port, far, other = link.groups()
    node.key = node.key or f"H-{guid or number}"
    nodes[node.key] = node
    # Each port has a line, with a cable or without.
    node.ports = max(node.ports, int(port))
    node.lids[0 if node.is_switch else int(port)] = int(lid)
    return [(number, node, int(port), int(far), int(other))] if far else []


def read_cables(lines):
    """The nodes of a `.lst`."""
    nodes, told = {}, {}
    for number, line in lines:
        check_ascii(number, line)
        words = CABLE.match(line)
        if not words:
            raise NoTopology(strange(number, line, "a cable with both of its ends"))
        ends = [end_of(nodes, *it) for it in (words.groups()[:6], words.groups()[6:])]
        (one, port), (other, far) = ends
        one.cable(number, port, (other.key, far))
        other.cable(number, far, (one.key, port))
        told.setdefault(frozenset(((one.key, port), (other.key, far))), {})[one.key, port] = number
    check_both(told.values())
    return nodes


def check_both(told):
    """Where one cable has a line from each end, all have: else the file was cut off."""
    once = [line for ends in told if len(ends) == 1 for line in ends.values()]
    if once and len(once) < len(told):
        why = "no line tells this cable from its other end, as they do others: is the file cut off?"
        raise NoTopology(f"line {once[-1]}: {why}")


def end_of(nodes, kind, ports, guid, name, lid, port):
    """The node at an end of a line, and its port."""
    key = ("S-" if kind.upper() == "SW" else "H-") + guid.lower()
    node = nodes.setdefault(key, Node(kind, int(ports, 16), key, name))
    node.lids[0 if node.is_switch else int(port, 16)] = int(lid, 16)
    return node, int(port, 16)
