"""The nodes of an InfiniBand network, as a file of its tools tells them, and whether both ends of each cable agree."""

import re


class NoTopology(Exception):
    """Why a text is no topology: at which line, or what it is and what was expected."""


class Node:
    """A switch or an adapter: its own name in the file, what it is called, its ports, its cables with the lines that
    tell them, and its LIDs by port (a switch's: 0) with the LMC of each where the file has it."""

    def __init__(self, kind, ports, key, called):
        self.is_switch, self.ports, self.key = kind.lower() in ("switch", "sw"), ports, key
        self.called, self.far, self.lines, self.lids, self.lmcs = called or key, {}, {}, {}, {}

    def cable(self, line, port, far):
        """A line that tells where the cable of one of its ports leads, as another node's own name and port."""
        for number, ports in ((port, self.ports), (far[1], 255)):
            if not 1 <= number <= ports:
                of = f'"{self.called}"' if number == port else f'"{far[0]}"'
                raise NoTopology(f"line {line}: there is no port {number}: the ports of {of} count from 1 to {ports}")
        if self.far.get(port, far) != far:
            before = self.lines[port]
            raise NoTopology(f'line {line}: port {port} of "{self.called}" has another cable by line {before}')
        if far == (self.key, port):
            raise NoTopology(f'line {line}: port {port} of "{self.called}" is cabled to itself')
        self.far[port] = far
        self.lines.setdefault(port, line)


# What an adapter is called after its host: `node-1 HCA-1`, `node-1 mlx5_0`.
ADAPTER = re.compile(r"\s+(?:HCA-\d+|[A-Za-z]+\d*_\d+|qib\d+)\s*\Z")
# What a switch's firmware adds to its name, `MF0;sw-1:SX6036/U1`, and a large one's board: `MF0;sw-1:IS5200/L01/U1`.
FIRMWARE = re.compile(r"\w+;([^:]+):[^/]*((?:/\w+)*?)/U\d+\s*\Z")


def name_of(node):
    """What a node is called by who named it: without the adapter's word, and without the switch's firmware."""
    by_firmware = FIRMWARE.match(node.called) if node.is_switch else None
    if by_firmware:
        return by_firmware[1] + by_firmware[2].replace("/", "_")
    return node.called if node.is_switch else ADAPTER.sub("", node.called)


def strange(number, line, wanted="a node, or one of a node's ports"):
    """What is said of a line of another form."""
    return f"line {number}: it isn't {wanted}: {line[:60]!r}; is the file cut off?"


def check_ascii(number, line):
    """A name that isn't ASCII would come out garbled."""
    odd = next((it for it in line if it > "~" or it < " " and it != "\t"), None)
    if odd:
        raise NoTopology(f"line {number}: it has the byte 0x{ord(odd):02x}, and names are of ASCII alone")


def check_ends(nodes):
    """Each cable is told from both of its ends, and alike: else the file was cut off or edited."""
    told = [(node.lines[port], node, port) for node in nodes.values() for port in node.far]
    for line, node, port in sorted(told, key=lambda it: it[0]):
        key, other = node.far[port]
        cable = f'line {line}: by it port {port} of "{node.called}" is cabled to port {other} of "{key}"'
        if key not in nodes:
            raise NoTopology(f"{cable}, which the file lacks: is it cut off?")
        back = nodes[key].far.get(other)
        if back is None:
            raise NoTopology(f"{cable}, and no line says so from there: is the file cut off?")
        if back != (node.key, port):
            there = f'by line {nodes[key].lines[other]} that one is cabled to port {back[1]} of "{back[0]}"'
            raise NoTopology(f"{cable}, and {there}")
