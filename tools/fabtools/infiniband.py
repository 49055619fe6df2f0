"""The topology files of InfiniBand's tools: what ibnetdiscover and iblinkinfo print, what ibsim reads, ibutils' `.lst`.

ibnetdiscover and ibsim have a block for each node: a head, as `Switch 36 "S-0002c902" # "name" ..` or
`Ca 1 "H-0002c903"`, and a line for each port with a cable, as `[3] "H-0002c903"[1](guid) # ..` or
`[1](guid) "S-0002c902"[3]`. Ports count from 1.
"""

import re

from fabtools import link_lists
from fabtools.topology import Node, NoTopology, check_ascii, check_ends, strange

HEAD = re.compile(r'(Switch|Ca|Hca|Rt|Router)\s+(\d+)\s+"([^"]+)"\s*(?:#\s*"([^"]*)")?', re.I)
PORT = re.compile(r'\[(\d+)\](?:\[ext \d+\])?\s*(?:\([^)]*\))?\s*"([^"]+)"\s*\[(\d+)\]')

# What may stand between the blocks: comments, `vendid=0x2c9`, and what `ibnetdiscover -g` says of a chassis.
BETWEEN = re.compile(r"#|\w+\s*=|(Non-)?Chassis|\w+ Nodes\b", re.I)
# What ibnetdiscover writes of each node; it prints none without a cable.
OF_NODE = re.compile(r"(switch|ca|rt)guid=", re.I)
# The lid of a line's own port; that of the far end has no `lmc`.
OWN_LID = re.compile(r"\blid (\d+) lmc ([0-7])\b")

# Other forms of these tools, by a line that only they have.
OTHERS = (
    (re.compile(r"(CA|SW|RT)\s+\d+\s+\d+\s+0x", re.M), "what `ibnetdiscover -p` prints"),
    (re.compile(r"(Ca|Switch|Router)\s*:\s*0x", re.M), "a list of nodes, as `ibnetdiscover -l` or `ibnodes` prints"),
)

READS = (
    "this reads what `ibnetdiscover` or `iblinkinfo` prints without options, ibutils' `.lst`, or an ibsim file: "
    'lines like \'Switch 36 "S-0002c902"\' and \'Ca 1 "H-0002c903"\', with lines like \'[1] "S-0002c902"[3]\' below them'
)


def read(text):
    """The nodes of a topology in the order of the file, by their names in it; raises NoTopology at its first fault."""
    nodes = link_lists.read(text) or read_blocks(text)
    if not nodes:
        raise NoTopology(f"{what_it_is(text)}; {READS}")
    check_ends(nodes)
    return nodes


def read_blocks(text):
    """The nodes of a text whose first block begins it; none where there is no block."""
    nodes, node, lines = {}, None, [it.strip() for it in text.split("\n")]
    heads = [number for number, it in enumerate(lines, 1) if HEAD.match(it)]
    for number, line in enumerate(lines if heads else [], 1):
        head, port = HEAD.match(line), PORT.match(line)
        if head:
            node = add_node(nodes, number, line, head.groups())
        elif port and node:
            check_ascii(number, line)
            own, key, other = port.groups()
            node.cable(number, int(own), (key, int(other)))
            add_lid(node, int(own), line)
        elif line and not BETWEEN.match(line):
            raise NoTopology(strange(number, line))
    alone = next((number for number, it in zip(heads, nodes.values()) if not it.far), None)
    if alone and any(map(OF_NODE.match, lines)):
        raise NoTopology(f"line {alone}: no cable of this node is below it: is the file cut off?")
    return nodes


def add_node(nodes, number, line, words):
    check_ascii(number, line)
    kind, ports, key, called = words
    if key in nodes:
        raise NoTopology(f'line {number}: "{key}" has a block above')
    nodes[key] = Node(kind, int(ports), key, called)
    add_lid(nodes[key], 0, line)
    return nodes[key]


def add_lid(node, port, line):
    """Adds the lid that a line gives the node's own port: a switch has one, at its head."""
    lid = OWN_LID.search(line)
    if lid and (port == 0) == node.is_switch:
        node.lids[port], node.lmcs[port] = int(lid[1]), int(lid[2])


def what_it_is(text):
    if not text.strip():
        return "it is empty"
    return next((f"it is {what}" for form, what in OTHERS if form.search(text)), "it has no node of a topology")
