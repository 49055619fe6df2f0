"""Networks with their tables as a subnet manager would give them, in its files' forms.

usage: subnets.py fat-tree|ring FILE     FILE.net and FILE.lfts: 1,024 hosts at 32 leaves and 32 spines, or 140 switches
                                         round which all routes lead one way, with a host each
"""

import sys


class Net:
    """Nodes by name, each with its cables, and the port of each host's LID at each switch."""

    def __init__(self):
        self.far, self.tables, self.lids = {}, {}, {}

    def add(self, name):
        self.far[name] = {}
        self.lids[name] = len(self.lids) + 1

    def join(self, a, p, b, q):
        self.far[a][p], self.far[b][q] = (b, q), (a, p)

    def key(self, name):
        return f"{'H' if name.startswith('node') else 'S'}-{0x100 + self.lids[name]:016x}"

    def blocks(self):
        for name, cables in self.far.items():
            is_host, lid = name.startswith("node"), f"lid {self.lids[name]} lmc 0"
            yield f'Ca\t1 "{self.key(name)}"\t\t# "{name}"' if is_host else f'Switch\t64 "{self.key(name)}"\t\t# "{name}" base port 0 {lid}'
            yield from (f'[{port}]\t"{self.key(far)}"[{other}]\t\t# {lid}' for port, (far, other) in sorted(cables.items()))

    def rows(self):
        for name, table in self.tables.items():
            yield f"Unicast lids [0x0-0x{len(self.lids):x}] of switch Lid {self.lids[name]} guid 0x{0x100 + self.lids[name]:016x} ('{name}'):"
            yield from (f"0x{self.lids[host]:04x} {port:03} :" for host, port in table.items())
            yield f"{len(table)} lids dumped"


def fat_tree(leaves=32, hosts=32, spines=32):
    net = Net()
    names = [f"node-{it:04}" for it in range(leaves * hosts)]
    for name in [*(f"leaf-{it}" for it in range(leaves)), *(f"spine-{it}" for it in range(spines)), *names]:
        net.add(name)
    for leaf in range(leaves):
        for at in range(hosts):
            net.join(f"leaf-{leaf}", at + 1, names[leaf * hosts + at], 1)
        for spine in range(spines):
            net.join(f"leaf-{leaf}", hosts + spine + 1, f"spine-{spine}", leaf + 1)
        net.tables[f"leaf-{leaf}"] = {name: at % hosts + 1 if at // hosts == leaf else hosts + at % spines + 1 for at, name in enumerate(names)}
    for spine in range(spines):
        net.tables[f"spine-{spine}"] = {name: at // hosts + 1 for at, name in enumerate(names)}
    return net


def ring(count=140):
    net = Net()
    for it in range(count):
        net.add(f"s{it}")
        net.add(f"node-{it}")
    for it in range(count):
        net.join(f"s{it}", 1, f"node-{it}", 1)
        net.join(f"s{it}", 2, f"s{(it + 1) % count}", 3)
        net.tables[f"s{it}"] = {f"node-{at}": 1 if at == it else 2 for at in range(count)}
    return net


net = {"fat-tree": fat_tree, "ring": ring}[sys.argv[1]]()
for end, lines in (("net", net.blocks()), ("lfts", net.rows())):
    with open(f"{sys.argv[2]}.{end}", "w") as file:
        file.writelines(f"{it}\n" for it in lines)
