"""A judge of reports apart from the program, by the words of docs/JUDGE.md: what it says of a text with its report."""

from itertools import permutations

from fabtools import answered, forms, script
from fabtools import fabric as fabrics
from fabtools.reading import Fails, Reader, content, is_switch, number, places, turn


class Judge(Reader):
    """A report, answer by answer, against what is told before."""

    def __init__(self, fabric, report, past):
        super().__init__(fabric, report, past)
        self.fabric, self.complete = fabric, None
        self.ports, self.sent, self.got = {}, {}, {}

    # Cables.

    def do_pull(self, words, line, said, form):
        self.fabric = self.fabric.after([*words, said[-1]])

    def do_plug(self, words, line, said, form):
        ends = [(words[at], int(words[at + 1])) for at in (1, 3)]
        if ends[0] != ends[1] and not any(map(self.fabric.far, ends)):
            self.fabric = self.fabric.after([*words, said[-1]])

    # Maps.

    def do_map(self, words, line, said, form):
        if "refused" in form.split():
            return
        self.complete = None
        super().do_map(words, line, said, form)
        if "complete" in form.split():
            self.need(self.is_part(words[1], *self.shown), line, "map")
            self.complete = self.shown

    def is_part(self, host, vertices, far):
        """Whether a map is a host's part of the fabric as it stands, by following its cables from the host in both."""
        at, todo = {host: (host, 0)}, [host] if host in vertices else []
        while todo:
            vertex = todo.pop()
            name, offset = at[vertex]
            mapped = {port + offset: end for (it, port), end in far.items() if it == vertex}
            real = {port: self.fabric.far((name, port)) for port in range(self.fabric.ports(name)) if self.fabric.far((name, port))}
            if mapped.keys() != real.keys():
                return False
            for port, (other, entered) in mapped.items():
                image = real[port][0], real[port][1] - entered
                if other not in at and self.may_be(other, image, at):
                    at[other] = image
                    todo.append(other)
                if at.get(other) != image:
                    return False
        return set(at) == set(vertices)

    def may_be(self, vertex, image, at):
        if any(image[0] == name for name, _ in at.values()):
            return False
        return image[0] in self.names.switches if is_switch(vertex) else image == (vertex, 0)

    # Routes.

    def take_routes(self, line, routes, ranks, last):
        self.need(self.complete, line, "route")
        vertices, far = self.complete
        hosts = [it for it in vertices if not is_switch(it)]
        ways = {(said[1], said[2]): None for _, said in routes}
        self.need(all(it in ways for it in permutations(hosts, 2)), line, "route")
        for line, said in routes:
            ways[said[1], said[2]] = self.way(line, said, hosts, far)
        for way in ways.values():
            self.need(all(it in ranks for it in way) and all(ranks[a] < ranks[b] for a, b in zip(way, way[1:])), last, "rank")

    def way(self, line, said, hosts, far):
        """The channels of a route, which must lead from one host of the map to another."""
        self.need(said[1] in hosts and said[2] in hosts and said[1] != said[2], line, "route")
        way, at = [(said[1], 0)], far.get((said[1], 0))
        for it in map(turn, said[3:]):
            self.need(at and is_switch(at[0]), line, "route")
            way.append((at[0], at[1] + it))
            at = far.get(way[-1])
        self.need(at == (said[2], 0), line, "route")
        return way

    # Clients. A port has so many tokens of each kind, and the client those that it holds.

    def do_open(self, words, line, said, form):
        if said[3] == "done":
            counts = [int(it) for it in words[3:5]]
            self.ports[port(words)] = counts, [set(range(it)) for it in counts]

    def do_close(self, words, line, said, form):
        if said[3] == "done":
            counts, held = self.ports.pop(port(words), ([0, -1], [(), ()]))
            self.need(number(said[4]) + len(held[1]) == counts[1], line, "token")

    def do_provide(self, words, line, said, form):
        self.take(words, line, said, 1)

    def do_send(self, words, line, said, form):
        if said[3] == "token":
            lane = words[1], words[3], int(words[4]), int(words[5])
            self.sent.setdefault(lane, []).append((int(words[2]), int(words[6]), int(words[7])))
        self.take(words, line, said, 0)

    def take(self, words, line, said, kind):
        if said[3] == "token":
            held = self.ports.get(port(words), (None, [set(), set()]))[1][kind]
            self.need(number(said[4]) in held, line, "token")
            held.remove(number(said[4]))

    def do_poll(self, words, line, said, form):
        if said[3] == "received":
            lane = said[7], words[1], int(words[2]), int(said[10])
            self.need(self.is_next(lane, said), line, "message")
            self.got[lane] = self.got.get(lane, 0) + 1
        if said[3] in ("received", "sent"):
            kind = int(said[3] == "received")
            counts, held = self.ports.get(port(words), ([0, 0], [set(), set()]))
            token = number(said[5])
            self.need(token < counts[kind] and token not in held[kind], line, "token")
            held[kind].add(token)

    def is_next(self, lane, said):
        """Whether a received line shows the next message of its lane."""
        sent, count, body = self.sent.get(lane, []), self.got.get(lane, 0), content(said[14])
        if count >= len(sent) or number(said[12]) != len(body) or (int(said[8]), len(body)) != sent[count][:2]:
            return False
        return all(byte == (sent[count][2] + at) % 256 for at, byte in enumerate(body))

    def do_tokens(self, words, line, said, form):
        if said[3] == "send":
            counts, held = self.ports.get(port(words), ([-1, -1], [(), ()]))
            wanted = [[(it, it in has) for it in range(count)] for count, has in zip(counts, held)]
            self.need(port(words) in self.ports and places(said[4:]) == wanted, line, "token")


def port(words):
    return words[1], int(words[2])


def text_of(both):
    """The lines of the text, up to its line `end`."""
    is_script = False
    for line, words in forms.saying(both):
        if is_script and words == ["end"]:
            return "".join(it + "\n" for it in both.split("\n")[:line])
        is_script = is_script or words == ["script"]
    return both


def verdict(both):
    """What a judge says of a text with its report, as the program does."""
    text = text_of(both)
    fault, other = script.first_fault(text), answered.unjudged(text)
    if other and (fault is None or other[0] <= fault.line):
        return f"refused {other[0]} badword"
    if fault:
        return f"refused {fault.line} {fault.kind}"
    report = [it for it in forms.saying(both) if it[0] > text.count("\n")]
    try:
        Judge(fabrics.read(text), report, forms.past_the_last(both)).run()
    except Fails as it:
        return f"judge no {it.line} {it.why}"
    return "judge yes"
