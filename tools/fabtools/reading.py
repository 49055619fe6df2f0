"""A report read beside its script: the first line that no answer of its command has, or that the report ends early."""

import re

from fabtools import answered, forms

LARGEST = 2**64 - 1
FARTHEST = forms.FARTHEST_TURN
# Forms of answers: H is a host, V P a port of the fabric, N a number of any size, U one below 2^64, Q 0 to 7, R 0 or 1,
# X bytes; of words between strokes one stands there.
FORMS = {
    "walk": ["walk nothing", "walk host H", "walk switch V port P"],
    "map": [
        *("map H refused busy", "map H complete asks N packets N", "map H doubtful N asks N packets N"),
        *("map H incomplete nodes asks N packets N", "map H incomplete depth asks N packets N"),
    ],
    "circuit": ["circuit H nodes asks N", "circuit H depth U asks N"],
    "routes": ["routes refused nomap", "routes U"],
    "install": ["install refused noroutes|busy|changed|installed|epochs", "installed U of U"],
    "open": ["open H Q refused already", "open H Q done"],
    "close": ["close H Q refused notopen", "close H Q refused busy|unread|filling N", "close H Q done U"],
    "provide": ["provide H Q refused notopen|notoken|badsize", "provide H Q token U"],
    "send": ["send H Q refused notopen|notoken|toolong|noroute|spent", "send H Q token U"],
    "poll": [
        *("poll H Q refused notopen", "poll H Q nothing", "poll H Q sent token U"),
        "poll H Q received token U from H Q prio R len U bytes X",
    ],
    "tokens": ["tokens H Q refused notopen", "tokens H Q send PLACES"],
    "plan": ["plan at N"],
    "step": [
        *("step idle|lost|reset|flipped|expired|gaveup", "step injected|repeated|held N"),
        "step moved|blocked|replayed V P",
        "step arrived H probe|reply|loop|routes|routesack|message|fragment|notnext|notoken|ack",
        "step dropped outofrange|notroute|nocable|newcable|badcrc|routeleft|unknowntype|malformed|notmine",
    ],
    "settle": ["settle rounds N resets N unacked N"],
    "pull": ["pull V P refused nocable", "pull V P done"],
    "plug": ["plug V P V P refused portused|full", "plug V P V P done"],
    "broken": ["broken refused noroutes", "endbroken", "broken H H"],
    "revoke": ["revoked N"],
    "duo": [
        *("duo token|emitted|sent|unsure|restarted U", "duo refused notoken|toolong|spent|badsize", "duo received U X"),
        "duo nothing|idle|expired|hello|stale|message|notnext|notoken|ack",
    ],
    "end": ["end injected N dropped N"],
}
# So many words of a line after its first are the command's own.
OWN = {"map": 1, "circuit": 1, "pull": 2, "plug": 4}
OWN.update(dict.fromkeys(("open", "close", "provide", "send", "poll", "tokens"), 2))
PLACES = ("client", "queue", "provided", "event")


class Fails(Exception):
    """The first line that fails, and what fails there."""

    def __init__(self, line, why):
        super().__init__(line, why)
        self.line, self.why = line, why


class Ends(Fails):
    """The report ends where an answer must go on."""


def number(word, most=LARGEST):
    """The number that a word says, or None; with no most one of any size is told as at most 2^64."""
    if not re.fullmatch("[0-9]+", word):
        return None
    digits = word.lstrip("0") or "0"
    value = int(digits) if len(digits) < 21 else LARGEST + 1
    return value if most is None or value <= most else None


def turn(word):
    digits = re.fullmatch("[+-]?([0-9]+)", word)
    value = number(digits[1], FARTHEST) if digits else None
    return None if value is None else -value if word[0] == "-" else value


def content(word):
    if word == "-":
        return b""
    return bytes.fromhex(word) if re.fullmatch("([0-9a-f]{2})+", word) else None


def places(words):
    """The tokens of a line `tokens` after `send`, as (number, whether the client has it), for both kinds; None where they
    have no form."""
    kinds = [[]]
    for word in words:
        token, _, place = word.partition("=")
        if word == "recv" and len(kinds) == 1:
            kinds.append([])
        elif number(token) is not None and place in PLACES:
            kinds[-1].append((number(token), place == "client"))
        else:
            return None
    return kinds if len(kinds) == 2 else None


class Reader:
    """A report, answer by answer, each line by its form and by its place in a map, in routes or in tables."""

    def __init__(self, names, report, past):
        self.names, self.report, self.past, self.at = names, report, past, 0
        self.shown = self.routed = None
        self.installed = self.is_done = self.has_outside = False
        # The command whose answer is read, as (line, words), and where that begins.
        self.asked, self.begun = None, 0

    def commands(self):
        return self.names.script

    def run(self):
        for self.asked in self.commands():
            self.begun = self.at
            self.answer(self.asked[1])
        self.is_done = True
        if self.at < len(self.report):
            raise Fails(self.report[self.at][0], "form")

    def answer(self, words):
        line, said = self.next()
        form = self.form(words, said)
        self.need(form, line)
        getattr(self, f"do_{words[0]}", lambda *_: None)(words, line, said, form)

    def next(self):
        if self.at == len(self.report):
            raise Ends(self.past, "form")
        self.at += 1
        return self.report[self.at - 1]

    def need(self, holds, line, why="form"):
        if not holds:
            raise Fails(line, why)

    def form(self, words, said):
        """The form of an answer's first line, with the command's own words; None where it has none."""
        own = OWN.get(words[0], 0)
        if any(not same(one, other) for one, other in zip(words[1 : own + 1], said[1 : own + 1])):
            return None
        return next((it for it in FORMS.get(words[0], ()) if self.fits(it.split(), said)), None)

    def fits(self, form, words):
        if form[-1] == "PLACES":
            return self.fits(form[:-1], words[: len(form) - 1]) and places(words[len(form) - 1 :]) is not None
        return len(form) == len(words) and all(self.is_fit(form, words, at) for at in range(len(form)))

    def is_fit(self, form, words, at):
        kind, word = form[at], words[at]
        if kind == "P":
            vertex = words[max(it for it in range(at) if form[it] == "V")]
            return number(word) is not None and number(word) < self.names.ports(vertex)
        tests = {
            "H": lambda: word in self.names.hosts,
            "V": lambda: self.names.ports(word) > 0,
            "N": lambda: number(word, None) is not None,
            "U": lambda: number(word) is not None,
            "Q": lambda: number(word, 7) is not None,
            "R": lambda: number(word, 1) is not None,
            "X": lambda: content(word) is not None,
        }
        return tests[kind]() if kind in tests else word in kind.split("|")

    def address(self, host):
        return self.names.hosts.index(host)

    def do_broken(self, words, line, said, form):
        is_pair = all(it in self.names.hosts for it in said[1:]) and self.installed
        if said == ["endbroken"] or said[1:] == answered.NO_ROUTES and not is_pair:
            return
        before = self.pair(said)
        while True:
            line, said = self.next()
            if said == ["endbroken"]:
                return
            self.need(self.fits(["broken", "H", "H"], said) and before < self.pair(said), line)
            before = self.pair(said)

    def pair(self, words):
        return tuple(map(self.address, words[1:3]))

    # Maps.

    def do_map(self, words, line, said, form):
        if "refused" not in form.split():
            self.shown = None if "nodes" in form.split() else self.read_map()

    def do_circuit(self, words, line, said, form):
        if "depth" in form.split():
            self.need(number(said[3]) == int(words[2]), line)
            self.read_map()
            self.need(not self.has_outside, line)

    def read_map(self):
        """The vertices of a map, hosts by name and switches by number, and the far ends of its cabled ports."""
        vertices, far, self.has_outside = [], {}, False
        while True:
            line, said = self.next()
            if said == ["endmap"]:
                return vertices, far
            if said[0] == "host":
                self.need(self.fits(["host", "H"], said) and said[1] not in vertices, line)
                vertices.append(said[1])
            elif said[0] == "switch":
                count = sum(map(is_switch, vertices))
                self.need(len(said) == 3 and switch(said[1]) == count and said[2] in ("core", "outside"), line)
                vertices.append(count)
                self.has_outside = self.has_outside or said[2] == "outside"
            else:
                self.need(said[0] == "cable" and len(said) == 5, line)
                self.add_cable(vertices, far, line, [(self.vertex(said[at]), turn(said[at + 1])) for at in (1, 3)])

    def vertex(self, word):
        return switch(word) if word[:1] == "#" else word

    def add_cable(self, vertices, far, line, ends):
        one, other = ends
        for vertex, port in ends:
            self.need(vertex in vertices and port is not None and (is_switch(vertex) or port == 0), line)
        self.need(one != other and one not in far and other not in far, line)
        far[one], far[other] = other, one
        for vertex, _ in ends:
            ports = [port for at, port in far if at == vertex]
            self.need(max(ports) - min(ports) <= FARTHEST, line)

    # Routes, and their tables.

    def do_routes(self, words, line, said, form):
        if form == "routes U":
            routes = self.read_routes(number(said[1]))
            self.take_routes(line, routes, *self.read_ranks())
            self.routed = self.mapped_hosts()

    def mapped_hosts(self):
        """The hosts of the last map by address; None where it has no lines."""
        return [it for it in self.names.hosts if it in self.shown[0]] if self.shown else None

    def take_routes(self, line, routes, ranks, last):
        """Takes routes that are read, with their ranks and the number of their last line."""

    def read_routes(self, count):
        routes, before = [], (-1, -1)
        for _ in range(count):
            line, said = self.next()
            self.need(self.fits(["route", "H", "H"], said[:3]) and len(said) <= 3 + forms.LONGEST_WALK, line)
            self.need(None not in map(turn, said[3:]), line)
            self.need(before < self.pair(said), line)
            before = self.pair(said)
            routes.append((line, said))
        return routes

    def read_ranks(self):
        """The ranks by channel, and the number of the line `endroutes`."""
        ranks, before = {}, (-1, 0)
        while True:
            line, said = self.next()
            if said == ["endroutes"]:
                return ranks, line
            self.need(said[0] == "rank" and len(said) == 4, line)
            channel, rank = (self.vertex(said[1]), turn(said[2])), number(said[3])
            self.need(is_switch(channel[0]) or channel[0] in self.names.hosts, line)
            self.need(None not in (channel[1], rank), line)
            if self.shown:
                vertices = self.shown[0]
                self.need(channel[0] in vertices and before < (vertices.index(channel[0]), channel[1]), line)
                before = vertices.index(channel[0]), channel[1]
            ranks[channel] = rank

    def do_install(self, words, line, said, form):
        if said[0] == "install":
            return
        acked, count = number(said[1]), number(said[3])
        self.need(acked <= count and (self.routed is None or count == len(self.routed)), line)
        self.need(acked <= self.read_tables(count), line)
        self.installed = True

    def read_tables(self, count):
        """Reads the tables of an installation; how many are active."""
        before, active = -1, 0
        for at in range(count):
            line, said = self.next()
            self.need(self.fits(["table", "H", "active|none"], said), line)
            address = self.address(said[1])
            self.need(before < address if self.routed is None else said[1] == self.routed[at], line)
            before, active = address, active + (said[2] == "active")
        return active


def same(one, other):
    """Two words are the same name or number."""
    return one == other or number(one) is not None and number(one) == number(other)


def switch(word):
    """The number of a switch of a map, or -1."""
    found = number(word[1:], 2**32 - 1) if word[:1] == "#" else None
    return -1 if found is None else found


def is_switch(vertex):
    return isinstance(vertex, int) and vertex >= 0
