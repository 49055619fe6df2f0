"""Long texts with reports that are right, of several kinds: what a judgement costs is measured by them."""

from itertools import count, cycle, repeat

PORTS = 8
TOKENS = 64


def chain(switches, hosts):
    """A chain of switches with so many hosts each, at the ports from 2 on."""
    every = range(switches * hosts)
    lines = [f"host h{it}" for it in every] + [f"switch s{it} 16" for it in range(switches)]
    lines += [f"cable h{it} 0 s{it // hosts} {it % hosts + 2}" for it in every]
    return [*lines, *(f"cable s{it} 1 s{it + 1} 0" for it in range(switches - 1)), "script"]


def both(fabric, answers, size, first=()):
    """A text with its report: the first lines with their answers, and then as many others as so many bytes allow."""
    asked, told = [it for it, _ in first], [it for _, it in first]
    end = "end injected 0 dropped 0"
    room = size - sum(len(it) + 1 for it in [*fabric, *asked, *told, "end", end])
    for one, other in answers:
        room -= len(one) + len(other) + 2
        if room < 0:
            break
        asked.append(one)
        told.append(other)
    return "\n".join([*fabric, *asked, "end", *told, end, ""])


def opened(hosts):
    ports = [(h, p) for h in range(hosts) for p in range(PORTS)]
    return [(f"open h{h} {p} {TOKENS} {TOKENS}", f"open h{h} {p} done") for h, p in ports]


def exchange(lanes, length):
    """Messages on these lanes in turn, each provided for, sent, received and acknowledged."""
    for number in count():
        token, body = number % TOKENS, bytes((number + it) % 256 for it in range(length)).hex()
        for a, p, b, q, prio in lanes:
            yield f"provide h{b} {q} 4 {prio}", f"provide h{b} {q} token {token}"
            yield f"send h{a} {p} h{b} {q} {prio} {length} {number % 256}", f"send h{a} {p} token {token}"
            yield f"poll h{b} {q}", f"poll h{b} {q} received token {token} from h{a} {p} prio {prio} len {length} bytes {body}"
            yield f"poll h{a} {p}", f"poll h{a} {p} sent token {token}"


def lanes(hosts):
    every = range(hosts)
    return [(a, p, b, q, prio) for a in every for b in every if a != b for p in (0, 1) for q in range(PORTS) for prio in (0, 1)]


def sends(hosts):
    """Messages that nobody receives; each port is opened anew where its tokens are used up."""
    for port in cycle(range(PORTS)):
        yield f"open h0 {port} {TOKENS} 0", f"open h0 {port} done"
        for it in range(TOKENS):
            yield f"send h0 {port} h{it % (hosts - 1) + 1} {it % PORTS} {it % 2} 4 {it}", f"send h0 {port} token {it}"


def shown(switches, hosts):
    """The map of a chain from its first host."""
    every = range(switches * hosts)
    lines = ["map h0 complete asks 0 packets 0", *(f"host h{it}" for it in every), *(f"switch #{it} core" for it in range(switches))]
    lines += [f"cable h{it} 0 #{it // hosts} {it % hosts + 2}" for it in every]
    return "\n".join([*lines, *(f"cable #{it} 1 #{it + 1} 0" for it in range(switches - 1)), "endmap"])


def turns(a, b, hosts):
    """The turns from one host of a chain to another."""
    at, to, port, found = a // hosts, b // hosts, a % hosts + 2, []
    while at != to:
        out = 1 if to > at else 0
        found.append(out - port)
        at, port = (at + 1, 0) if to > at else (at - 1, 1)
    return [*found, b % hosts + 2 - port]


def routed(switches, hosts):
    """The routes of a chain, with ranks."""
    every = range(switches * hosts)
    pairs = [(a, b) for a in every for b in every if a != b]
    lines = [f"routes {len(pairs)}"]
    lines += [f"route h{a} h{b} {' '.join(f'{it:+d}' for it in turns(a, b, hosts))}" for a, b in pairs]
    lines += [f"rank h{it} 0 0" for it in every]
    for at in range(switches):
        left, right = [(0, switches - at)] * (at > 0), [(1, at + 1)] * (at < switches - 1)
        ports = [*left, *right, *((port, switches + 1) for port in range(2, hosts + 2))]
        lines += [f"rank #{at} {port} {rank}" for port, rank in ports]
    return "\n".join([*lines, "endroutes"])


def walks(size):
    return both(chain(2, 2), repeat((f"walk h0{' +1 -1' * 16}", "walk nothing")), size)


def polls(size):
    return both(chain(2, 2), repeat(("poll h0 0", "poll h0 0 nothing")), size)


def places(size):
    held = " ".join(f"{it}=client" for it in range(TOKENS))
    return both(chain(2, 2), repeat(("tokens h0 0", f"tokens h0 0 send {held} recv {held}")), size, opened(1))


def long_messages(size):
    return both(chain(2, 2), exchange([(0, 0, 1, 1, 0)], 1000), size, opened(2))


def many_lanes(size):
    return both(chain(2, 10), exchange(lanes(20), 1), size, opened(20))


def unreceived(size):
    return both(chain(2, 10), sends(20), size)


def installs(size):
    tables = "\n".join(["installed 20 of 20", *(f"table h{it} active" for it in range(20))])
    return both(chain(2, 10), repeat(("install 1", tables)), size)


def cables(size):
    return both(chain(16, 8), cycle([("pull h1 0", "pull h1 0 done"), ("plug h1 0 s0 3", "plug h1 0 s0 3 done")]), size)


def maps(size):
    return both(chain(16, 8), repeat(("map h0 32 1", shown(16, 8))), size)


def lone_maps(size):
    """Maps of a host without a cable, and their routes, of which there are none: short answers over a large fabric."""
    answers = [("map lone 1 1", "map lone complete asks 0 packets 0\nhost lone\nendmap"), ("routes", "routes 0\nendroutes")]
    return both(["host lone", *chain(16, 7)], cycle(answers), size)


def many_routes(size):
    """Routes again and again, of so many hosts that a quarter of a megabyte has them twice."""
    return both(chain(16, 4), repeat(("routes", routed(16, 4))), size, [("map h0 32 1", shown(16, 4))])


def most_routes(size):
    """One block of routes, of as many hosts as there is room for."""
    hosts = max(it for it in range(2, 9) if len(routed(16, it)) + 9_000 < size)
    return both(chain(16, hosts), [("routes", routed(16, hosts))], size, [("map h0 32 1", shown(16, hosts))])


KINDS = [walks, polls, places, long_messages, many_lanes, unreceived, installs, cables, maps, lone_maps, many_routes, most_routes]


def script_of(text, size):
    """A text of so many bytes with the commands of another, again and again, and a last line that is refused once all were read."""
    lines = text.split("\n")
    begin, end = lines.index("script") + 1, lines.index("end")
    found, refused = lines[:begin], "fail"
    room = size - sum(len(it) + 1 for it in [*found, refused])
    for it in cycle(lines[begin:end]):
        room -= len(it) + 1
        if room < 0:
            return "\n".join([*found, refused, ""])
        found.append(it)
