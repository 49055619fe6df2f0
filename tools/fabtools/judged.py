"""What was due at a line of a report that a judge calls wrong: the answer, the way of a route, the next message, the tokens held."""

from collections import defaultdict
from itertools import permutations

from fabtools import differences
from fabtools import fabric as fabrics
from fabtools.answered import ANSWERS, answers
from fabtools.report import Map, Report


class Told:
    """What the answers so far tell: the last map, messages that wait by (sender, receiver, port, priority), tokens held."""

    def __init__(self):
        self.shown, self.waiting, self.held = None, defaultdict(list), {}

    def add(self, answer):
        said = answer.first()
        if answer.end == "endmap" and said[0] == "map":
            self.shown = map_of(answer)
        elif said[0] in TELLERS and said[3] != "refused":
            TELLERS[said[0]](self, answer.words, said)

    def open(self, words, said):
        self.held[port_of(words)] = [list(range(int(it))) for it in words[3:5]]

    def close(self, words, said):
        self.held.pop(port_of(words), None)

    def provide(self, words, said):
        self.take(words, 1, int(said[-1]))

    def send(self, words, said):
        host, port, other, other_port, priority, length, seed = words[1:]
        self.take(words, 0, int(said[-1]))
        self.waiting[host, other, int(other_port), int(priority)].append((int(port), int(length), int(seed)))

    def poll(self, words, said):
        if said[3:4] == ["sent"]:
            self.give(words, 0, int(said[-1]))
        elif said[3:4] == ["received"]:
            self.give(words, 1, int(said[5]))
            queue = self.waiting[queue_of(words, said)]
            del queue[:1]

    def take(self, words, kind, token):
        held = self.held.get(port_of(words), [[], []])[kind]
        if token in held:
            held.remove(token)

    def give(self, words, kind, token):
        self.held.setdefault(port_of(words), [[], []])[kind].append(token)


TELLERS = {"open": Told.open, "close": Told.close, "provide": Told.provide, "send": Told.send, "poll": Told.poll}


def port_of(words):
    return words[1], int(words[2])


def queue_of(words, said):
    """The queue of a received line: sender, receiver, its port, priority."""
    return said[7], words[1], int(words[2]), int(said[10])


def map_of(answer):
    text = "\n".join(" ".join(it) for _, it in answer.lines)
    return (Report(text).of(Map) or [None])[0]


def due(fabric, report, line, why):
    """What was due at this line of a report, sentence by sentence."""
    told = Told()
    for it in answers(fabric, report):
        if it.has(line) or not it.is_whole():
            return [at_command(it), *WHYS[why](told, it, line)]
        told.add(it)
    return ["the script's last command is answered above it, and nothing may follow"]


def at_command(answer):
    asked = f"the answer of line {answer.line} of the text, {' '.join(answer.words)}"
    return f"it is in {asked}" if answer.lines else f"{asked}, is missing"


def due_form(told, answer, line):
    yield "such an answer has this form, with the command's own names:"
    yield from (f"  {it}" for it in ANSWERS[answer.words[0]])


def due_map(told, answer, line):
    yield "the map says complete, and differs from the fabric of the text:"
    yield from (f"  {it.text}" for it in differences.find(answer.fabric, map_of(answer)))


def due_route(told, answer, line):
    if told.shown is None or told.shown.words != "complete":
        yield "the last map isn't complete, or none was made"
        return
    routes = [it for it in answer.lines if it[1][0] == "route"]
    own = next((words for number, words in routes if number == line), None)
    if own:
        yield where_it_leads(told.shown, own)
        return
    there = {(words[1], words[2]) for _, words in routes}
    missing = [f"{a} to {b}" for a, b in sorted(permutations(told.shown.hosts(), 2)) if (a, b) not in there]
    yield f"pairs without a route: {', '.join(missing[:8])}{', ..' if len(missing) > 8 else ''}"


def where_it_leads(shown, words):
    way, at = ends_of(shown, words)
    named = f"from {words[1]} to {words[2]}"
    if words[1] == words[2]:
        return f"a route leads from one host to another, and this one {named}"
    if at is None:
        return f"the route {named} is stuck after {end_text(way[-1])}"
    return f"the route {named} ends at {at[0]}"


def ends_of(shown, words):
    """The ends of a map that a route leaves, and the one that it enters last, or None where that isn't there."""
    out, at = [], (words[1], 0)
    for turn in [*words[3:], None]:
        out.append(at)
        at = shown.far_ends.get(at)
        if at is None or turn is None:
            return out, at
        if not at[0].startswith("#"):
            return out, None
        at = (at[0], at[1] + int(turn))
    return out, at


def due_rank(told, answer, line):
    ranks = {(words[1], int(words[2])): int(words[3]) for _, words in answer.lines if words[0] == "rank"}
    for _, words in answer.lines:
        if words[0] == "route":
            yield from not_rising(ranks, words, ends_of(told.shown, words)[0])


def not_rising(ranks, words, way):
    for before, after in zip(way, way[1:]):
        first, second = ranks.get(before), ranks.get(after)
        if first is None or second is None or first >= second:
            yield f"along the route from {words[1]} to {words[2]} the rank is {rank_text(first)} at {end_text(before)} and then {rank_text(second)} at {end_text(after)}"
            return


def rank_text(rank):
    return "missing" if rank is None else rank


def end_text(end):
    return f"{end[0]} {end[1]:+d}" if end[1] else f"{end[0]} 0"


def due_message(told, answer, line):
    queue = queue_of(answer.words, answer.first())
    waiting = told.waiting[queue]
    named = "from {} to {}, port {}, priority {}".format(*queue)
    if not waiting:
        yield f"no message {named} waits to be received"
        return
    port, length, seed = waiting[0]
    bytes_ = " ".join(f"{(seed + it) % 256:02x}" for it in range(min(length, 8)))
    more = " .." if length > 8 else ""
    count = "1 byte" if length == 1 else f"{length:,} bytes"
    yield f"the next message {named} is of port {port} and has {count}: {bytes_ or '-'}{more}"


def due_token(told, answer, line):
    held = told.held.get(port_of(answer.words))
    at = f"port {answer.words[2]} of {answer.words[1]}"
    if held is None:
        yield f"no line before it opened {at}, or one closed it"
        return
    sends, recvs = (" ".join(map(str, sorted(it))) or "none" for it in held)
    yield f"by the lines before it the client of {at} holds the send tokens {sends} and the receive tokens {recvs}"


WHYS = {"form": due_form, "map": due_map, "route": due_route, "rank": due_rank, "message": due_message, "token": due_token}


def beside(fabric, report):
    """What no judge looks at, and yet is wrong by the text, as (line, sentence): where walks end."""
    for it in answers(fabric, report):
        if it.words[0] == "walk" and it.lines and it.first() != walked(it.fabric, it.words):
            yield it.lines[0][0], f"the report says '{' '.join(it.first())}', and the walk of line {it.line} of the text ends by '{' '.join(walked(it.fabric, it.words))}'"


def walked(fabric, words):
    """The answer of a walk over a fabric."""
    way, is_stuck = fabrics.follow(fabric, words[1], [int(it) for it in words[2:]])
    if is_stuck:
        return ["walk", "nothing"]
    vertex, port = way[-1][1]
    return ["walk", "host", vertex] if vertex in fabric.hosts else ["walk", "switch", vertex, "port", str(port)]
