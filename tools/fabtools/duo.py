"""Two hosts that restart, and the medium between them: a model of what one event does, apart from the program's.

It keeps messages where the program keeps bytes, and looks a period up by its numbers. After each event it can be asked
whether what was got is in order and whether each token has one owner; a poll asks by itself whether it says the truth.
"""

from dataclasses import dataclass, field
from random import Random

WINDOW, PIECE, NUMBERS, LAST_INCARNATION = 8, 1016, 2**32 - 1, 2**32 - 1
LEAST_SIZE, GREATEST_SIZE = 4, 16
TOKENS = range(4)
KINDS = {"send": 3, "provide": 2, "emit": 1, "deliver": 1, "expire": 1, "poll": 1, "restart": 1}


class Fault(Exception):
    """What holds after every list of events, and doesn't."""


@dataclass
class Period:
    """A time in which an end is one incarnation and knows one of its peer, 0 where it knows none."""

    inc: int
    known: int = 0
    sent: list = field(default_factory=list)
    got: list = field(default_factory=list)
    base: int = 0
    cursor: int = 0
    top: int = 0
    owes: bool = False

    def due(self):
        return self.cursor < len(self.sent) and self.cursor < self.base + WINDOW


class End:
    """One end: its periods, the present one last; the tokens of its client, and where the others are."""

    def __init__(self, inc, past=()):
        self.periods = [*past, Period(inc)]
        self.sends, self.recvs = list(TOKENS), list(TOKENS)
        self.waiting = []  # tokens and the places of their messages, in order
        self.provided = []  # tokens and sizes
        self.events = []  # sent, unsure or received, a token, and what belongs to it
        self.owes_hello = False

    @property
    def now(self):
        return self.periods[-1]

    def come_back(self, word, tickets):
        self.events += [(word, token, (self.now.known, place)) for token, place in tickets]
        self.waiting = self.waiting[len(tickets) :]


class Duo:
    """Both ends, and all that they ever emitted."""

    def __init__(self, inc=1):
        self.ends, self.medium = [End(inc), End(inc)], []

    def period(self, x, inc, known):
        found = (it for it in self.ends[x].periods if (it.inc, it.known) == (inc, known))
        return next(found, Period(inc, known))

    def line(self, line):
        """What the report says of a line, both without `duo`."""
        word, *numbers = line.split()
        return getattr(self, word)(*map(int, numbers))

    def send(self, x, length, seed):
        end = self.ends[x]
        if not end.sends:
            return "refused notoken"
        if length > PIECE:
            return "refused toolong"
        if len(end.now.sent) == NUMBERS:
            return "refused spent"
        token = end.sends.pop(0)
        end.waiting.append((token, len(end.now.sent)))
        end.now.sent.append(bytes((seed + at) % 256 for at in range(length)))
        return f"token {token}"

    def provide(self, x, size):
        end = self.ends[x]
        if not end.recvs:
            return "refused notoken"
        if not LEAST_SIZE <= size <= GREATEST_SIZE:
            return "refused badsize"
        end.provided.append((end.recvs.pop(0), size))
        return f"token {end.provided[-1][0]}"

    def emit(self, x):
        end, now = self.ends[x], self.ends[x].now
        if now.known == 0 or end.owes_hello:
            end.owes_hello = False
            packet = (self.hear_hello, x, now.inc, now.known)
        elif now.owes:
            now.owes = False
            packet = (self.hear_ack, x, now.inc, now.known, len(now.got))
        elif now.due():
            packet = (self.hear_frame, x, now.inc, now.known, now.cursor)
            now.cursor += 1
            now.top = max(now.top, now.cursor)
        else:
            return "idle"
        self.medium.append(packet)
        return f"emitted {len(self.medium) - 1}"

    def deliver(self, place):
        if place >= len(self.medium):
            return "idle"
        hear, *packet = self.medium[place]
        return hear(*packet)

    def hear_hello(self, src, inc, knows):
        end = self.ends[1 - src]
        if inc < end.now.known:
            return "stale"
        if end.now.known == 0:
            end.now.known = inc
        elif inc > end.now.known:
            end.come_back("unsure", end.waiting)
            end.periods.append(Period(end.now.inc, inc))
        end.owes_hello |= knows != end.now.inc
        return "hello"

    def is_stale(self, src, src_inc, dst_inc):
        now = self.ends[1 - src].now
        return (src_inc, dst_inc) != (now.known, now.inc)

    def hear_ack(self, src, src_inc, dst_inc, number):
        if self.is_stale(src, src_inc, dst_inc):
            return "stale"
        end, now = self.ends[1 - src], self.ends[1 - src].now
        if now.base < number <= now.top:
            now.base, now.cursor = number, max(now.cursor, number)
            end.come_back("sent", [it for it in end.waiting if it[1] < number])
        return "ack"

    def hear_frame(self, src, src_inc, dst_inc, number):
        if self.is_stale(src, src_inc, dst_inc):
            return "stale"
        end, now = self.ends[1 - src], self.ends[1 - src].now
        now.owes = True
        if number != len(now.got):
            return "notnext"
        message = self.period(src, src_inc, dst_inc).sent[number]
        least = next(it for it in range(LEAST_SIZE, GREATEST_SIZE + 1) if len(message) <= 2**it - 8)
        fitting = [it for it in end.provided if it[1] == least]
        if not fitting:
            return "notoken"
        end.provided.remove(fitting[0])
        end.events.append(("received", fitting[0][0], message))
        now.got.append(message)
        return "message"

    def expire(self, x):
        now = self.ends[x].now
        if now.base == len(now.sent):
            return "idle"
        now.cursor = now.base
        return "expired"

    def poll(self, x):
        end = self.ends[x]
        if not end.events:
            return "nothing"
        word, token, what = end.events.pop(0)
        if word == "received":
            end.recvs.append(token)
            return f"received {token} {what.hex() or '-'}"
        end.sends.append(token)
        self.ask_truth(x, word, *what)
        return f"{word} {token}"

    def restart(self, x):
        end = self.ends[x]
        if end.now.inc == LAST_INCARNATION:
            return "refused spent"
        self.ends[x] = End(end.now.inc + 1, end.periods)
        return f"restarted {end.now.inc + 1}"

    def ask_truth(self, x, word, known, place):
        """Sent is told of what was got, unsure of what was for an incarnation that is over."""
        got = self.period(1 - x, known, self.ends[x].now.inc).got
        if word == "sent" and not place < len(got):
            raise Fault("sent is told of a message that wasn't got")
        if word == "unsure" and not known < self.ends[1 - x].now.inc:
            raise Fault("unsure is told of a message to an incarnation that lives")

    def ask_order(self):
        """What each incarnation got is a prefix of what it was sent."""
        for x, end in enumerate(self.ends):
            for it in end.periods:
                if it.got != self.period(1 - x, it.known, it.inc).sent[: len(it.got)]:
                    raise Fault(f"incarnation {it.inc} of end {x} got other messages than {it.known} of its peer sent it")

    def ask_owners(self):
        """Each token of the living incarnations has one owner."""
        for x, end in enumerate(self.ends):
            back = [it[1] for it in end.events if it[0] != "received"]
            come = [it[1] for it in end.events if it[0] == "received"]
            sends = [*end.sends, *(it[0] for it in end.waiting), *back]
            recvs = [*end.recvs, *(it[0] for it in end.provided), *come]
            if not sorted(sends) == sorted(recvs) == list(TOKENS):
                raise Fault(f"a token of end {x} has no owner, or two")


def random_line(chance, emitted):
    """A line that is likely to go on: what was emitted lately mostly arrives, and now and then what is long over."""
    word = chance.choices(list(KINDS), [4, 4, 10, 12, 1, 5, 0.6])[0]
    x = chance.randrange(2)
    if word == "send":
        return f"send {x} {chance.choice([0, 1, 8, 9, 24, 25, 1016, 1017, *range(8)])} {chance.randrange(256)}"
    if word == "provide":
        return f"provide {x} {chance.choice([4] * 8 + [3, 5, 6, 10, 16, 17])}"
    if word == "deliver":
        lately = chance.random() < 0.8
        return f"deliver {chance.randrange(max(0, emitted - 3) if lately else 0, emitted + 2)}"
    return f"{word} {x}"


def walk(seed, count):
    """So many random lines, each with what the report says of it; what must hold is asked after each."""
    chance, duo = Random(seed), Duo()
    for _ in range(count):
        line = random_line(chance, len(duo.medium))
        yield line, duo.line(line)
        duo.ask_order()
        duo.ask_owners()
