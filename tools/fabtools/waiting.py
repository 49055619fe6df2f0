"""What waits after a settle, and for what: the script's calls and the report's answers, followed side by side."""

from fabtools import fabric as fabrics
from fabtools.reading import number
from fabtools.report import Broken, Routes, Shown
from fabtools.words import counted


def least_size(length):
    """The size class that a message of this length fits."""
    size = 4
    while 2**size - 8 < length:
        size += 1
    return size


def fragments(length):
    """How many packets a message of this length takes."""
    return max(1, -(-length // 1016))


class Calls:
    """What was done so far: ports that are open, tokens that are provided, messages that aren't taken, tables that are active;
    the fabric as it stands, the cables that the last and the installed routes cross, and those pulled since these were installed."""

    def __init__(self, fabric):
        self.open, self.provided, self.sent, self.tables, self.is_known = set(), {}, {}, {}, True
        self.fabric, self.crossed, self.installed, self.cut = fabric, {}, {}, set()

    def call(self, line, words, answer):
        """One call of a script, at its line, with the words of its answer after its host and port."""
        at = tuple(words[1:3])
        if "refused" in answer:
            return
        if words[0] == "open":
            self.open.add(at)
        elif words[0] == "close":
            self.open.discard(at)
            self.provided.pop(at, None)
        elif words[0] == "provide":
            self.provided.setdefault(at, []).append((int(words[3]), int(words[4])))
        elif words[0] == "send":
            message = (line, (words[3], words[4]), int(words[5]), int(words[6]))
            self.sent.setdefault((words[1], words[3], message[2]), []).append(message)
        elif words[0] == "step" or words[:2] == ["plan", "pull"]:
            self.is_known = False
        else:
            self.change(words, answer)

    def change(self, words, answer):
        """A line that changes cables or routes."""
        before, self.fabric = self.fabric, self.fabric.after(answer)
        self.cut |= self.fabric.lost_since(before)
        if words[0] == "install":
            self.installed, self.cut = self.crossed, set()
        elif words[0] == "revoke":
            self.tables = {}

    def compute(self, routes):
        """Routes were computed: which cables each crosses."""
        self.crossed = {(a, b): {frozenset(it) for it in fabrics.follow(self.fabric, a, turns)[0]} for a, b, turns in routes}

    def is_cut(self, sender, receiver):
        """Whether a cable of the installed route was pulled since it was installed."""
        return not self.cut.isdisjoint(self.installed.get((sender, receiver), ()))

    def settle(self):
        """Each message that can be taken is."""
        goes_on = True
        while goes_on:
            goes_on = False
            for lane in self.sent:
                while self.take_first(lane):
                    goes_on = True

    def take_first(self, lane):
        if not self.sent[lane] or self.cause(lane):
            return False
        _, port, prio, length = self.sent[lane].pop(0)
        self.provided[port].remove((least_size(length), prio))
        return True

    def cause(self, lane):
        """Why the first message of a pair of hosts and a priority can't be taken and acknowledged, or None."""
        _, port, prio, length = self.sent[lane][0]
        size = least_size(length)
        if self.tables.get(lane[0]) != "active":
            return f"{lane[0]} has no routes, so it can't send: 'install' again"
        if self.tables.get(lane[1]) != "active":
            return f"{lane[1]} has no routes, so it can't acknowledge: 'install' again"
        for one, other in (lane[:2], lane[1::-1]):
            if (one, other) not in self.installed:
                return f"no route from {one} to {other} is installed: 'map', 'routes', 'revoke', 'install'"
        if self.is_cut(*lane[:2]) or self.is_cut(lane[1], lane[0]):
            return "its route, or the one back, crosses a pulled cable: 'map', 'routes', 'revoke', 'install'"
        if port not in self.open:
            return f"port {port[1]} of {port[0]} isn't open"
        if (size, prio) not in self.provided.get(port, []):
            return f"port {port[1]} of {port[0]} has no token of size {size} and priority {prio}: 'provide {port[0]} {port[1]} {size} {prio}'"
        return None

    def waiting(self):
        """For each pair of hosts and priority with messages that wait: the first one, how many more, and what it waits for."""
        for lane, messages in self.sent.items():
            if messages:
                line, port, prio, length = messages[0]
                others = f", and {len(messages) - 1} more after it" if len(messages) > 1 else ""
                first = f"{lane[0]} to {lane[1]}: the message of line {line} ({counted(length, 'byte')}, priority {prio}) waits{others}"
                yield f"{first}: {self.cause(lane)}"


def after_settles(fabric, items):
    """For the line of each settle in a report: what waits after it, where its count of unacknowledged fragments agrees."""
    calls, told, items = Calls(fabric), {}, list(items)
    for line, words in fabric.script:
        if not items:
            break
        item = items.pop(0)
        if isinstance(item, Routes):
            calls.compute(item.routes)
        if isinstance(item, (Shown, Routes, Broken)):
            continue
        at, answer = item
        calls.call(line, words, answer)
        if words[0] == "settle":
            calls.settle()
            waiting = sum(fragments(length) for lane in calls.sent.values() for *_, length in lane)
            told[at] = list(calls.waiting()) if calls.is_known and waiting == number(answer[-1], None) else []
        while items and isinstance(items[0], tuple) and items[0][1][0] == "table":
            _, (_, host, state) = items.pop(0)
            calls.tables[host] = state
    return told
