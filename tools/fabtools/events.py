"""What happened in a run, as sentences: each line of the script beside what the report answers it, in order."""

from fabtools import meanings, waiting
from fabtools.report import Broken, CircuitMap, Map, Routes
from fabtools.words import counted

KINDS = ("commands", "messages", "faults", "ports", "steps", "refused")
KIND = {"open": "ports", "close": "ports", "provide": "ports", "tokens": "ports", "send": "messages", "poll": "messages", "plan": "faults"}
STRIKES = ("lose", "repeat", "hold", "flip", "reset")


class Event:
    """A line of the script: its kind, its line in the text and in the report, what it says and what that means."""

    def __init__(self, kind, line, report, says, means=None, pair=None):
        self.kind, self.line, self.report, self.says, self.means, self.pair = kind, line, report, says, means, pair


def events(fabric, items):
    """The events of the lines of a fabric's script and a report's items; they end where either does."""
    items, found = list(items), []
    waits = waiting.after_settles(fabric, items)
    for line, words in fabric.script:
        if not items:
            break
        item = items.pop(0)
        found.append(event(line, words, item, waits))
        while items and is_table(items[0]):
            items.pop(0)
    return found


def is_table(item):
    return isinstance(item, tuple) and item[1][0] == "table"


def event(line, words, item, waits):
    if isinstance(item, Map):
        asked = f"{item.host} maps {words[2]} deep: {item.words}, by {counted(item.asks, 'ask')}"
        # The report that tools/judge-routes makes of a manager's files has a map that nobody asked for.
        return Event("commands", line, item.line, asked if item.asks else "the network as it was given: no host mapped it")
    if isinstance(item, CircuitMap):
        return Event("commands", line, item.line, f"{item.host} maps circuit links {item.depth} deep, by {counted(item.asks, 'ask')}")
    if isinstance(item, Routes):
        return Event("commands", line, item.line, f"{counted(len(item.routes), 'route')}, and {counted(len(item.ranks), 'rank')}")
    if isinstance(item, Broken):
        return Event("commands", line, item.line, f"{counted(len(item.pairs), 'installed route')} over pulled cables", item.pairs and meanings.BROKEN)
    at, answer = item
    means = waits.get(at) or meanings.of_line(answer)
    means = "; ".join(means) if isinstance(means, list) else means
    return Event(kind_of(words, answer), line, at, says(words, answer), means, pair_of(words, answer))


def kind_of(words, answer):
    if "refused" in answer:
        return "refused"
    if words[0] == "step":
        return "faults" if words[1] in STRIKES and answer != ["step", "idle"] else "steps"
    return KIND.get(words[0], "commands")


def pair_of(words, answer):
    """The hosts of a message, from its sender to its receiver."""
    if words[0] == "send":
        return words[1], words[3]
    if words[0] == "poll" and "from" in answer:
        return answer[answer.index("from") + 1], words[1]
    return None


def says(words, answer):
    """A line of the script with its answer as a sentence."""
    if "refused" in answer:
        return f"{' '.join(words)}: refused, {' '.join(answer[answer.index('refused') + 1:])}"
    teller = TELLERS.get(words[0])
    return teller(words, answer) if teller else f"{' '.join(words)}: {' '.join(answer[1:])}"


def of_send(words, answer):
    return f"{words[1]}:{words[2]} sends {bytes_of(words[6])} to {words[3]}:{words[4]}, priority {words[5]}"


def of_poll(words, answer):
    at = f"{words[1]}:{words[2]}"
    if answer[3:] == ["nothing"]:
        return f"{at} has no event"
    if answer[3] == "sent":
        return f"{at} sent: the message is acknowledged"
    said = dict(zip(answer[3::2], answer[4::2]))
    sender, port, length = answer[7], answer[8], answer[answer.index("len") + 1]
    first = answer[-1] if len(answer[-1]) <= 24 else answer[-1][:24] + ".."
    return f"{at} received {bytes_of(length)} from {sender}:{port}: {first}" if "received" in said else " ".join(answer)


def bytes_of(count):
    return "1 byte" if count == "1" else f"{int(count):,} bytes"


def of_plan(words, answer):
    more = f", bit {words[3]} by {words[4]}" if words[1] == "flip" else ""
    if words[1] == "pull":
        return f"planned: port {words[4]} of {words[3]} is pulled at injection {answer[-1]}"
    return f"planned: {words[1]} injection {answer[-1]}{more}"


def of_settle(words, answer):
    left = "all is acknowledged" if answer[-1] == "0" else f"{answer[-1]} not acknowledged"
    stuck = f", {answer[4]} taken away" if answer[4] != "0" else ""
    rounds = "1 round" if answer[2] == "1" else f"{answer[2]} rounds"
    return f"settled in {rounds}{stuck}: {left}"


TELLERS = {
    "send": of_send,
    "poll": of_poll,
    "plan": of_plan,
    "settle": of_settle,
    "pull": lambda words, answer: f"the cable at port {words[2]} of {words[1]} is pulled",
    "plug": lambda words, answer: f"port {words[2]} of {words[1]} and port {words[4]} of {words[3]} are joined",
    "revoke": lambda words, answer: f"hosts that give up the installed routes: {answer[1]}",
    "install": lambda words, answer: f"tables installed at {answer[1]} of {answer[3]} hosts",
    "open": lambda words, answer: f"{words[1]} opens port {words[2]} with {words[3]} send and {words[4]} receive tokens",
    "provide": lambda words, answer: f"{words[1]}:{words[2]} provides a buffer of size {words[3]}, priority {words[4]}",
    "end": lambda words, answer: "the end" if answer[2] == "0" else f"the end: {answer[2]} packets injected, {answer[4]} dropped",
}
