"""What the lines of cables and epochs must answer, and the settles among them: a model over the tools' own fabric, apart from the program."""

from fabtools import fabric as fabrics
from fabtools import report, waiting


class Model:
    """A run so far: what clients did and which cables are cut, the last map and routes with the number of changes when that map began, the adopted routes."""

    def __init__(self, fabric):
        self.calls, self.changes = waiting.Calls(fabric), 0
        self.mapped = self.routed = self.adopted = None
        self.is_revoked = False

    def fault(self, line, words, item):
        """What the answer to a line of the script should be where it isn't that, or None; the line is done then."""
        wanted = getattr(self, f"of_{words[0]}", lambda *_: None)(words, item)
        answer = item[1] if isinstance(item, tuple) else []
        self.calls.call(line, words, answer) if answer else None
        if words[0] in ("pull", "plug") and answer[-1] == "done":
            self.changes += 1
        if words[0] == "settle":
            self.calls.settle()
            waits = sum(waiting.fragments(length) for lane in self.calls.sent.values() for *_, length in lane)
            wanted = None if answer[-1] == str(waits) else f"settle .. unacked {waits}"
        return wanted

    def differs(self, item, wanted):
        """The wanted line, where it isn't the one that was said."""
        return None if isinstance(item, tuple) and " ".join(item[1]) == wanted else wanted

    def of_walk(self, words, item):
        way, is_stuck = fabrics.follow(self.calls.fabric, words[1], [int(it) for it in words[2:]])
        if is_stuck:
            return self.differs(item, "walk nothing")
        vertex, port = way[-1][1]
        return self.differs(item, f"walk host {vertex}" if vertex in self.calls.fabric.hosts else f"walk switch {vertex} port {port}")

    def of_map(self, words, item):
        if not isinstance(item, report.Map) or item.words != "complete":
            return f"map {words[1]} complete .."
        self.mapped = item.hosts(), self.calls.fabric, self.changes
        return report.misfit(self.calls.fabric, item)

    def of_routes(self, words, item):
        if not self.mapped:
            return self.differs(item, "routes refused nomap")
        hosts, fabric, began = self.mapped
        self.routed = item.routes, began, len(hosts)
        pairs = {(a, b) for a in hosts for b in hosts if a != b}
        led = {(a, b) for a, b, turns in item.routes if leads_there(fabric, a, b, turns)}
        return None if led == pairs and len(item.routes) == len(pairs) else "a route that leads there for each two hosts"

    def of_install(self, words, item):
        refusal = self.refusal()
        if refusal:
            return self.differs(item, f"install refused {refusal}")
        routes, began, count = self.routed
        self.calls.compute(routes)
        self.adopted, self.is_revoked = (routes, began), False
        return self.differs(item, f"installed {count} of {count}")

    def refusal(self):
        if not self.routed:
            return "noroutes"
        if self.routed[1] != self.changes:
            return "changed"
        is_kept = self.adopted == self.routed[:2]
        return "installed" if self.adopted and not self.is_revoked and not is_kept else None

    def of_revoke(self, words, item):
        self.is_revoked = True
        return self.differs(item, f"revoked {len(self.calls.fabric.hosts) if self.adopted else 0}")

    def of_broken(self, words, item):
        if not self.adopted:
            return self.differs(item, "broken refused noroutes")
        wanted = [it for it in self.calls.installed if self.calls.is_cut(*it)]
        return None if isinstance(item, report.Broken) and item.pairs == wanted else f"broken {wanted}"

    def of_pull(self, words, item):
        has_cable = self.calls.fabric.far((words[1], int(words[2])))
        return self.differs(item, f"{' '.join(words)} {'done' if has_cable else 'refused nocable'}")

    def of_plug(self, words, item):
        a, b = (words[1], int(words[2])), (words[3], int(words[4]))
        is_used = a == b or any(map(self.calls.fabric.far, (a, b)))
        return self.differs(item, f"{' '.join(words)} {'refused portused' if is_used else 'done'}")


def leads_there(fabric, sender, receiver, turns):
    way, is_stuck = fabrics.follow(fabric, sender, turns)
    return not is_stuck and way[-1][1] == (receiver, 0)


def first_fault(fabric, report_text):
    """The first line of a fabric's script whose answer the model has otherwise, with what it should be and what it is; or None."""
    model, items = Model(fabric), report.Report(report_text).items
    for line, words in fabric.script:
        if not items:
            return words, "something", "nothing"
        item = items.pop(0)
        wanted = model.fault(line, words, item)
        if wanted:
            return words, wanted, " ".join(item[1]) if isinstance(item, tuple) else f"the {type(item).__name__} of line {item.line}"
        while items and isinstance(items[0], tuple) and items[0][1][0] == "table":
            _, (_, host, state) = items.pop(0)
            model.calls.tables[host] = state
    return None


def steps(fabric, new, sender, receiver, turns):
    """The lines that step a message from its host on, and what they must answer: `new` are cables, as sets of two ends, that no message enters."""
    at, turns = (sender, 0), list(turns)
    if not fabric.far(at) or frozenset((at, fabric.far(at))) in new:
        return [(f"step inject {sender}", "idle")]
    told = [(f"step inject {sender}", "injected")]
    while True:
        line, (vertex, port) = f"step advance {at[0]} {at[1]}", fabric.far(at)
        if vertex in fabric.hosts or not turns:
            return [*told, (line, ended(fabric, vertex, receiver, turns))]
        at = (vertex, port + turns.pop(0))
        if not 0 <= at[1] < fabric.ports(vertex):
            return [*told, (line, "dropped outofrange")]
        if not fabric.far(at) or frozenset((at, fabric.far(at))) in new:
            return [*told, (line, "dropped newcable" if fabric.far(at) else "dropped nocable")]
        told.append((line, f"moved {at[0]} {at[1]}"))


def ended(fabric, vertex, receiver, turns):
    """What becomes of a message that enters a host, or a switch without a turn left."""
    if vertex not in fabric.hosts:
        return "dropped notroute"
    if turns:
        return "dropped routeleft"
    return f"arrived {vertex} message" if vertex == receiver else "dropped notmine"
