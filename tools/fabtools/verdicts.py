"""What is found of a manager's routes, as sentences in the files' own names, and as facts for a program."""

from fabtools import circles
from fabtools.answering import end
from fabtools.words import counted

# So many lines are printed where not all are asked for.
FEW = 10
LANES = (
    "tables don't say which virtual lane a path takes: dfsssp, lash, nue and torus-2QoS choose it by the path's "
    "service level, and may keep these routes apart",
    "--paths and --lanes tell the lanes; --one-lane says that all paths have one service level, as under minhop, updn, "
    "dnup, ftree, dor and sssp",
)


def host_names(senders, is_whole):
    """Some hosts, of which one stands for the others."""
    others = "" if len(senders) == 1 else f" and {counted(len(senders) - 1, 'other')}"
    return ", ".join(it.name for it in senders) if is_whole else senders[0].name + others


def fault_text(fault, is_whole=False):
    senders, receiver, lid, fate = fault
    return f"{host_names(senders, is_whole)} to {receiver.name}, LID {lid}: {fate.text}"


def step_text(followed, channel, witness):
    """A channel of a circle, with the route that goes on to the next."""
    sender, receiver, lid = witness
    lane = f", lane {channel[2]}" if followed.lanes else ""
    of = f", LID {lid}" if len(receiver.lids) > 1 else ""
    route = f"the route from {sender.name} to {receiver.name}{of}"
    return f"{followed.subnet.channel_text(channel[:2])}{lane}: {route} goes on to the next"


class Found:
    """What is wrong with routes: faults, and a shortest circle of channels with the routes that make its steps."""

    def __init__(self, followed):
        self.followed, self.faults = followed, followed.faults
        circle = circles.shortest(followed.after)
        self.circle = [(one, followed.after[one][other]) for one, other in zip(circle, circle[1:] + circle[:1])]

    def heads(self, is_sure):
        """The sections: a heading each, and its lines."""
        if self.faults:
            lost, count = self.followed.lost(), counted(self.followed.count, "route")
            doesnt = "doesn't lead to its host" if lost == 1 else "don't lead to their host"
            yield f"no: {lost:,} of {count} {doesnt}", self.faults
        if self.circle:
            each = "each for the next, the last for the first"
            these = f"these {len(self.circle)} channels wait in a circle, {each}"
            these = these if len(self.circle) > 1 else "this channel waits for itself"
            yield f"no: {these}" if is_sure else f"undecided: in one lane {these}", self.circle

    def lines(self, is_whole, is_sure):
        """All sections, each with as many lines as fit into few, or whole."""
        sections = list(self.heads(is_sure))
        room = FEW // max(1, len(sections)) - 2
        for head, items in sections:
            texts = [self.text_of(it, is_whole) for it in (items if is_whole else items[:room])]
            yield from [head, *(f"  {it}" for it in texts)]
            if len(texts) < len(items):
                yield f"  and {len(items) - len(texts):,} more: --all lists them"
        if self.circle and not is_sure:
            yield from LANES

    def text_of(self, item, is_whole=True):
        return step_text(self.followed, *item) if len(item) == 2 else fault_text(item, is_whole)

    def facts(self, is_sure):
        """The findings for a program."""
        for fault in self.faults:
            senders, receiver, lid, fate = fault
            text, way = fault_text(fault), fate.way or [fate.end]
            yield {"kind": fate.kind, "text": text, **self.routes(senders, receiver, lid), "at": self.ends(way)}
        kind = "circle" if is_sure else "circle in one lane"
        for channel, (sender, receiver, lid) in self.circle:
            text, at = step_text(self.followed, channel, (sender, receiver, lid)), self.ends([channel[:2]])
            yield {"kind": kind, "text": text, **self.routes([sender], receiver, lid), "at": at, "lane": channel[2]}

    def routes(self, senders, receiver, lid):
        return {"from": [it.name for it in senders], "to": receiver.name, "lid": lid}

    def ends(self, way):
        return [end((self.followed.subnet.names[key], port)) for key, port in way]


def loads(followed):
    """Each channel between switches with the number of routes over it, the most first."""
    subnet = followed.subnet
    ends = [(it.key, port) for it in subnet.switches() for port in it.far]
    ends = [it for it in ends if subnet.nodes[subnet.far(it)[0]].is_switch]
    return sorted(((followed.loads[it], subnet.channel_text(it)) for it in ends), key=lambda it: (-it[0], it[1]))


def load_lines(followed, is_whole):
    """How the routes load the channels between switches."""
    found = loads(followed)
    if not found:
        yield "no cable is between switches"
        return
    counts = [it[0] for it in found]
    mean, unused = sum(counts) / len(counts), counts.count(0)
    most = f"{counts[0]:,} routes at most, {mean:,.1f} on the average, {unused or 'none'} unused"
    yield f"{counted(len(found), 'channel')} between switches: {most}"
    shown = found if is_whole else found[: FEW - 1]
    yield from (f"  {count:,} over {text}" for count, text in shown)
    if len(shown) < len(found):
        yield f"  and {len(found) - len(shown):,} more: --all lists them"
