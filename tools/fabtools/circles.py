"""Channels that wait for one another: their order, if there is one, and else a shortest circle.

`after` has for each channel a dictionary whose keys, in their order, are the channels for which it may wait.
"""


def order(after):
    """The channels in an order in which each comes before those for which it may wait, in two lists, with those between
    the two that are in a circle, or between circles: none of these where nothing waits in a circle."""
    left, back = set(after).union(*after.values()), reversed_of(after)
    first, last = peel(left, after), peel(left, back)
    return first, left, last[::-1]


def peel(left, after):
    """Takes away again and again what nothing left comes before, and gives it in that order."""
    before = dict.fromkeys(left, 0)
    for one in left:
        for other in after.get(one, ()):
            if other in before:
                before[other] += 1
    taken = sorted(it for it in left if not before[it])
    for one in taken:
        left.discard(one)
        for other in after.get(one, ()):
            if other in left:
                before[other] -= 1
                if not before[other]:
                    taken.append(other)
    return taken


def reversed_of(after):
    back = {}
    for one, others in after.items():
        for other in others:
            back.setdefault(other, {})[one] = None
    return back


def ranks(after):
    """A number for each channel: it rises along every route if nothing waits in a circle; all in a circle have one."""
    first, core, last = order(after)
    numbers = {it: at for at, it in enumerate(first)}
    numbers.update(dict.fromkeys(core, len(first)))
    numbers.update({it: len(first) + bool(core) + at for at, it in enumerate(last)})
    return numbers


def shortest(after):
    """A shortest circle of channels, each of which may wait for the next and the last for the first; else none."""
    best, left = [], order(after)[1]
    for start in sorted(left):
        best = circle_of(after, left, start, len(best)) or best
        # Every other circle goes elsewhere.
        left.discard(start)
    return best


def circle_of(after, left, start, most):
    """A shortest circle through a channel, where one is shorter than `most`, or there is no such bound."""
    before, level, length = {start: None}, [start], 1
    while level and (not most or length < most):
        further = []
        for one in level:
            for other in after.get(one, ()):
                if other == start:
                    return way_to(before, one)
                if other in left and other not in before:
                    before[other] = one
                    further.append(other)
        level, length = further, length + 1
    return []


def way_to(before, end):
    way = []
    while end is not None:
        way.insert(0, end)
        end = before[end]
    return way
