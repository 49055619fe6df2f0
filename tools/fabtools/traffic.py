"""Scripts of traffic: each message has its tokens, its buffer's size, a settle that brings it, and the polls that take it."""

from random import Random

from fabtools.waiting import fragments, least_size

# A port has at most so many tokens of a kind: so many messages go before each settle.
TOKENS = 64
FAULTS = ("lose", "repeat", "hold", "flip")
SENDING, RECEIVING = 0, 1


def pairs(hosts, kind, shift=1):
    """Rounds of messages as pairs of hosts; in a round no host sends or receives twice, except in one to all."""
    count = len(hosts)
    if kind == "one":
        return [[(hosts[0], it)] for it in hosts[1:]]
    shifts = range(1, count) if kind == "all" else [shift % count]
    return [[(hosts[at], hosts[(at + by) % count]) for at in range(count)] for by in shifts if by]


def script(rounds, length, faults, seed):
    """The lines after an installation: ports opened, and the rounds sent in batches."""
    chance = Random(seed)
    batches = [rounds[at : at + TOKENS] for at in range(0, len(rounds), TOKENS)]
    lines = list(opened(rounds, min(TOKENS, len(rounds))))
    for number, batch in enumerate(batches):
        share = faults // len(batches) + (number < faults % len(batches))
        lines += batch_lines([it for one in batch for it in one], length, share, chance)
    return lines


def opened(rounds, tokens):
    messages = [it for one in rounds for it in one]
    for sender in dict.fromkeys(a for a, _ in messages):
        yield f"open {sender} {SENDING} {tokens} 0"
    for receiver in dict.fromkeys(b for _, b in messages):
        most = min(tokens, sum(b == receiver for _, b in messages))
        yield f"open {receiver} {RECEIVING} 0 {most}"


def batch_lines(messages, length, faults, chance):
    size = least_size(length)
    for _, receiver in messages:
        yield f"provide {receiver} {RECEIVING} {size} 0"
    for at, (sender, receiver) in enumerate(messages):
        yield f"send {sender} {SENDING} {receiver} {RECEIVING} 0 {length} {at % 256}"
    yield from planned(fragments(length) * len(messages), faults, chance)
    yield "settle"
    for sender, receiver in messages:
        yield f"poll {receiver} {RECEIVING}"
        yield f"poll {sender} {SENDING}"


def planned(injections, faults, chance):
    """Faults for the next injections, one each. More than these there are none to plan for."""
    struck = set()
    for _ in range(min(faults, injections)):
        number = 1 + chance.randrange(injections)
        while number in struck:
            number = number % injections + 1
        struck.add(number)
        fault = FAULTS[chance.randrange(len(FAULTS))]
        flip = f" {chance.randrange(64)} {1 + chance.randrange(255)}" if fault == "flip" else ""
        yield f"plan {fault} {number}{flip}"
