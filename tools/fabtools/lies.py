"""Texts with reports that are changed at random: byte by byte, line by line, and in what single words say."""

from fabtools import answered

LETTERS = " \n\r\t0123456789+-#=_abcdefghijklmnopqrstuvwxyz"
WORDS = (
    "done refused token sent received nothing complete incomplete doubtful depth nodes asks packets host switch cable route rank table active none core"
    " outside endmap endroutes endbroken broken pull plug revoked installed of client queue provided event send recv end 0 1 2 3 7 15 -1 +1 #0 #1"
    " 18446744073709551615 18446744073709551616 0001"
).split()
# The lines of a report of which more is judged than their form.
JUDGED = ("route", "rank", "cable", "host", "map", "poll", "poll", "send", "provide", "tokens", "close", "open", "pull", "plug", "installed", "table", "switch", "broken")
MAP_WORDS = ("complete", "doubtful 1", "incomplete depth")
OTHERS = {"active": "none", "none": "active", "core": "outside", "outside": "core"}


def bases(folder):
    """The texts of a folder with their reports that are judged: (name, both, how many characters the text has)."""
    for path in sorted(folder.glob("*.in")):
        text = path.read_bytes().decode("latin-1")
        words, status, report = (path.with_suffix(it) for it in (".words", ".status", ".out"))
        if words.exists() and words.read_text().split() == ["judge"]:
            yield path.stem, text, 0
        elif report.exists() and not words.exists() and not status.exists() and not answered.unjudged(text):
            text += "" if text.endswith("\n") else "\n"
            yield path.stem, text + report.read_bytes().decode("latin-1"), len(text)


def changed(random, both, begin):
    """A text with its report, whose report begins there, changed at one to three places, mostly of the report."""
    change = random.choice((change_byte, change_line, change_word, change_word))
    for _ in range(random.choice((1, 1, 1, 2, 3))):
        both = change(random, both, begin if random.random() < 0.9 and begin < len(both) else 0) or "\n"
    return both


def change_byte(random, both, begin):
    at = random.randrange(begin, len(both))
    new = random.choice((chr(random.randrange(256)), chr(ord(both[at]) ^ 1 << random.randrange(8)), random.choice(LETTERS)))
    return both[:at] + random.choice(("", new, new + both[at])) + both[at + random.choice((1, 1, 1, random.randrange(1, 12))) :]


def change_line(random, both, begin):
    """A line is left out, told twice, put elsewhere or cut, or the report ends there."""
    lines, first = both.split("\n"), both.count("\n", 0, begin)
    at, other = random.randrange(first, len(lines)), random.randrange(first, len(lines))
    kind = random.randrange(6)
    if kind == 0:
        del lines[at]
    elif kind == 1:
        lines.insert(other, lines[at])
    elif kind == 2:
        lines[at], lines[other] = lines[other], lines[at]
    elif kind == 3:
        lines = lines[:at]
    else:
        lines[at] = " ".join(other_words(random, lines[at].split(" "), lines[other].split(" ")))
    return "\n".join(lines)


def other_words(random, words, others):
    """A line with a word more, a word less, or another in its place."""
    at, kind = random.randrange(len(words)), random.randrange(3)
    new = random.choice((random.choice(WORDS), random.choice(others)))
    return words[:at] + [[], [new], [words[at], new]][kind] + words[at + 1 :]


def change_word(random, both, begin):
    """A line of which more than the form is judged says something else in the same form, as far as that is easy."""
    lines, first, kind = both.split("\n"), both.count("\n", 0, begin), random.choice(JUDGED)
    found = [it for it in range(first, len(lines)) if lines[it].split(" ")[0] == kind]
    if not found:
        return both
    at = random.choice(found)
    if random.random() < 0.2:
        other = random.choice(found)
        lines[at], lines[other] = lines[other], lines[at]
    elif kind == "route" and random.random() < 0.3:
        leave_route_out(lines, at)
    else:
        lines[at] = " ".join(other_meaning(random, kind, lines[at].split(" ")))
    return "\n".join(lines)


def leave_route_out(lines, at):
    """Leaves a route out, and counts one less."""
    head = next((it for it in range(at, -1, -1) if lines[it].startswith("routes ")), None)
    del lines[at]
    if head is not None and lines[head].split(" ")[1].isdigit():
        lines[head] = f"routes {int(lines[head].split(' ')[1]) - 1}"


def other_meaning(random, kind, words):
    if kind == "map" and words[2:3] and random.random() < 0.5:
        begin = words.index("asks", 2) if "asks" in words[2:] else len(words)
        return [*words[:2], *random.choice(MAP_WORDS).split(), *words[begin:]]
    if words[-1] in OTHERS and random.random() < 0.7:
        return [*words[:-1], OTHERS[words[-1]]]
    if kind == "poll" and words[-2:-1] == ["bytes"] and random.random() < 0.5:
        return [*words[:-1], other_bytes(random, words[-1])]
    at = random.choice([it for it in range(len(words)) if it == 0 or any(map(str.isdigit, words[it]))])
    number, equal, place = words[at].partition("=")
    if equal and random.random() < 0.7:
        return [*words[:at], f"{number}={random.choice(('client', 'queue', 'provided', 'event'))}", *words[at + 1 :]]
    if not number.lstrip("+-").isdigit():
        return words
    near = int(number) + random.choice((-2, -1, 1, 2))
    return [*words[:at], (f"{near:+d}" if number[0] in "+-" else str(max(near, 0))) + equal + place, *words[at + 1 :]]


def other_bytes(random, word):
    """One digit is another, or a byte is missing."""
    if word == "-":
        return "00"
    at = random.randrange(len(word))
    return random.choice((word[:at] + random.choice("0123456789abcdef") + word[at + 1 :], word[2:] or "-"))
