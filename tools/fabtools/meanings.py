"""What the words of a report and an exit status mean, and what to do: the one source of tools/try, tools/explain and of the tables of pages."""

import re

from fabtools import fabric as fabrics
from fabtools import refusals

# An exit status; why; what was written; what to do.
STATUSES = [
    (2, "the words are none of `run`, `judge`, and `gen N SEED` with N 2 to 24 and SEED 0 to 1,000,000", "nothing", "`myrifab run < TEXT`, `tools/judge TEXT REPORT`, `myrifab gen 24 7`; there are no options"),
    (3, "the text is refused", "its one line", "mend [the line that it names](#the-text-is-refused)"),
    (4, "standard input can't be read", "nothing", "check the file, the pipe, the disk"),
    (5, "standard output can't be written", "a prefix of the report", "check for a full disk, or a reader that closed the pipe"),
    (6, "out of memory", "a prefix of the report or nothing", "free memory, or use a smaller fabric"),
    (7, "the text, under `judge` with its report, has more than 1,048,576 bytes", "nothing", "split it into several runs"),
    (8, "the system refuses the words, as it does one that isn't UTF-8", "nothing", "use plain words"),
    (132, "a check of a build without proofs failed, which the proved program rules out", "a prefix of the report or nothing", "please keep the text and report it"),
]

# The words of a map line: where they hold; what that means; what to do.
MAP_WORDS = {
    "incomplete nodes": (
        "the mapper's tree has more than 65,536 nodes; no lines of a map follow",
        "the tree of walks got too large, so no map follows; many parallel cables between two switches far from any host do this",
        "map from a host that is nearer, or put hosts at those switches",
    ),
    "incomplete depth": (
        "some switch wasn't expanded, since it stands DEPTH cables away or further on every way that was found",
        "the map is cut off: some switch is as far away as the map is deep, so one switch may be shown several times",
        "map [deeper](#which-depth), or from a host nearer to all",
    ),
    "doubtful {count}": (
        "{count} of the asks drowned: for each a planned fault met every try of one of its two probes, or a planned pull struck during the map before it was answered",
        "{count} of the asks drowned: for each a planned fault met every try of one of its two probes, or a planned pull struck during the map before it was answered, so something may be there after all",
        "map again: a planned fault happens only once; more TRIES than planned faults help too, but not against a pull",
    ),
    "complete": (
        "none of these holds: the map is the mapper's part of the fabric",
        "the map is the real network: everything that {host} can reach by cable",
        "",
    ),
    "circuit {host} nodes": (
        "",
        "the tree of circuit answers got more than 65,536 nodes, so no map follows",
        "use a lesser DEPTH, or a host that is nearer to many others",
    ),
}


# What to do about routes that cross a pulled cable.
BROKEN = "messages on them wait: 'map', 'routes', 'revoke', 'install' bring routes over the cables that are in place"


def plain(text):
    """A cell of a page's table as plain text: links by their words, and names in quotes."""
    return re.sub(r"\[([^]]*)\]\([^)]*\)", r"\1", text).replace("`", "'")


def of_status(status):
    """What an exit status of the program means; None for 0, and for one that the program doesn't have."""
    for known, why, written, repair in STATUSES:
        if known == status:
            return plain(f"{why}, and {written} was written: {repair}")
    return f"the program was ended by signal {status - 128}" if status > 128 and status != 128 + 13 else None


def of_map(words, host):
    """What the words of a map line mean, and what to do; where the map is cut off, of_depth says that better."""
    kind = "doubtful {count}" if words.startswith("doubtful") else words
    _, means, repair = MAP_WORDS[kind]
    repair = "" if kind == "incomplete depth" else repair
    return plain((f"{means}; {repair}" if repair else means).format(host=host, count=words.split()[-1]))


def status_rows():
    return [f"| {status} | {why} | {written} | {repair} |" for status, why, written, repair in STATUSES]


def map_rows():
    """Where each word of a map line holds."""
    return [f"| `{words}` | {where} |".format(host="H", count="N") for words, (where, _, _) in MAP_WORDS.items() if where]


def map_repairs():
    """What each word of a map line other than `complete` means, and what to do."""
    return [f"| `{words}` | {means} | {repair} |".format(host="H", count="N") for words, (_, means, repair) in MAP_WORDS.items() if repair]


def of_depth(fabric, host, is_complete=False):
    """Which depth of a map from this host is enough; and where none that a map can have surely is, from which hosts one is."""
    least, enough, most = fabrics.least_depth(fabric, host), fabrics.enough_depth(fabric, host), fabrics.MOST_DEPTH
    if enough <= most:
        return f"depth {enough} is deep enough for {host}"
    if is_complete:
        return f"from {host} only depth {enough} is surely enough, but this map is whole all the same"
    why = f"no depth up to {most} is surely enough for {host}, only {enough} would be"
    if least > most:
        why = f"no map from {host} is whole: a switch is {least - 1} cables away, and a map to {most} needs them nearer"
    return f"{why}; {better_hosts(*fabrics.deep_hosts(fabric, host))}"


def better_hosts(sure, possible):
    if sure:
        return f"maps from {', '.join(sure)} are deep enough"
    if possible:
        return f"a map from {', '.join(possible)} may be whole, though none surely is"
    return "the same holds for each other host"


def of_line(words):
    """What a line that refuses something, or leaves something open, means; None for any other line."""
    if words[0] == "refused":
        return "the text is refused, and nothing was run"
    if "refused" in words[1:]:
        at = words.index("refused")
        cause = words[at + 1]
        return refusals.meaning(words[0], cause)
    if words[0] == "circuit" and words[2] == "nodes":
        return of_map("circuit {host} nodes", words[1])
    if words[0] == "settle" and words[-1] != "0":
        return "messages wait: for a token that fits (its SIZE exactly, its priority), a port that is open, a receiver with a table, or a cable"
    if words[0] == "settle" and words[4] != "0":
        return "deadlocked packets were removed: packets of a mapper, flipped packets, or packets of routes that were given up"
    if words[0] == "installed" and words[1] != words[3]:
        return "each host that isn't counted has a part that met a planned fault in each try, or whose way lost a cable: 'install' again, or map again"
    if words[0] == "revoked":
        return "no host has routes until 'install' sends them" if words[1] != "0" else "no routes were installed, so nothing has changed"
    if words[0] == "plug" and words[-1] == "done":
        return "the cable is new: messages don't cross it until new routes are installed"
    if words[0] == "table" and words[2] == "none":
        return f"{words[1]} has no routes, so it can send nothing"
    if words == ["step", "idle"]:
        return refusals.IDLE[1]
    return None
