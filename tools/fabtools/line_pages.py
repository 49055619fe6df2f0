"""The lines of a report and a map as docs/FORMATS.md and the tools have them, against the tables of lines."""

import re
from itertools import product

from fabtools import line_rows
from fabtools.answered import ANSWERS

PAGE = "docs/FORMATS.md"
TOOLS = "tools/fabtools/answered.py"
SPAN = re.compile(r"`([a-z][^`]*)`")
CALLS = ("open", "close", "provide", "send", "poll", "tokens")
# What a line of a refusal has between its command and the word `refused`.
SUBJECT = {"map": "H", "pull": "V P", "plug": "V P W Q", **dict.fromkeys(CALLS, "H P")}
# The words that a row has for values, each with the words that it is.
VALUES = {"CALL": "|".join(CALLS), "END": "* *", "END:port": "* port *", "TURNS": "* ..", "PLACES": "* .. recv * .."}
# The lines of a generated run.
GENERATED = re.compile(r"```text\n(gen .*?)```", re.S)
# A duo line's causes of a refusal, which the table of commands lists.
CAUSES = re.compile(r"`refused` with [^;]*")
# Kinds of lines that begin no answer of a judged report, and those that the tools tell by one word, `EFFECT`.
APART = re.compile(r"Refused|Gen\w+|Duo\w+|Step\w+|Route|Rank|EndRoutes|Table|EndBroken")


def plain(words):
    """Words of a line with a `*` for each value, and `..` for values up to a word or to the end."""
    text = " ".join(it if it == ".." or re.fullmatch(r"[a-z]+", it) else "*" for it in words)
    return text.replace("* ..", "..")


def expanded(row):
    """All lines of a row, with `*` for values."""
    choices = [VALUES.get(it, it).split("|") for it in row.split()]
    return {plain(" ".join(it).split()) for it in product(*choices)}


def readings(text):
    """The lists of lines that a form may mean: in `a|b c|d e f` the last alternative is `d`, `d e` or `d e f`."""
    before, bar, after = text.partition("|")
    if not bar:
        return [[text]]
    *front, first = before.split()
    *inner, last = after.split("|")
    last = last.split()
    return [
        [" ".join([*front, *it.split(), *last[count:]]) for it in [first, *inner, " ".join(last[:count])]]
        for count in range(1, len(last) + 1)
    ]


def lines_of(text, known):
    """The lines that a form means, or none if no reading of it has known lines alone."""
    meant = [[plain(it.split()) for it in reading] for reading in readings(text)]
    return next((it for it in meant if known.issuperset(it)), None)


def cells(page, head):
    """The rows of the table whose head begins with these cells, each as a list of cells."""
    table = page[page.index(f"\n| {head}") + 1 :].split("\n\n")[0]
    return [[it.strip() for it in re.split(r"(?<!\\)\|", row)[1:-1]] for row in table.splitlines()[2:]]


def spans(text):
    return SPAN.findall(text)


def put(form, words):
    """The form with each of the words that stand for a name in it, or as it is where it has none of the names."""
    return [form.replace(name, it) for name, them in words.items() if name in form for it in them] or [form]


def effects(page):
    """What may stand after `step` and after `duo`."""
    what = [it for row in cells(page, "WHAT arrived") for it in spans(row[0])]
    cause = [it for row in cells(page, "CAUSE of a drop") for it in spans(row[0])]
    steps = [it for row in cells(page, "step | its effect") for it in spans(row[1])]
    duo = [it for row in cells(page, "line | its effect") for it in spans(CAUSES.sub("", row[1]))]
    return {"step": [line for it in steps for line in put(it, {"WHAT": what, "CAUSE": cause})], "duo": duo}


def of_page(page):
    """The lines of a report as the page has them."""
    words = [it for row in cells(page, "words | where") for it in spans(row[0])]
    of = effects(page)
    for command, line, causes in cells(page, "command | line | causes of a refusal"):
        command = command.strip("`")
        for form in spans(line):
            yield from put(form, {"EFFECT": of.get(command, []), "WORDS": words})
        for cause in spans(causes):
            yield " ".join([command, SUBJECT.get(command, ""), "refused", cause])
    # A generated run's map line lacks its host.
    yield from put("map WORDS asks A packets N", {"WORDS": words})
    yield from (re.split("  +", it)[0] for it in GENERATED.search(page)[1].splitlines())
    yield from (f"refused LINE {it}" for row in cells(page, "kind | the line") for it in spans(row[0]))


def of_maps(page):
    """The lines of a map as the page has them."""
    return [it for row in cells(page, "line of a map") for it in spans(row[0])]


def of_tools():
    """The lines that may answer a command, as the tools have them."""
    for form in (it for forms in ANSWERS.values() for it in forms):
        if "EFFECT" not in form:
            yield form.split(",")[0].removeprefix("lines ").partition(" by ")[0]


def compared(where, told, rows):
    """The lines that are told and are no row's, and those of rows that aren't told: of a client's call, by any call."""
    known = {line: kind for kind, row in rows.items() for line in sorted(expanded(row))}
    met = set()
    for form in told:
        lines = lines_of(form, set(known))
        if lines is None:
            yield f"{where} tells the line `{form}`, and no row of {line_rows.TABLE} has it"
        met.update(lines or [])
    of_any_call = lambda line: re.sub(rf"^({'|'.join(CALLS)}) \* \*", "CALL * *", line)
    met = {of_any_call(it) for it in met}
    for line, kind in {of_any_call(line): kind for line, kind in known.items()}.items():
        if line not in met:
            yield f"{where} doesn't tell `{line}`, a line of {kind} of {line_rows.TABLE}"


def faults(root):
    """Where the page and the tools tell other lines than the tables."""
    if not (root / line_rows.TABLE).exists():
        return
    tables, page = (root / line_rows.TABLE).read_text(), (root / PAGE).read_text()
    rows = line_rows.rows(tables, line_rows.REPORT)
    yield from compared(PAGE, of_page(page), rows)
    yield from compared(PAGE, of_maps(page), line_rows.rows(tables, line_rows.MAP))
    begun = {kind: row for kind, row in rows.items() if not APART.fullmatch(kind)}
    yield from compared(TOOLS, of_tools(), begun)
