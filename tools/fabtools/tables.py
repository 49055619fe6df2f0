"""The tables of pages that are made of what the tools say, and stand in the pages for readers: each by its page and its head."""

import re
from itertools import takewhile

from fabtools import meanings, refusals, refused

TABLES = [
    ("docs/FORMATS.md", "| words | where |", meanings.map_rows),
    ("docs/FORMATS.md", "| kind | the line, after `host a`, `switch s 8`, `cable a 0 s 2` | why | in its place |", refused.causes),
    ("docs/FORMATS.md", "| text | report | since |", refused.first),
    ("docs/TROUBLESHOOTING.md", "| status | why | what was written | do |", meanings.status_rows),
    ("docs/TROUBLESHOOTING.md", "| words | why | do |", meanings.map_repairs),
    ("docs/TROUBLESHOOTING.md", "| line | where | do |", refusals.rows),
]
# The table of a report's lines, whose last column has the causes for which each command is refused.
LINES = ("docs/FORMATS.md", "| command | line | causes of a refusal |")


def parts(text, head):
    """A page up to the rows of a table, its rows, and the page after them; no rows where the head isn't there."""
    before, found, rest = text.partition(f"{head}\n")
    rule, _, rest = rest.partition("\n")
    rows = list(takewhile(lambda it: it.startswith("|"), rest.splitlines()))
    return f"{before}{found}{rule}\n", rows, rest[sum(len(it) + 1 for it in rows) :]


def manual_faults(root):
    """The manual pages have each exit status, and each kind of a refused text in the order of FORMATS."""
    statuses = [str(it) for it, *_ in meanings.STATUSES if it < 128]
    if re.findall(r"^\.It ([1-9]\d*)$", (root / "man/myrifab.1").read_text(), re.M) != statuses:
        yield f"man/myrifab.1: the exit statuses are 0, {', '.join(statuses)}"
    kinds = list(dict.fromkeys(kind for _, (_, kind) in refused.refusals()))
    if re.findall(rf"\b({'|'.join(kinds)})\b", (root / "man/myrifab.5").read_text()) != kinds:
        yield f"man/myrifab.5: the kinds of refused texts are {', '.join(kinds)}"


def faults(root):
    """The tables that aren't what the tools say, and what other tables and the manual pages have otherwise or lack."""
    for page, head, rows in TABLES:
        if parts((root / page).read_text(), head)[1] != rows():
            yield f"{page}: the table '{head}' isn't what the tools say; tools/check-pages --tables makes it anew"
    yield from cause_faults(root)
    yield from manual_faults(root)


def cause_faults(root):
    page, head = LINES
    for row in parts((root / page).read_text(), head)[1]:
        command, *_, causes = [it.strip() for it in row.strip("|").split(" |")]
        if causes.split("`")[1::2] != refusals.causes(command.strip("`")):
            yield f"{page}: {command} is refused for {', '.join(refusals.causes(command.strip('`'))) or 'nothing'}, and its row says {causes or 'nothing'}"


def write(root):
    """Makes each table anew in its page."""
    for page, head, rows in TABLES:
        text = (root / page).read_text()
        if f"{head}\n" not in text:
            continue
        before, _, after = parts(text, head)
        (root / page).write_text(before + "".join(f"{it}\n" for it in rows()) + after)
