"""The rows of the tables of lines (crates/line_table) as texts: of their slots, and what their kinds are told by."""

import re

TABLE = "crates/line_table/specs/Table.antt"
KINDS = "crates/line_table/src/kind.rt"
# The table of the lines of a report, and that of the lines of a map, with the kinds of their rows.
REPORT, MAP = "form_of", "map_form"
KINDS_OF = {REPORT: "LineKind", MAP: "MapLineKind"}
ROW = re.compile(r"^(form_of|map_form) (\w+) =\s*(.*?)(?=^\S|\n\n|\Z)", re.M | re.S)
TOLD = re.compile(r"/// `([^`]*)`\n    (\w+),")
SLOT = re.compile(
    r'Fixed \(codes "(?P<word>\w+)"\)'
    r'|Of \(OneOf \((?P<words>[^)]*?(?:"[^)]*)?)\)\)'
    r"|Of (?P<kind>\(NumberTo \d\)|\w+)"
    r'|AnEndBy \(codes "(?P<by>\w+)"\)'
    r"|(?P<end>AnEnd)\b"
    r"|Rest (?P<rest>\w+)"
)
KIND = {
    "Digits": "N",
    "value": "NUMBER",
    "HostName": "HOST",
    "Turn": "TURN",
    "MapPlace": "VERTEX",
    "Hex": "HEX",
    "call": "CALL",
    "(NumberTo 7)": "PORT",
    "(NumberTo 1)": "PRIO",
}
REST = {"Turn": "TURNS", "place": "PLACES"}


def slot(found):
    """A slot as a text: `found` is a match of SLOT."""
    if found["words"]:
        return "|".join(re.findall(r'codes "(\w+)"', found["words"]))
    if found["kind"]:
        return KIND.get(found["kind"], found["kind"])
    if found["by"]:
        return f"END:{found['by']}"
    if found["rest"]:
        return REST.get(found["rest"], found["rest"])
    return "END" if found["end"] else found["word"]


def rows(text, table):
    """The rows of a table by their kinds."""
    found = [(kind, " ".join(row.split())) for of, kind, row in ROW.findall(text) if of == table]
    return {kind: " ".join(slot(it) for it in SLOT.finditer(row)) for kind, row in found}


def told_rows(text, table):
    """The rows that the kinds of a table are told by."""
    body = text[text.index(f"pub enum {KINDS_OF[table]} ") :]
    return {kind: row for row, kind in TOLD.findall(body[: body.index("\n}")])}


def faults(root):
    """The kinds whose comment isn't what their row is."""
    if not (root / TABLE).exists():
        return
    for table in (REPORT, MAP):
        told = told_rows((root / KINDS).read_text(), table)
        made = rows((root / TABLE).read_text(), table)
        for kind in sorted(made.keys() | told.keys()):
            if made.get(kind) != told.get(kind):
                yield f"{KINDS} tells {kind} by `{told.get(kind)}`, and its row in {TABLE} is `{made.get(kind)}`"
