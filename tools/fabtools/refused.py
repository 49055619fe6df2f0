"""Texts that are refused: the one source of the tables of docs/FORMATS.md. The kind and the sentence of a row are what the tools' own reader makes
of its text; tools/check-pages compares the kinds with the program too, and sees that what is to stand in its place is accepted."""

from fabtools import script

OPENING = "host a\nswitch s 8\ncable a 0 s 2\n"


def in_fabric(lines):
    return f"{OPENING}{lines}\nscript\nend\n"


def in_script(lines):
    return f"{OPENING}script\n{lines}\nend\n"


def hosts(count, last):
    return "".join(f"host h{it}\n" for it in range(count)) + f"{last}\nscript\nend\n"


def switches(count):
    return "".join(f"switch s{it} 4\n" for it in range(count)) + "script\nend\n"


# One cause each: what the page shows, the text, what the page shows in its place, and the text with that.
MISSPELT = [
    ("`hots b`", in_fabric("hots b"), "`host b`", in_fabric("host b")),
    ("`host b c`", in_fabric("host b c"), "a line each: `host b`, `host c`", in_fabric("host b\nhost c")),
    ("`host 9x`", in_fabric("host 9x"), "`host x9`", in_fabric("host x9")),
    ("`walk a 1` before `script`", in_fabric("walk a 1"), "move it", in_script("walk a 1")),
    ("`host b` after `script`", in_script("host b"), "move it", in_fabric("host b")),
    ("`end` before `script`", OPENING + "end\n", "add `script`", in_script("")),
    ("`script` once more", in_script("script"), "leave it out", in_script("")),
    ("`script x`", in_fabric("script x"), "`script`", in_fabric("")),
    ("`end x`", in_script("end x"), "`end`", in_script("")),
    ("`mpa a 4 1`", in_script("mpa a 4 1"), "`map a 4 1`", in_script("map a 4 1")),
    ("`plan drop 1`", in_script("plan drop 1"), "`plan lose 1`", in_script("plan lose 1")),
    ("`step back a`", in_script("step back a"), "`step inject a`", in_script("step inject a")),
    ("`walk`", in_script("walk"), "`walk a`", in_script("walk a")),
    ("`walk a 1 1 ..` with 65 turns, whatever they are", in_script("walk a" + 65 * " 1"), "fewer", in_script("walk a" + 64 * " 1")),
    ("`switch t x`", in_fabric("switch t x"), "`switch t 8`", in_fabric("switch t 8")),
    ("`cable s +1 s 3`", in_fabric("cable s +1 s 3"), "`cable s 1 s 3`", in_fabric("cable s 1 s 3")),
    ("`walk a up`", in_script("walk a up"), "`walk a +1`", in_script("walk a +1")),
    ("`switch t 4294967296`", in_fabric("switch t 4294967296"), "`switch t 16`", in_fabric("switch t 16")),
    ("`cable s 16 s 1`", in_fabric("cable s 16 s 1"), "`cable s 7 s 1`", in_fabric("cable s 7 s 1")),
    ("`walk a +16`", in_script("walk a +16"), "`walk a +15`", in_script("walk a +15")),
    ("`map a 33 1`, `circuit a 33`", in_script("map a 33 1"), "`map a 32 1`", in_script("map a 32 1")),
]
UNFIT = [
    ("`cable b 0 s 1`", in_fabric("cable b 0 s 1"), "name it before: `host b`", in_fabric("host b\ncable b 0 s 1")),
    ("`walk s 1`", in_script("walk s 1"), "`walk a 1`", in_script("walk a 1")),
    ("`poll b 0`", in_script("poll b 0"), "`poll a 0`", in_script("poll a 0")),
    ("`switch t 6`", in_fabric("switch t 6"), "`switch t 8`", in_fabric("switch t 8")),
    ("`cable a 1 s 3`", in_fabric("cable a 1 s 3"), "another host", in_fabric("host b\ncable b 0 s 3")),
    ("`cable s 8 s 3`", in_fabric("cable s 8 s 3"), "`cable s 7 s 3`", in_fabric("cable s 7 s 3")),
    ("`cable s 2 s 3`", in_fabric("cable s 2 s 3"), "another port", in_fabric("cable s 1 s 3")),
    ("`cable s 3 s 3`", in_fabric("cable s 3 s 3"), "two ports", in_fabric("cable s 3 s 4")),
    ("`host s`", in_fabric("host s"), "another name", in_fabric("host b")),
    ("the 129th `host`", hosts(128, "host b"), "fewer", hosts(128, "")),
    ("the 65th `switch`", switches(65), "fewer", switches(64)),
    ("neither `script` nor `end`", OPENING, "add both", in_script("")),
    ("no `end`", OPENING + "script\n", "add it", in_script("")),
    ("`x` after `end`", in_script("") + "x\n", "leave it out, or `# x`", in_script("") + "# x\n"),
]
EXAMPLE = "# Two hosts at a switch of eight ports.\n\nhost a\nhost b\nswitch s 8\ncable a 0 s 2\ncable b 0 s 5\nscript\nwalk a +3\n"
# Of several faults, and of lines that aren't there: what the page shows, the text, and why that one at that line.
FIRST = [
    ("`switch a 6`", in_fabric("switch a 6"), "the number of ports comes before the name"),
    ("`cable z 16 B x`", in_fabric("cable z 16 B x"), "16 stands before `B` and `x`, and the forms come before the unknown `z`"),
    ("129 lines `host`, the last with a name that is taken", hosts(128, "host h0"), "the name comes before the room"),
    ("no byte at all", "", "a missing line is reported one past the last"),
    ("[the example](#an-example) without its last line", EXAMPLE, "the same"),
    ("the example, and a line `x`", EXAMPLE + "end\nx\n", "the line after `end`"),
]


def told(text):
    fault = script.first_fault(text)
    return f"`refused {fault.line} {fault.kind}`"


def refusals():
    """Each refused text of the tables with its line and kind."""
    for _, text, *_ in [*MISSPELT, *UNFIT, *FIRST]:
        fault = script.first_fault(text)
        yield text, (fault.line, fault.kind)


def accepted():
    """The texts with what is to stand in the place of what was refused."""
    return [text for *_, text in [*MISSPELT, *UNFIT]]


def causes():
    """A row for each cause: its kind where that is another than above, the line, what is wrong with it, and what to write."""
    rows, last = [], ""
    for shown, text, repair, _ in [*MISSPELT, *UNFIT]:
        fault = script.first_fault(text)
        kind = "" if fault.kind == last else f" `{fault.kind}`"
        rows.append(f"|{kind} | {shown} | {fault.why} | {repair} |")
        last = fault.kind
    return rows


def first():
    return [f"| {shown} | {told(text)} | {why} |" for shown, text, why in FIRST]
