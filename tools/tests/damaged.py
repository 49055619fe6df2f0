"""Each tool over damaged reports, texts and netlists: a documented status, one line where that is 2, and never a traceback.

usage: python3 damaged.py [SEED [COUNT]]     in tools/tests, over so many damaged reports; prints each fault, and how many
                                             there are
"""

import contextlib
import io
import os
import random
import sys
import tempfile
from importlib.machinery import SourceFileLoader
from importlib.util import module_from_spec, spec_from_loader
from pathlib import Path

TOOLS = Path(__file__).resolve().parent.parent
sys.dont_write_bytecode = True
sys.path.insert(0, str(TOOLS))

from fabtools import asking, entry, judging  # noqa: E402

SEED, MANY = [*map(int, sys.argv[1:]), *(11, 500)[len(sys.argv) - 1 :]]
RNG = random.Random(SEED)
EXAMPLES = TOOLS.parent / "examples"
# Small runs that have every kind of line together.
RUNS = [EXAMPLES / it for it in ("two-hosts", "lost-part", "pulled-and-plugged", "circuit-links", "duo-restart")]
RUNS += [EXAMPLES / "refused-calls", EXAMPLES / "ring-too-shallow", TOOLS / "tests/moves", TOOLS / "tests/fragments"]
WORDS = ["", "0", "-1", "+3", "9" * 30, "9" * 5000, "x", "#0", "#7", "#x", "a", "zz", "end", "refused", "endmap", "\x00", "\xe9", "="]
NETLISTS = ("ibnetdiscover.txt", "updn-lfts.txt")
FULL = "/dev/full"


class Input(io.StringIO):
    """Standard input of a text."""

    def __init__(self, text):
        super().__init__(text)
        self.buffer = io.BytesIO(text.encode("latin-1"))


def load(name):
    loader = SourceFileLoader(name, str(TOOLS / name))
    module = module_from_spec(spec_from_loader(name, loader))
    loader.exec_module(module)
    return module


def ask(text):
    """The model in the place of the program."""
    return 0, judging.verdict(text).split()


def run(tool, words, out=None, given=""):
    """The status of a tool, what it wrote, and the lines on standard error."""
    out, errors = out or io.StringIO(), io.StringIO()
    before, sys.stdin = sys.stdin, Input(given)
    with contextlib.redirect_stdout(out), contextlib.redirect_stderr(errors):
        told = tool.help_text() if hasattr(tool, "help_text") else tool.__doc__
        status = entry.ended(tool.main, told, [str(it) for it in words])
    sys.stdin = before
    return status, out, errors.getvalue().splitlines()


def changed(lines):
    """The lines with one word of one of them in another's place, left out, or doubled."""
    at = RNG.randrange(len(lines))
    words = lines[at].split(" ")
    where = RNG.randrange(len(words))
    words[where : where + 1] = RNG.choice(([RNG.choice(WORDS)], [RNG.choice(WORDS)], [], [words[where]] * 2))
    return [*lines[:at], " ".join(words), *lines[at + 1 :]]


def byte_changed(text):
    at = RNG.randrange(len(text))
    return text[:at] + chr(RNG.randrange(256)) * RNG.randrange(3) + text[at + 1 :]


def damages(text):
    """What becomes of a file, each with the name of what was done to it."""
    lines = text.split("\n")[:-1]
    yield "emptied", ""
    for at in range(1, len(lines)):
        yield "cut", "\n".join([*lines[:at], ""])
        yield "cut within a line", "\n".join([*lines[:at], lines[at][: len(lines[at]) // 2]])
        yield "cut, with CR and LF", "\r\n".join([*lines[:at], ""])
        yield "a line left out", "\n".join([*lines[:at], *lines[at + 1 :], ""])
        yield "two lines swapped", "\n".join([*lines[: at - 1], lines[at], lines[at - 1], *lines[at + 1 :], ""])
        yield "a line doubled", "\n".join([*lines[: at + 1], *lines[at:], ""])
        yield "a byte changed", byte_changed(text)
        for _ in range(2):
            yield "a word changed", "\n".join([*changed(lines), ""])


def some(files, count):
    """So many of the damages of files, those of emptied ones first."""
    found = [(file, what, text) for file in files for what, text in damages(file.read_bytes().decode("latin-1"))]
    RNG.shuffle(found)
    return sorted(found, key=lambda it: it[1] != "emptied")[:count]


class Looks:
    """The tools, and what was wrong with their runs."""

    def __init__(self):
        self.tools, self.faults = {}, []

    def tool(self, name):
        if name not in self.tools:
            self.tools[name] = load(name)
        return self.tools[name]

    def look(self, what, name, *words, allowed=(0, 1, 2), given=""):
        status, out, errors = run(self.tool(name), words, given=given)
        told = " ".join(map(str, [name, *words]))
        if status not in allowed:
            self.faults.append(f"{told}: status {status} of {what}: {(errors or ['nothing was said'])[0]}")
        elif len(errors) != (status == 2) and (status == 2 or len(errors) > 1):
            self.faults.append(f"{told}: {len(errors)} lines on standard error of {what}")
        elif any("fault of the tool itself" in it or "Traceback" in it for it in errors):
            self.faults.append(f"{told}: {what}: {errors[0]}")


def of_report(looks, folder, file, what, text):
    """The tools that take a report, over one that was damaged."""
    report, plan = folder / "damaged.out", file.with_suffix(".in")
    report.write_bytes(text.encode("latin-1"))
    told = f"{file.name}, {what}"
    # What ends too early or has a line twice is never the report of its text. Without a rank it may be a wrong one.
    is_sure = what not in ("a word changed", "a byte changed", "two lines swapped", "a line left out")
    surely = (2,) if is_sure else (0, 1, 2)
    options = RNG.choice(([], ["--brief"], ["--json"], ["--loads"], ["--pair", "a", "b"], ["--cable", "a:0"]))
    looks.look(told, "explain", plan, report, *options, allowed=surely)
    looks.look(told, "page", plan, report, allowed=surely)
    looks.look(told, "dot", plan, "--report", report, *RNG.choice(([], ["--svg", "-"], ["--loads"])), allowed=surely)
    looks.look(told, "dot", plan, "--report", report, "--plan")
    looks.look(told, "compare", plan, report)
    looks.look(told, "judge", plan, report, allowed=(1, 2) if is_sure else (0, 1, 2))
    looks.look(told, "judge-model", plan, report)


def of_text(looks, folder, file, what, text):
    """The tools that take a text, over one that was damaged, with the report of the whole one."""
    damaged, report = folder / "damaged.in", file.with_suffix(".out")
    report = report if report.exists() else file.with_suffix(".report")
    damaged.write_bytes(text.encode("latin-1"))
    told = f"{file.name}, {what}"
    looks.look(told, "explain", damaged, report)
    looks.look(told, RNG.choice(("page", "compare")), damaged, *RNG.choice(([], [report])), given=text)
    looks.look(told, RNG.choice(("dot", "to-ibsim")), damaged)
    looks.look(told, "judge", damaged, report)
    asked = RNG.choice((["--each"], ["--without", "a 0", "--text"], ["--without", "s", "--text"]))
    looks.look(told, "what-if", damaged, *asked)
    looks.look(told, "duo-model", damaged)
    looks.look(told, "try", damaged, "--next", *RNG.choice((["map"], ["plug", "s"], ["x"])))


def of_netlist(looks, folder, at, what, text):
    """The tools that take what other programs print, with one of the two files damaged."""
    files = [TOOLS / "tests" / it for it in NETLISTS]
    files[at] = folder / "damaged.txt"
    files[at].write_bytes(text.encode("latin-1"))
    told = f"{NETLISTS[at]}, {what}"
    looks.look(told, "judge-routes", *files, *RNG.choice(([], ["--text"], ["--json"])), allowed=(0, 1, 2, 3))
    if at == 0:
        looks.look(told, "from-ibnetdiscover", files[at], *RNG.choice(([], ["--map", "h1"])))


def others(looks):
    """Reports of other texts: none is explained or drawn, and a judge says no."""
    for one in RUNS:
        for other in RUNS:
            if one is not other:
                text, report = one.with_suffix(".in"), report_of(other)
                looks.look("another's report", "explain", text, report, allowed=(2,))
                looks.look("another's report", "page", text, report, allowed=(2,))
                looks.look("another's report", "dot", text, "--report", report, allowed=(2,))
                looks.look("another's report", "judge", text, report, allowed=(1, 2))


def report_of(run):
    return run.with_suffix(".out") if run.with_suffix(".out").exists() else run.with_suffix(".report")


def full(looks):
    """Each tool over a device without room: status 2, and why."""
    text, report = EXAMPLES / "two-hosts.in", EXAMPLES / "two-hosts.out"
    netlist, lfts = (TOOLS / "tests" / it for it in NETLISTS)
    calls = [["explain", text, report], ["page", text, report], ["dot", text], ["dot", text, "--svg", "-"]]
    calls += [["compare", text, report], ["compare", EXAMPLES / "room.in", report], ["judge", text, report]]
    calls += [["judge", text, text], ["judge-model", text, report], ["what-if", text, "--each"], ["make", "ring", "4"]]
    calls += [["what-if", text, "--without", "a 0", "--text"], ["to-ibsim", text], ["from-ibnetdiscover", netlist]]
    calls += [["judge-routes", netlist, lfts], ["judge-routes", netlist, lfts, "--text"], ["try", text, "--next", "map"]]
    calls += [["duo-model", EXAMPLES / "duo-restart.in"], ["list-crates"], ["list-tools", "dot"], ["draw-crates"], ["check-crates"]]
    for name, *words in calls:
        with contextlib.suppress(OSError), open(FULL, "w") as out:
            status, _, errors = run(looks.tool(name), words, out)
            if status != 2 or errors != [f"tools/{name}: standard output: No space left on device"]:
                looks.faults.append(f"{name} over a full device: status {status}: {errors}")


def main():
    asking.ask = ask
    looks = Looks()
    with tempfile.TemporaryDirectory(prefix="damaged-") as folder:
        for file, what, text in some(map(report_of, RUNS), MANY):
            of_report(looks, Path(folder), file, what, text)
        for file, what, text in some([it.with_suffix(".in") for it in RUNS], MANY // 2):
            of_text(looks, Path(folder), file, what, text)
        for at, name in enumerate(NETLISTS):
            for _, what, text in some([TOOLS / "tests" / name], MANY // 20):
                of_netlist(looks, Path(folder), at, what, text)
    others(looks)
    if os.path.exists(FULL):
        full(looks)
    for it in looks.faults[:40]:
        print(it)
    print(f"{len(looks.faults)} faults")


if __name__ == "__main__":
    main()
