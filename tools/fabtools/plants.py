"""Wrong bodies of functions, in the form of must-fail edits, and what comes of a crate with one of them.

They are tried in a copy of the crates, over what is proved of these in the repository (crates/*/out): a crate is proved
anew only where nothing is kept of its proof.
"""

import os
import re
import shutil
import subprocess
from threading import Event

from fabtools import crates
from fabtools.crates import ROOT
from fabtools.entry import Failure

LIST = ROOT / "tools/plants"
# What a crate is proved of.
PARTS = ("src", "specs", "proofs")
BUILT, KEPT = "out/rlib", "out/incremental"
REFUSED, THROUGH, UNTRIED = "refused", "got through", "not tried"
NOT_PROVED = re.compile(r"^logic=not-proved", re.M)
# A line of a check that says where and why it refused.
WHY = re.compile(r"^(?:note: \S+:\d+:\d+: .*|\S+:\d+:\d+: error.*)", re.M)
# One that only says that a proof names what the body took away.
BY_NAME = re.compile(r"(?:note: )?(?:\./)?proofs/.*(?:has no field|is not in scope|has no `|was not admitted)")
# What `rt plant` prints of a body that a contract lets through, and of a function that any body passes.
MADE = re.compile(r"^(?:proves|no-ensures) .*", re.M)
COUNT = re.compile(r"^plants crate=.*? proves=\d+ same=\d+ refused=(\d+)", re.M)
# The runs of rt under way, and whether no other may begin.
RUNNING, STOPPED = set(), Event()


class Stopped(Exception):
    """The tool was told to stop."""


class Body:
    """A wrong body of the list."""

    def __init__(self, file):
        self.file, self.crate = file, file.parent.name
        self.name = f"{self.crate}/{file.stem}"

    def texts(self, folder):
        """The texts of the crate's files with this body, by their paths. A Failure where it doesn't fit them."""
        texts, path, old = {}, None, None
        for line in self.file.read_text().splitlines():
            word, _, rest = line.partition(":")
            rest = rest.removeprefix(" ")
            if word == "file":
                path = rest.strip()
            elif word == "old":
                old = rest
            elif word == "new" and path and old:
                text = texts[path] if path in texts else text_of(folder, path)
                texts[path], old = replaced(text, old, rest, path), None
        if not texts or old:
            raise Failure("it isn't a line 'file:' and pairs of lines 'old:' and 'new:'")
        return texts


def text_of(folder, path):
    if not path.startswith("src/") or not (folder / path).is_file():
        raise Failure(f"its crate has no file {path}")
    return (folder / path).read_text()


def replaced(text, old, new, path):
    if text.count(old) != 1:
        raise Failure(f"an 'old:' text stands in {path} {text.count(old)} times, and not once")
    return text.replace(old, new)


def listed():
    """The wrong bodies of the list, by crate and name."""
    return [Body(it) for it in sorted(LIST.glob("*/*.edit"))]


def changed_since(revision):
    """The crates whose code, definitions or proofs aren't as they were."""
    parts = [f"crates/*/{it}/*" for it in PARTS]
    paths = of_git("diff", "--name-only", revision, "--", *parts)
    return {it.split("/")[1] for it in paths + of_git("ls-files", "-o", "--exclude-standard", "--", *parts)}


def of_git(*words):
    ran = subprocess.run(["git", "-C", ROOT, *words], capture_output=True, text=True)
    if ran.returncode:
        raise Failure(f"git doesn't say what changed: {first_line(ran.stderr)}")
    return ran.stdout.splitlines()


def first_line(text):
    return (text.strip().splitlines() or ["nothing was said"])[0]


def rt(folder, *words):
    """What rt says in the crate's folder, after its status."""
    if STOPPED.is_set():
        raise Stopped
    streams = {"stdin": subprocess.DEVNULL, "stdout": subprocess.PIPE, "stderr": subprocess.STDOUT}
    with subprocess.Popen(["rt", *words, "--jobs", "1"], cwd=folder, text=True, errors="replace", **streams) as ran:
        RUNNING.add(ran)
        said, _ = ran.communicate()
        RUNNING.remove(ran)
    if STOPPED.is_set():
        raise Stopped
    return ran.returncode, said


def stop():
    """Ends what runs, and lets nothing else begin."""
    STOPPED.set()
    for it in list(RUNNING):
        it.terminate()


def verdict(status, said):
    """What a check with a wrong body came to, and why."""
    if status == 0:
        return THROUGH, "the crate is proved with it"
    if status != 1 or not NOT_PROVED.search(said):
        return UNTRIED, f"the check didn't come to the contracts: {first_line(said)}"
    told = WHY.findall(said)
    why = next((it for it in told if not BY_NAME.match(it)), None)
    if told and not why:
        return UNTRIED, f"a proof names what it takes away, so no contract was tried: {told[0]}"
    return REFUSED, why or "the check doesn't say where"


class Tree:
    """A copy of some crates of the repository and of those below them, with the libraries that are built of these."""

    def __init__(self, folder, names):
        self.folder = folder
        folder.mkdir()
        below = crates.reach(crates.from_file()[0])
        copied = set(names).union(*(below[it] for it in names))
        lines = (ROOT / "crates.txt").read_text().splitlines()
        kept = [it for it in lines if it.split(":")[0].split(" ")[0] in copied]
        (folder / "crates.txt").write_text("\n".join(kept) + "\n")
        shutil.copy2(ROOT / "HANDLES", folder / "HANDLES")
        for name in sorted(copied):
            self.copy(name)

    def copy(self, name):
        source, target = ROOT / "crates" / name, self.crate(name)
        for part in PARTS:
            if (source / part).is_dir():
                shutil.copytree(source / part, target / part)
        if (source / BUILT).is_dir():
            shutil.copytree(source / BUILT, target / BUILT, copy_function=linked)

    def crate(self, name):
        return self.folder / "crates" / name

    def begin(self, name):
        """Takes over what is kept of the crate's proof. A Failure where it isn't proved as it stands."""
        kept = ROOT / "crates" / name / KEPT
        if kept.is_dir():
            shutil.copytree(kept, self.crate(name) / KEPT, dirs_exist_ok=True)
        # A library that is built and still fits its sources is proved: rt sees that without a check.
        status, said = rt(self.crate(name), "lib" if (self.crate(name) / BUILT).is_dir() else "check")
        if status:
            raise Failure(f"the crate isn't proved as it stands: {first_line(''.join(WHY.findall(said)[:1]) or said)}")

    def end(self, name):
        """Forgets what is kept of the crate's proof."""
        shutil.rmtree(self.crate(name) / KEPT, ignore_errors=True)

    def attempt(self, body):
        """What comes of a wrong body of the list, and why. One that is proved over kept work is tried from nothing."""
        folder = self.crate(body.crate)
        try:
            texts = body.texts(folder)
        except Failure as it:
            return UNTRIED, str(it)
        before = {path: text_of(folder, path) for path in texts}
        write(folder, texts)
        try:
            came, why = verdict(*rt(folder, "check"))
            if came == THROUGH:
                self.end(body.crate)
                came, why = verdict(*rt(folder, "check"))
            return came, why
        finally:
            write(folder, before)

    def made(self, name, minutes):
        """What `rt plant` makes and a contract lets through, and how many were refused. None where it fails."""
        status, said = rt(self.crate(name), "plant", "--minutes", str(minutes))
        count = COUNT.search(said)
        return (MADE.findall(said), int(count[1])) if status == 0 and count else None


def linked(source, target):
    """A library's files are never written to, only taken away, so the copy can share them."""
    try:
        os.link(source, target)
    except OSError:
        shutil.copy2(source, target)


def write(folder, texts):
    for path, text in texts.items():
        (folder / path).write_text(text)
