"""The program that stands: for the tools that run a text, and for the checks, which build nothing."""

import os
from pathlib import Path

from fabtools import native
from fabtools.crates import ROOT

PROVED = ROOT / "crates/myrifab/out/myrifab"
KEPT = ROOT / "out/try"
PROGRAMS = (PROVED, KEPT / "myrifab")
NONE = "no program stands: build one (tools/try --program), or name it in MYRIFAB"


def find_program():
    """The one that MYRIFAB names, or the proved one, or what tools/try keeps; None where there is none."""
    named = os.environ.get("MYRIFAB")
    for it in [named] if named else PROGRAMS:
        if os.access(it, os.X_OK):
            return Path(it).resolve()
    return None


def is_newest(program):
    """No file that the proved program is made of is newer than it."""
    made = program.stat().st_mtime
    parts = [*native.sources(), *ROOT.glob("crates/*/specs/**/*.antt"), *ROOT.glob("crates/*/proofs/**/*.antt")]
    return all(it.stat().st_mtime <= made for it in parts)


def to_run():
    """The program that tools/try runs, and what it is: named, proved or native; None and None where it must be built first."""
    named = os.environ.get("MYRIFAB")
    if named:
        return Path(named), "named"
    if PROVED.exists() and is_newest(PROVED):
        return PROVED, "proved"
    kept = native.kept(KEPT)
    return (kept, "native") if kept else (None, None)
