"""Which tools these are and which program they run: of a clone, or as `make install` left them."""

import os
import subprocess

from fabtools import standing
from fabtools.crates import ROOT
from fabtools.entry import INSTALLED, named

PROVE = "(cd crates/myrifab && rt run -- run < ../../examples/two-hosts.in)"
KINDS = {
    "proved": "proved and built by the kit",
    "native": f"NOT PROVED, a native build without a proof; this proves and builds one: {PROVE}",
    "named": "by the environment variable MYRIFAB, so nothing is known of its proof",
}


def lines(tool):
    """What --version tells."""
    if INSTALLED.exists():
        revision, program, *known = INSTALLED.read_text().splitlines()
        running = os.environ.get("MYRIFAB") or program
        return [f"{named(tool)}, {revision}", f"program {running}", *(known if running == program else [KINDS["named"]])]
    return [f"{tool}, {revision_text()}", *program_lines()]


def revision_text():
    """The revision of the clone that holds the tools."""
    try:
        words = ["git", "-C", ROOT, "describe", "--always", "--dirty", "--abbrev=12"]
        ran = subprocess.run(words, capture_output=True, text=True)
    except OSError:
        return "of an unknown revision"
    return f"revision {ran.stdout.strip()}" if ran.returncode == 0 else "of an unknown revision"


def program_lines():
    """The program that the tools of a clone run, and what is known of it."""
    program, kind = standing.to_run()
    none = "program none yet: the first run builds one, without a proof"
    return [f"program {program}", KINDS[kind]] if program else [none]
