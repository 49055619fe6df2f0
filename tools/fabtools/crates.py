"""The crates of the repository, as crates.txt lists them: headings, crates and what each stands on."""

from pathlib import Path

ROOT = Path(__file__).resolve().parent.parent.parent


def read(text):
    """The crates by name, each with those of the repository that it stands on, and the headings with their crates."""
    listed, headings = {}, []
    for line in text.splitlines():
        if line.startswith("#"):
            headings.append((line.lstrip("# ").rstrip("."), []))
        elif ":" in line:
            name, below = line.split(":", 1)
            name = name.split()[0]
            listed[name] = below.split()
            if headings:
                headings[-1][1].append(name)
    return {name: [it for it in below if it in listed] for name, below in listed.items()}, headings


def of_kit(root=ROOT):
    """The crates by name, each with those of the kit that it stands on."""
    lines = [it.split(":", 1) for it in (root / "crates.txt").read_text().splitlines() if ":" in it and not it.startswith("#")]
    listed = {name.split()[0] for name, _ in lines}
    return {name.split()[0]: [it for it in below.split() if it not in listed] for name, below in lines}


def from_file(root=ROOT):
    return read((root / "crates.txt").read_text())


def reach(below):
    """For each crate all that it stands on, directly or not."""
    known = {}

    def all_below(name):
        if name not in known:
            known[name] = set(below[name]).union(*(all_below(it) for it in below[name]))
        return known[name]

    for name in below:
        all_below(name)
    return known


def chain(below):
    """A longest chain of crates, from the bottom up."""
    longest = {}

    def up_to(name):
        if name not in longest:
            longest[name] = max((up_to(it) for it in below[name]), key=len, default=[]) + [name]
        return longest[name]

    return max((up_to(it) for it in below), key=len, default=[])


def above(below, name):
    """The crates that stand on this one, directly or not."""
    return sorted(it for it, all_below in reach(below).items() if name in all_below)


def bottom_up(below):
    """The crates in an order in which each stands behind those that it stands on."""
    all_below = reach(below)
    return sorted(below, key=lambda it: len(all_below[it]))
