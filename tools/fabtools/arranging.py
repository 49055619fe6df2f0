"""Which layout suits a fabric."""

from fabtools.crowd import FEW, Crowd
from fabtools.entry import Failure
from fabtools.groups import Groups, groups_of
from fabtools.layout import Grid, Levels, Round, Springs, between_switches, grid_of, levels, ring_of, square
from fabtools.slices import Slices, box_of

KINDS = ("levels", "grid", "slices", "ring", "groups", "springs", "rows")


class NoLayout(Failure):
    """A layout was asked for that the fabric hasn't."""


def kind_of(fabric):
    """The layout that suits a fabric: what it is, and levels where most cables lead up or down."""
    for kind, is_one in (("grid", grid_of), ("ring", ring_of), ("slices", box_of), ("groups", groups_of)):
        if is_one(fabric):
            return kind
    level, cables, at = levels(fabric), between_switches(fabric), {it: at for at, it in enumerate(fabric.switches)}
    far = [(a, b) for a, b in cables if level[a[0]] == level[b[0]] and abs(at[a[0]] - at[b[0]]) > 1]
    if 3 * len(far) <= len(cables):
        return "levels"
    return "springs" if len(fabric.switches) <= FEW else "rows"


def layout_of(fabric, kind=None, grid=None):
    """The layout of this kind, or of the kind that suits the fabric."""
    kind = "grid" if grid else kind or kind_of(fabric)
    if kind in ("slices", "groups"):
        make, found = (Slices, box_of(fabric)) if kind == "slices" else (Groups, groups_of(fabric))
        if not found:
            raise NoLayout(f"the fabric has no {kind}: {REASONS[kind]}")
        return make(fabric, found)
    if kind == "grid":
        return Grid(fabric, grid or grid_of(fabric) or square(len(fabric.switches)))
    return {"levels": Levels, "ring": Round, "springs": Springs, "rows": Crowd}[kind](fabric)


REASONS = {
    "slices": "it is no torus or mesh of three dimensions, in its order or by the numbers of its names",
    "groups": "its switches aren't in three groups or more, of three switches or more, each two of which are cabled",
}
