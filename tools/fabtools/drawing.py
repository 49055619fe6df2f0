"""A fabric as an SVG: boxes with their ports along the sides, cables from port to port, and marks that a tool sets on either.

No two port numbers meet, since each port of a box has a slot of its own at the side by which its cable leaves.
"""

from html import escape

from fabtools.arranging import layout_of

SLOT, NAME, SMALL, PORT = 13, 12, 10, 8
MARGIN, LOOP, HIGHEST, STUB = 16, 30, 260, 22
# The ways out of a box by its sides; a corner is the right half of the lower side, front its left one, and back the right
# half of the upper side.
OUT = {"top": (0, -1), "bottom": (0, 1), "left": (-1, 0), "right": (1, 0)}
OUT.update(corner=(0, 1), front=(0, 1), back=(0, -1))
HALF = {"corner": 1, "front": -1, "back": 1}
# The piece of a cable that goes to another slice: how far aside, and how far up or down.
LEAN, RISE, FRAME = 11, 15, 12


def wide(text, size):
    """About how wide a text is."""
    return 0.62 * size * len(text)


def halves(*counts):
    """The slots of a side of which halves have so many."""
    return 2 * max(counts) + 1 if any(counts) else 0


class Drawing:
    """Where all of a fabric stands, and how it is drawn. `notes` has a second line for a vertex, as the map's name of it;
    `more` are cables that are drawn besides, and may share a port with one of the fabric's: its slot too, where both leave
    by one side."""

    def __init__(self, fabric, kind=None, grid=None, notes=None, ports=True, more=()):
        self.fabric, self.notes, self.ports = fabric, notes or {}, ports
        self.layout, self.cables = layout_of(fabric, kind, grid), [*fabric.cables, *more]
        # Where hosts in one row would make it too wide, their names are written upwards.
        row = sum(wide(it, NAME) + 20 for it in fabric.hosts)
        self.upright = bool(getattr(self.layout, "rows", None)) and row > 1150
        for _ in range(getattr(self.layout, "rounds", 1)):
            self.arrange()
        self.ends = {}
        for name in fabric.vertices():
            self.place_ends(name)
        self.move_into_view()

    def arrange(self):
        """The slots of all cables, by which boxes have their sizes, and by these the boxes their places."""
        self.slots, self.far = {it: {side: [] for side in OUT} for it in self.fabric.vertices()}, {}
        self.taken = {it: self.take_slots(it) for it in self.cables}
        self.sizes = {it: self.size(it) for it in self.fabric.vertices()}
        self.spots = self.layout.places(self.sizes)

    def take_slots(self, cable):
        """The slots of a cable's two ports: those that another cable took before it, where they are at the same side."""
        taken = []
        for end, side, far in zip(cable, self.layout.sides(*cable), reversed(cable)):
            slot = (*end, cable) if end in self.far and end not in self.slots[end[0]][side] else end
            if slot not in self.far:
                self.slots[end[0]][side].append(slot)
                self.far[slot] = far
            taken.append(slot)
        return tuple(taken)

    def size(self, name):
        if name in self.fabric.hosts and self.upright:
            return 17, wide(name, NAME - 1) + 12
        slots = {side: len(ends) for side, ends in self.slots[name].items()}
        shows = self.ports and name in self.fabric.switches
        text = max(wide(name, NAME), wide(self.notes.get(name, ""), SMALL))
        below = max(slots["bottom"], halves(slots["corner"], slots["front"]))
        above = max(slots["top"], halves(slots["back"]))
        across = max(text + 14 + (18 if shows else 0) * bool(slots["left"] or slots["right"]), SLOT * max(above, below) + 8)
        lines = 17 + (13 if self.notes.get(name) else 0)
        down = lines + 5 + (9 if shows else 0) * (bool(above) + bool(below))
        return across, max(down, SLOT * max(slots["left"], slots["right"]) + 6)

    def place_ends(self, name):
        """The ports at each side of a box, in the order of their far ends, so that cables cross as little as may be."""
        (x, y), (across, down) = self.spots[name], self.sizes[name]
        for side, ends in self.slots[name].items():
            along = 0 if OUT[side][0] == 0 else 1
            ends.sort(key=lambda it: (self.far_along(it, along), it[1]))
            for at, end in enumerate(ends):
                shift = SLOT * (HALF[side] * (at + 1) if side in HALF else at - (len(ends) - 1) / 2)
                ox, oy = OUT[side]
                self.ends[end] = (x + ox * across / 2 + (0 if along else shift), y + oy * down / 2 + (shift if along else 0), side)

    def far_along(self, end, along):
        """Where the far end of a cable lies along a side: by its vertex, and by its own slot where cables go side by side."""
        far = self.far[end]
        return self.spots[far[0]][along] + (0.001 * far[1] if far[0] != end[0] else 0)

    def move_into_view(self):
        """Moves all so that it begins at the margin; the size of the picture."""
        boxes = [(x - w / 2, y - h / 2, x + w / 2, y + h / 2) for (x, y), (w, h) in zip(map(self.spots.get, self.sizes), self.sizes.values())]
        for cable in self.cables:
            bend = self.bend(*self.taken[cable]) or ()
            boxes += [(*it, *it) for it in bend]
            boxes += [(x - w, y - 6, x + w, y + 6) for _, w, x, y in self.labels(cable)]
        boxes += [it[1:] for it in self.frames()]
        left, top = (min((it[k] for it in boxes), default=0) - MARGIN for k in (0, 1))
        right, bottom = (max((it[k] for it in boxes), default=0) + MARGIN for k in (2, 3))
        self.spots = {name: (x - left, y - top) for name, (x, y) in self.spots.items()}
        self.ends = {end: (x - left, y - top, side) for end, (x, y, side) in self.ends.items()}
        self.width, self.height = right - left, bottom - top

    def frames(self):
        """The frames that a layout has, each as what it is called, its left and upper and its right and lower corner."""
        for name, inner in self.layout.frames() if hasattr(self.layout, "frames") else ():
            boxes = [(*self.spots[it], *self.sizes[it]) for it in inner]
            boxes += [box for cable in self.cables for box in self.label_boxes(cable, inner)]
            left, top = min(x - w / 2 for x, _, w, _ in boxes), min(y - h / 2 for _, y, _, h in boxes)
            right, bottom = max(x + w / 2 for x, _, w, _ in boxes), max(y + h / 2 for _, y, _, h in boxes)
            yield name, left - FRAME, top - FRAME - (NAME if name else 0), right + FRAME, bottom + FRAME

    def label_boxes(self, cable, names):
        """The boxes of the labels at those ends of a cable that are at some vertices."""
        for end, (_, half, x, y) in zip(cable, self.labels(cable)):
            if end[0] in names:
                yield x, y, 2 * half, SMALL

    def frame_texts(self):
        for name, x, y, right, bottom in self.frames():
            yield f'<rect class="frame" x="{x:.1f}" y="{y:.1f}" width="{right - x:.1f}" height="{bottom - y:.1f}" rx="10"/>'
            if name:
                yield f'<text class="note" x="{x + 8 + wide(name, SMALL) / 2:.1f}" y="{y + 14:.1f}">{escape(name)}</text>'

    def bend(self, a, b):
        """The two places that a curved cable is drawn to, or None for a straight one: arcs leave and enter by the same side."""
        (x, y, side), (u, v, other) = self.ends[a], self.ends[b]
        if side != other:
            return None
        ox, oy = OUT[side]
        high = min(LOOP + 0.13 * (abs(x - u) + abs(y - v)), HIGHEST)
        return (x + ox * high, y + oy * high), (u + ox * high, v + oy * high)

    def is_cut(self, a, b):
        return bool(getattr(self.layout, "is_cut", None)) and self.layout.is_cut(a, b)

    def stubs(self, a, b):
        """Where the pieces of a cable end that is cut."""
        for x, y, side in (self.ends[a], self.ends[b]):
            is_aside = side in ("front", "back")
            by = (HALF[side] * LEAN, RISE * OUT[side][1]) if is_aside else (STUB * OUT[side][0], STUB * OUT[side][1])
            yield x + by[0], y + by[1]

    def labels(self, cable):
        """For a cable that is cut, the vertex of the other piece beside each: its name, half its width, and its middle."""
        if self.is_cut(*cable):
            slots = self.taken[cable]
            for slot, far, (x, y) in zip(slots, reversed(cable), self.stubs(*slots)):
                side, half = self.ends[slot][2], wide(far[0], SMALL) / 2
                ox, oy = (HALF[side], 0.3 * OUT[side][1]) if side in ("front", "back") else OUT[side]
                yield far[0], half, x + ox * (4 + half), y + 7 * oy

    def label_texts(self, cable):
        return "".join(f'<text class="note" x="{x:.1f}" y="{y + 3.5:.1f}">{escape(name)}</text>' for name, _, x, y in self.labels(cable))

    def path(self, cable, back=False):
        """The line of a cable, from its first end or, back, from its second."""
        a, b = reversed(self.taken[cable]) if back else self.taken[cable]
        (x, y, _), (u, v, _) = self.ends[a], self.ends[b]
        if self.is_cut(*cable):
            (p, q), (r, s) = self.stubs(a, b)
            return f"M{x:.1f} {y:.1f}L{p:.1f} {q:.1f}M{r:.1f} {s:.1f}L{u:.1f} {v:.1f}"
        bend = self.bend(a, b)
        if not bend:
            return f"M{x:.1f} {y:.1f}L{u:.1f} {v:.1f}"
        (p, q), (r, s) = bend
        return f"M{x:.1f} {y:.1f}C{p:.1f} {q:.1f} {r:.1f} {s:.1f} {u:.1f} {v:.1f}"

    def box(self, name):
        """The box of a vertex with its name, its note, and its ports' numbers."""
        (x, y), (across, down) = self.spots[name], self.sizes[name]
        is_host = name in self.fabric.hosts
        parts = [f'<rect x="{x - across / 2:.1f}" y="{y - down / 2:.1f}" width="{across:.1f}" height="{down:.1f}" rx="{3 if is_host else 7}"/>']
        parts += self.upright_name(name) if is_host and self.upright else self.name(name)
        if self.ports and not is_host:
            parts += [self.number(end) for ends in self.slots[name].values() for end in ends]
        return "".join(parts)

    def upright_name(self, name):
        x, y = self.spots[name]
        yield f'<text class="name" font-size="{NAME - 1}" transform="translate({x + 4:.1f} {y:.1f}) rotate(-90)">{escape(name)}</text>'

    def name(self, name):
        x, y = self.spots[name]
        shows = self.ports and name in self.fabric.switches
        # Numbers at one side alone push the name from the middle.
        slots = self.slots[name]
        y += 4.5 * (shows and bool(slots["top"] or slots["back"]))
        y -= 4.5 * (shows and bool(slots["bottom"] or slots["corner"] or slots["front"]))
        note = self.notes.get(name)
        yield f'<text class="name" x="{x:.1f}" y="{y - (2.5 if note else -4):.1f}">{escape(name)}</text>'
        if note:
            yield f'<text class="note" x="{x:.1f}" y="{y + 10.5:.1f}">{escape(note)}</text>'

    def number(self, end):
        x, y, side = self.ends[end]
        ox, oy = OUT[side]
        return f'<text class="port" x="{x - 6.5 * ox:.1f}" y="{y - 6 * oy + 3:.1f}">{end[1]}</text>'
