# No two port numbers, and no two boxes, are on top of each other.
python3 - <<'PY'
import subprocess, sys
sys.dont_write_bytecode = True
sys.path.insert(0, "..")
from itertools import combinations
from pathlib import Path
from fabtools import fabric, shapes
from fabtools.drawing import Drawing, OUT

fabrics = {it.stem: fabric.read(it.read_text()) for it in sorted(Path("../../examples").glob("*.in")) if not it.stem.startswith(("gen", "refused"))}
fabrics |= {"fat tree of three": shapes.fat_tree_of_three(4), "fat tree of 128 hosts": shapes.fat_tree(16), "dragonfly": shapes.dragonfly(5, 4, 2)}
fabrics |= {"torus of 8 by 8": shapes.torus((8, 8), 2), "ring of 24": shapes.ring(24, 1), "random": shapes.random(14, 24, 1, 4)}
for name, one in fabrics.items():
    drawn = Drawing(one, notes={it: "#12" for it in one.switches})
    numbers = [(x - 6.5 * OUT[side][0], y - 6 * OUT[side][1]) for end, (x, y, side) in drawn.ends.items() if end[0] in one.switches]
    near = sum(abs(a[0] - b[0]) < 10 and abs(a[1] - b[1]) < 7 for a, b in combinations(numbers, 2))
    boxes = [(drawn.spots[it], drawn.sizes[it]) for it in one.vertices()]
    over = sum(abs(p[0] - q[0]) < (s[0] + t[0]) / 2 and abs(p[1] - q[1]) < (s[1] + t[1]) / 2 for (p, s), (q, t) in combinations(boxes, 2))
    if near or over:
        print(f"{name}: {near} pairs of numbers and {over} pairs of boxes on top of each other")
print(f"{len(fabrics) > 25}")
PY
