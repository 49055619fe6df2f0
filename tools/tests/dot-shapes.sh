# The layout that suits a shape: how many frames of slices or groups, how many pieces of cables that are cut, and whether boxes overlap.
room=$(mktemp -d)
trap 'rm -rf "$room"' EXIT
told() { # SHAPE: what is in the picture
  echo "$1: $(python3 - "$room/picture" << 'END'
import re
import sys
svg = open(sys.argv[1]).read()
form = r'<g class="(?:host|switch)"><rect x="([-0-9.]+)" y="([-0-9.]+)" width="([0-9.]+)" height="([0-9.]+)"'
boxes = [list(map(float, it)) for it in re.findall(form, svg)]
over = sum(
    abs((x + w / 2) - (u + v / 2)) < (w + v) / 2 and abs((y + h / 2) - (t + k / 2)) < (h + k) / 2
    for at, (x, y, w, h) in enumerate(boxes) for u, t, v, k in boxes[at + 1 :]
)
pieces = len(re.findall(r'd="M[^"M]*M', svg))
print(f"{len(boxes)} boxes, {over} overlap, {svg.count('class=' + chr(34) + 'frame')} frames, {pieces} cables cut")
END
)"
}
for shape in 'torus 3 3 3' 'torus 2 3 4 --hosts 2' 'torus 4 4' 'dragonfly 9 4 --hosts 2' 'dragonfly 5 3' 'fat-tree 4' 'ring 9'; do
  make $shape > "$room/text"
  dot "$room/text" --svg "$room/picture"
  told "$shape"
done
grep -o 'slice 1 of [0-9]*' "$room/picture"
make torus 3 3 3 > "$room/text"
dot "$room/text" --svg - | grep -Eo 'slice [0-9] of 3|<title>s0_0_0:[0-9] - s(1|2)_0_0:[0-9]</title>(<text[^>]*>[^<]*</text>)*' | sed 's/<[^>]*>/ /g'
# The same by its names alone, in another order of lines; and what a fabric isn't.
{ grep ^host "$room/text"; grep ^switch "$room/text" | sort -R --random-source=/dev/zero; sed -n '/^cable/,$p' "$room/text"; } > "$room/mixed"
dot "$room/mixed" --svg - | grep -c 'class="frame"'
dot ../../examples/room.in --layout slices
dot ../../examples/torus.in --layout groups
echo "status $?"
# More switches without a shape than springs are for: the fewer cables lie between two, the nearer they stand.
python3 - > "$room/text" << 'END'
from random import Random
chance, free = Random(5), {at: list(range(16)) for at in range(90)}
print("\n".join([f"host h{at}\nswitch s{at} 16\ncable h{at} 0 s{at} {free[at].pop()}" for at in free]))
for one in [*range(1, 90), *(chance.randrange(90) for _ in range(60))]:
    other = chance.choice([it for it in range(max(0, one - 9), min(90, one + 9)) if it != one])
    if free[one] and free[other]:
        print(f"cable s{one} {free[one].pop()} s{other} {free[other].pop()}")
print("script\nend")
END
dot "$room/text" --svg "$room/picture" && told '90 switches'
for name in s0 s4 s40 s89; do grep -o "<g class=\"switch\"><rect x=\"[0-9.]*\" y=\"[0-9.]*\".*>$name</text>" "$room/picture" | sed "s/.*x=\"\([0-9]*\)[^y]*y=\"\([0-9]*\).*/$name at \1 \2/"; done
