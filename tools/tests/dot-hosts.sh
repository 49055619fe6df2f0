# Irregular fabrics, whose switches are held apart as if by springs: how many hosts, and how many switches, stand with their middle on a cable that isn't theirs.
room=$(mktemp -d)
trap 'rm -rf "$room"' EXIT
for seed in 1 5 8; do
  make random 14 24 --hosts 2 --seed $seed > "$room/text"
  dot "$room/text" --svg "$room/picture"
  echo "seed $seed: $(python3 - "$room/picture" << 'END'
import re
import sys
svg = open(sys.argv[1]).read()
box = r'<g class="%s"><rect x="([-0-9.]+)" y="([-0-9.]+)" width="([0-9.]+)" height="([0-9.]+)".*?>(\w+)<'
hosts, switches = (
    {name: (float(x) + float(w) / 2, float(y) + float(h) / 2) for x, y, w, h, name in re.findall(box % kind, svg)} for kind in ("host", "switch")
)
cable = r'd="M([-0-9.]+) ([-0-9.]+)L([-0-9.]+) ([-0-9.]+)"[^>]*><title>(\w+):\d+ - (\w+):'
cables = [(*map(float, it[:4]), it[4:]) for it in re.findall(cable, svg)]

def is_on(spot, x, y, u, v):
    """Whether a place is within seven pixels of a cable."""
    long = (u - x) ** 2 + (v - y) ** 2
    along = min(1, max(0, ((spot[0] - x) * (u - x) + (spot[1] - y) * (v - y)) / long))
    return (x + along * (u - x) - spot[0]) ** 2 + (y + along * (v - y) - spot[1]) ** 2 < 49

over, crossed = (
    [name for name, spot in boxes.items() if any(is_on(spot, *it[:4]) for it in cables if name not in it[4])] for boxes in (hosts, switches)
)
print(f"{len(hosts)} hosts, {len(cables)} cables, {len(over)} hosts and {len(crossed)} of {len(switches)} switches on others' cables")
END
)"
done
