# A fabric that is taken out and brought in again is the same, cable for cable.
for name in fat-tree torus updn-cycle room cabled-twice self-cabled-map; do
  to-ibsim ../../examples/$name.in | from-ibnetdiscover > /tmp/round-trip.$$
  python3 -c "
import sys
sys.dont_write_bytecode = True
sys.path.insert(0, \"..\")
from fabtools import fabric
a, b = (fabric.read(open(it).read()) for it in sys.argv[1:])
same = (set(a.hosts), a.switches, a.far_ends) == (set(b.hosts), b.switches, b.far_ends)
print(\"$name\", \"same\" if same else \"differs\")
" ../../examples/$name.in /tmp/round-trip.$$
  rm -f /tmp/round-trip.$$
done
