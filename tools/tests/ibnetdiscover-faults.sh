# A topology that is cut off or edited is refused at its line. Cut at each line, a file never makes a smaller fabric.
refused() { sed "$1" ibnetdiscover.txt | from-ibnetdiscover 2>&1 | cut -c1-150; }
refused '/^Ca/,$d'
refused '120,$d'
refused 's/^\(\[3\]\t"H-0000000000100010"\)\[1\].*/\1/'
refused 's/\(S-0000000000200009"\)\[5\]/\1[6]/'
refused 's/^\[3\]\(.*H-0000000000100010\)/[0]\1/'
refused 's/^\[3\]\(.*H-0000000000100010\)/[17]\1/'
refused 's/\(H-0000000000100010"\)\[1\]/\1[0]/'
refused 's/^\[5\]\(.*S-0000000000200008\)/[3]\1/'
refused 's/^\[5\]\t"S-0000000000200008"\[6\]/[5] "S-0000000000200009"[5]/'
refused 's/"s11"/"s\xc3\xa9"/'
refused 's/^Switch\t16 "S-0000000000200008"/Switch\t16 "S-0000000000200009"/'
refused '1i [1] "S-1"[1]'
refused '1i include other.net'
python3 - <<'PY'
import sys
sys.dont_write_bytecode = True
sys.path.insert(0, "..")
from fabtools import infiniband, topology
whole = open("ibnetdiscover.txt", encoding="latin-1").read()
lines, taken = whole.splitlines(True), []
for at in range(len(whole)):
    try:
        nodes = infiniband.read(whole[:at])
    except topology.NoTopology:
        continue
    taken.append(len(nodes))
print(f"cut at each of {len(whole)} bytes: {len(taken)} are taken, and these have {sorted(set(taken))} of {len(infiniband.read(whole))} nodes")
PY
