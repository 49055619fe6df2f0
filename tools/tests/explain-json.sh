# The same for another program.
for what in "--pair h2 h4" "--cable s2:0" "--loads" "--brief"; do
  explain ring.in ring.report $what --json | python3 -c '
import json, sys
told = json.load(sys.stdin)
for name, found in told.items():
    print(name, [{it: str(said)[:40] for it, said in one.items()} for one in found][:2])
'
done
explain ../../examples/refused.in ../../examples/refused.out --json
