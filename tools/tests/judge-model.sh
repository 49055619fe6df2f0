# The model says of each worked text of `judge` what the program must say; and a program that says something else is told.
python3 - <<'END'
import sys
from pathlib import Path
sys.dont_write_bytecode = True
sys.path.insert(0, "..")
from fabtools import judging
texts = sorted(Path("../../crates/worked_runs/data").glob("judge-*.in"))
for it in texts:
    said, wanted = judging.verdict(it.read_bytes().decode("latin-1")), it.with_suffix(".out").read_text()
    if said + "\n" != wanted:
        print(f"{it.stem}: {said}")
print(len(texts), "texts")
END
judge-model ../../examples/two-hosts.in ../../examples/two-hosts.out
judge-model ../../examples/fat-tree.in ../../examples/wrong-cable.out
judge-model nothing.in
echo "status $?"
room=$(mktemp -d)
trap 'rm -rf "$room"' EXIT
printf '#!/bin/sh\ncat > /dev/null\necho judge yes\n' > "$room/program"
chmod +x "$room/program"
MYRIFAB=$room/program check-judge 40 1 > "$room/told"
echo "status $?"
grep -c "^text .*: the program says 'judge yes', and the model '" "$room/told"
tail -n 1 "$room/told"
