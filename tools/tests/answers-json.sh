# One form of answers for a program, from each tool that says yes or no; a judge's no in ten lines, and all of it.
export MYRIFAB=$PWD/recorded/run
cd ../../examples || exit
# The fields of an answer, and of each kind of finding.
fields() { python3 -c '
import json, sys
made = json.load(sys.stdin)
print({it: made[it] for it in made if it != "findings"})
for it in {it["kind"]: it for it in made["findings"]}.values():
    print(" ", {name: value if len(str(value)) < 100 else "long" for name, value in it.items()})'; }
compare fat-tree.in wrong-cable.out --json | fields
compare fat-tree.in fat-tree.out --json | fields
what-if ring-of-four.in --without 's0 0' --json | fields
what-if chain.in --without 't 2' --json | fields
what-if room.in --each --json | fields
room=$(mktemp -d)
trap 'rm -rf "$room"' EXIT
printf '#!/bin/sh\ncat > /dev/null\necho judge $(cat "%s/verdict")\n' "$room" > "$room/program"
chmod +x "$room/program"
export MYRIFAB=$room/program
line() { echo "$(($(wc -l < "$1") + $(grep -n "^$3" "$2" | head -n 1 | cut -d: -f1)))"; }
# A map without its cables but one.
sed '/^cable #/d' fat-tree.out > "$room/lacking"
echo "no $(line fat-tree.in "$room/lacking" map) map" > "$room/verdict"
judge fat-tree.in "$room/lacking"
judge fat-tree.in "$room/lacking" --all | wc -l
judge fat-tree.in "$room/lacking" --json | fields
echo yes > "$room/verdict"
judge fat-tree.in fat-tree.out --json | fields
