# What was due where a program of our own says no: a line of another form, a missing one, a map, a route, ranks, a pair without a route.
room=$(mktemp -d)
trap 'rm -rf "$room"' EXIT
plan=../../examples/ring-of-four.in
report=$room/report
lines=$(wc -l < $plan)
printf '#!/bin/sh\ncat > /dev/null\necho judge no $(cat "%s/verdict")\n' "$room" > "$room/program"
chmod +x "$room/program"
judged() { # LINE WHY, of the report
  echo "$((lines + $1)) $2" > "$room/verdict"
  MYRIFAB=$room/program judge $plan "$report"
  echo "status $?"
}
line() { grep -n "^$1" "$report" | head -n 1 | cut -d: -f1; }
sed 's/^endmap/end/' ../../examples/ring-of-four.out > "$report"
judged "$(line 'end$')" form
head -n 3 ../../examples/ring-of-four.out > "$report"
judged 4 form
sed 's/^cable #2 +1 #3 -1/cable #2 +1 #3 +2/' ../../examples/ring-of-four.out > "$report"
judged "$(line map)" map
sed 's/^route b d .*/route b d -2 +2 +1/' ../../examples/ring-of-four.out > "$report"
judged "$(line 'route b d')" route
sed 's/^route b d .*/route b d -2 -1 +1/' ../../examples/ring-of-four.out > "$report"
judged "$(line endroutes)" rank
sed '/^route b d/d; s/^routes 12/routes 11/' ../../examples/ring-of-four.out > "$report"
judged "$(line routes)" route
