picture=$(mktemp)
trap 'rm -f "$picture"' EXIT
dot ../../examples/two-hosts.in --report ../../examples/two-hosts.out --route a b --svg "$picture" && cat "$picture"
# Loads, and a cable of a torus that is cut at its edge.
dot ../../examples/torus.in --report - --loads --svg "$picture" < ../../examples/torus.out
grep -E 's0:0 - s1:1|s3:0 - s0:1|at most' "$picture"
# A plan's differences.
dot ../../examples/fat-tree.in --report ../../examples/wrong-cable.out --plan --svg "$picture"
grep -Eo '<path class="(gone|new)"|<title>(h5|leaf3:5).*</title>|<text class="says".*' "$picture" | grep -A 1 -E 'class="(gone|new|says)'
# A cable that was pulled, and one that was plugged.
moved=../../crates/worked_runs/data/map-over-a-new-cable
dot $moved.in --report $moved.out --route a b --svg "$picture"
grep -Eo '<path class="(gone|new|over)"|>(pulled|plugged): [^<]*' "$picture"
# Without ports, and by levels where a grid suits.
dot ../../examples/torus.in --plain --layout levels --svg "$picture"
grep -c 'class="port"' "$picture"
dot ../../examples/two-hosts.in --loads 2> /dev/null
