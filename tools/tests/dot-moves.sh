picture=$(mktemp)
trap 'rm -f "$picture"' EXIT
# A cable that is plugged anew between the same ports is drawn once; a port has a slot more where its cables leave by two sides.
dot moves.in --report moves.report --svg "$picture"
grep -Eo '<path class="(gone|new)".*</title>|<text class="says".*' "$picture"
