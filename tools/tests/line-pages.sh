# The table of lines with another word in a row, and the page with another word in a line and without one: each is named.
# (`tools/check-crates` prints these.)
root=$(mktemp -d)
trap 'rm -rf "$root"' EXIT
mkdir -p "$root/docs" "$root/crates/line_table/specs"
of=../..
page=$root/docs/FORMATS.md table=$root/crates/line_table/specs/Table.antt
try() {
  cp $of/docs/FORMATS.md "$page"
  cp $of/crates/line_table/specs/Table.antt "$table"
  sed -i "$1" "$2"
  cmp -s "$2" $of/"${2#"$root"/}" && echo "nothing was changed by $1"
  PYTHONDONTWRITEBYTECODE=1 PYTHONPATH=.. python3 -c "
from pathlib import Path
from fabtools import line_pages
print(*line_pages.faults(Path('$root')), sep='\n')"
  echo
}
try 's/codes "unread"/codes "notread"/' "$table"
try 's/^\(| `settle` | `settle\) rounds/\1 turns/' "$page"
try 's/^| `message`, `fragment` |/| `message` |/' "$page"
try 's/, `installed`, `epochs` |/, `installed` |/' "$page"
try 's/codes "outside"/codes "outer"/' "$table"
try 's/^| `cable V P W Q` | a cable, each once/| `cable V W` | a cable, each once/' "$page"
