# Above the program's limits the tool judges by itself: a fat tree of 1,024 hosts at switches of 64 ports, and a ring of 140.
room=$(mktemp -d)
trap 'rm -rf "$room"' EXIT
python3 subnets.py fat-tree "$room/tree"
python3 subnets.py ring "$room/ring"
judge-routes "$room/tree.net" "$room/tree.lfts" --loads
judge-routes "$room/ring.net" "$room/ring.lfts" --one-lane
echo "status $?"
judge-routes "$room/ring.net" "$room/ring.lfts" --page
# Such fabrics can be looked at.
from-ibnetdiscover "$room/tree.net" > "$room/tree.in"
dot "$room/tree.in" --svg "$room/tree.svg" && grep -c '<rect' "$room/tree.svg"
page "$room/tree.in" < /dev/null | grep -c 'class="vertex'
