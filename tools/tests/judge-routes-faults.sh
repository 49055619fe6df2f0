# Tables that lead routes nowhere, round, or elsewhere, and one that is missing or cut off; all routes that fail, and each in ten lines.
room=$(mktemp -d)
trap 'rm -rf "$room"' EXIT
net=managers/fat-tree.txt
tables=managers/fat-tree-ftree.lfts
changed() { # GUID LID PORT: the switch sends the LID to the port, or has none for it
  sed "/guid 0x0*$1 /,/dumped/s/^$2 .*/$2 $3 :/" $tables > "$room/tables"
  judge-routes $net "$room/tables" --own | tail -n +2
}
changed 200000 0x000e '255'
changed 200000 0x000e '000'
changed 200000 0x000e '036'
changed 200000 0x000e '001'
changed 200005 0x000e '001'
for it in 200000 200001 200002; do sed -i "/guid 0x0*$it /,/dumped/s/^\(0x[0-9a-f]*\) [0-9]*/\1 099/" "$room/tables"; done
judge-routes $net "$room/tables" --own
judge-routes $net "$room/tables" --own --all | wc -l
sed '/guid 0x0*200005 /,/dumped/d' $tables > "$room/tables"
judge-routes $net "$room/tables" --own 2>&1 | sed "s,$room/,,"
head -n 27 $tables > "$room/tables"
judge-routes $net "$room/tables" --own 2>&1 | sed "s,$room/,,"
