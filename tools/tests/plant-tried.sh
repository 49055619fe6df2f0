# What is made of what rt says, by an rt that proves nothing: of two wrong bodies one is refused and one gets through, a crate that isn't
# proved as it stands is said to be so, and what `rt plant` lets through is shown. The sources stay as they are.
room=$(mktemp -d)
trap 'rm -rf "$room"' EXIT
cat > "$room/rt" <<'END'
#!/usr/bin/env bash
case "$1 ${PWD##*/}" in
"plant fab_text") printf '%s\n' 'proves      src/name.rt:3 is_name: { true }' 'plants crate=fab_text planted-in=3 untested=0 no-ensures=0 proves=1 same=2 refused=33' ;;
*port_client) echo "src/lib.rt:1:1: error: no such name"; exit 1 ;;
"check fab_outer")
  if grep -q 'read(into).or' src/standard.rt; then
    printf '%s\n' "note: src/standard.rt:40:9: it is not proved that a clause holds" "logic=not-proved"
    exit 1
  fi ;;
esac
END
chmod +x "$room/rt"
PATH="$room:$PATH" plant --listed fab_outer port_client
echo "status $?"
PATH="$room:$PATH" plant fab_text
echo "status $?"
grep -q 'read(into).or' ../../crates/fab_outer/src/standard.rt || echo 'the sources are as they were'
