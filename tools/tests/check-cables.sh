# A program whose runs were recorded, as it says what the model says, one that says something else of a line, and one that says nothing.
folder=$(mktemp -d)
trap 'rm -rf "$folder"' EXIT
export MYRIFAB=$PWD/recorded/run
check-cables 11 12
lies=0
for lie in 's/newcable/nocable/' 's/^broken \(.*\) \(.*\)/broken \2 \1/' 's/refused changed/refused installed/' 's/^revoked .*/revoked 1/'; do
  lies=$((lies + 1))
  printf '#!/bin/sh\n"%s" run | sed "%s"\n' "$PWD/recorded/run" "$lie" >"$folder/$lies"
  chmod +x "$folder/$lies"
  MYRIFAB=$folder/$lies check-cables 11 12 | cut -c 1-110
done
printf '#!/bin/sh\ncat >/dev/null\n' >"$folder/silent"
chmod +x "$folder/silent"
MYRIFAB=$folder/silent check-cables 11
