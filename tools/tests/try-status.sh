# A program of our own in the place of the real one: its status is named in a sentence, and a refused line is quoted with what is wrong.
room=$(mktemp -d)
trap 'rm -rf "$room"' EXIT
printf '#!/bin/sh\nexit $(cat status)\n' > "$room/program"
chmod +x "$room/program"
printf 'host a\nscript\nmep a 4 1\nend\n' > "$room/text.in"
cd "$room" || exit
for status in 0 3 4 5 6 7; do
  echo "$status" > status
  MYRIFAB=$room/program try text.in || [ $? = "$status" ] || echo "not $status"
done
printf '#!/bin/sh\nkill -ILL $$\n' > "$room/program"
MYRIFAB=$room/program try text.in
echo "status $?"
# What is past the longest text isn't read, and a reader that ends is no fault.
printf '#!/bin/sh\nwc -c\n' > "$room/program"
head -c 2000000 /dev/zero | MYRIFAB=$room/program try
printf '#!/bin/sh\nsleep 0.3\nexit 5\n' > "$room/program"
MYRIFAB=$room/program try text.in | true
MYRIFAB=$room/nothing try text.in 2>&1 | sed "s,$room/,,"
