# A program of our own in the place of the real one: it is given the text and the report together, also where the text lacks its last line end.
room=$(mktemp -d)
trap 'rm -rf "$room"' EXIT
printf '#!/bin/sh\ncat > "%s/given"\necho judge yes\n' "$room" > "$room/program"
chmod +x "$room/program"
printf 'host a\nscript\nend' > "$room/text.in"
printf 'end injected 0 dropped 0\n' > "$room/report"
MYRIFAB=$room/program judge "$room/text.in" "$room/report"
echo "status $?"
cat "$room/given"
MYRIFAB=$room/program judge "$room/text.in" < "$room/report"
# Where walks end the program doesn't judge, and the tool looks: each over the fabric as it stands.
printf 'host a\nhost b\ncable a 0 b 0\nscript\nwalk a\npull a 0\nwalk a\nend\n' > "$room/text.in"
printf 'walk host a\npull a 0 done\nwalk host b\nend injected 0 dropped 0\n' > "$room/report"
MYRIFAB=$room/program judge "$room/text.in" "$room/report"
