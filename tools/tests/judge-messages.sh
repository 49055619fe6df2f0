# The message that was due, the tokens that are held, a port that isn't open, and lines after the last answer.
room=$(mktemp -d)
trap 'rm -rf "$room"' EXIT
plan=../../examples/one-message.in
report=$room/report
lines=$(wc -l < $plan)
printf '#!/bin/sh\ncat > /dev/null\necho judge no $(cat "%s/verdict")\n' "$room" > "$room/program"
chmod +x "$room/program"
judged() { # LINE WHY, of the report
  echo "$((lines + $1)) $2" > "$room/verdict"
  MYRIFAB=$room/program judge $plan "$report"
  echo "status $?"
}
line() { grep -n "$1" "$report" | head -n 1 | cut -d: -f1; }
cp ../../examples/one-message.out "$report"
judged "$(line received)" message
judged "$(line received)" token
sed '/^open/s/done/refused already/' ../../examples/one-message.out > "$report"
judged "$(line '^provide')" token
cp ../../examples/one-message.out "$report"
echo "end injected 0 dropped 0" >> "$report"
judged "$(wc -l < "$report")" form
