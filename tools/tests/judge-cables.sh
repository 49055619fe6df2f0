# A map of the fabric before a pull, told after it; lines of pulled cables that are wrong; a message after the new routes.
room=$(mktemp -d)
trap 'rm -rf "$room"' EXIT
plan=../../examples/pulled-and-plugged.in
report=$room/report
lines=$(wc -l < $plan)
printf '#!/bin/sh\ncat > /dev/null\necho judge no $(cat "%s/verdict")\n' "$room" > "$room/program"
chmod +x "$room/program"
judged() { # LINE WHY, of the report
  echo "$((lines + $1)) $2" > "$room/verdict"
  MYRIFAB=$room/program judge "$plan" "$report"
  echo "status $?"
}
line() { grep -n "$1" "$report" | tail -n 1 | cut -d: -f1; }
sed 's/^plug.*/plug b 0 s 5 refused full/' ../../examples/pulled-and-plugged.out > "$report"
judged "$(line '^map')" map
sed 's/^endbroken/broken a b/' ../../examples/pulled-and-plugged.out > "$report"
judged "$(line '^broken a b')" form
sed 's/^broken a b/endbroken/' ../../examples/pulled-and-plugged.out > "$report"
judged "$(line '^broken b a')" form
sed 's/bytes 07/bytes 08/' ../../examples/pulled-and-plugged.out > "$report"
judged "$(line received)" message
# Hosts may have the names of report words, and two of them those of a refusal.
cat > "$room/words.in" <<'TEXT'
host nodes
host asks
host refused
host noroutes
switch s 4
cable nodes 0 s 0
cable asks 0 s 1
cable refused 0 s 2
cable noroutes 0 s 3
script
open refused 1 1 0
send refused 1 asks 1 0 1 7
broken
map nodes 4 1
routes
install 1
pull s 2
broken
tokens refused 1
end
TEXT
plan=$room/words.in
lines=$(wc -l < "$plan")
cat > "$report" <<'TEXT'
open refused 1 done
send refused 1 refused noroute
broken refused noroutes
map nodes complete asks 31 packets 62
host nodes
switch #0 core
host asks
cable nodes 0 #0 0
endmap
routes 0
endroutes
installed 2 of 2
table nodes active
table asks active
pull s 2 done
broken refused noroutes
broken noroutes refused
endbroken
tokens refused 1 send 0=port recv
TEXT
judged "$(line tokens)" token
judged "$(line '^broken noroutes')" form
judged "$(line '^map')" map
