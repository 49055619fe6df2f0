# What opensm's engines made of one network: `updn` has routes that wait in a circle, `nue` has none. A program of our own answers.
room=$(mktemp -d)
trap 'rm -rf "$room"' EXIT
printf '#!/bin/sh\ncat > "%s/given"\necho judge $(cat "%s/verdict")\n' "$room" "$room" > "$room/program"
chmod +x "$room/program"
export MYRIFAB=$room/program
echo no 206 rank > "$room/verdict"
judge-routes ibnetdiscover.txt updn-lfts.txt --one-lane
echo "status $?"
# Without the lanes nobody can say, and the program isn't asked.
MYRIFAB=/none judge-routes ibnetdiscover.txt updn-lfts.txt
echo "status $?"
echo yes > "$room/verdict"
judge-routes ibnetdiscover.txt nue-lfts.txt
echo "status $?"
judge-routes ibnetdiscover.txt nue-lfts.txt --text | cmp - "$room/given"
head -n 40 "$room/given"
# A program that says otherwise is believed no more than the tool; and none that runs.
judge-routes ibnetdiscover.txt updn-lfts.txt --one-lane
MYRIFAB=/none judge-routes ibnetdiscover.txt nue-lfts.txt
judge-routes ibnetdiscover.txt nue-lfts.txt --loads --own
judge-routes ibnetdiscover.txt nue-lfts.txt --page | grep -o '<title>routes</title>\|<b>[0-9]*</b> routes\|maps [0-9]* deep\|no host mapped it'
