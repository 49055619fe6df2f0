# A text that is refused, lines that no report is judged after, a line after `end`, an input that is too long, and a file that isn't there.
room=$(mktemp -d)
trap 'rm -rf "$room"' EXIT
cd "$room" || exit
printf '#!/bin/sh\ncat > /dev/null\necho refused 3 $(cat kind)\nexit 3\n' > program
chmod +x program
echo "end injected 0 dropped 0" > report
echo badword > kind
for line in 'plan pull 1 a 0' 'plan pul 1 a 0' 'duo emit 0'; do
  printf 'host a\nscript\n%s\nend\n' "$line" > text.in
  MYRIFAB=$room/program judge text.in report
  echo "status $?"
done
echo novertex > kind
printf 'host a\nscript\nmap b 1 1\nplan pull 1 a 0\nend\n' > text.in
MYRIFAB=$room/program judge text.in report
echo "status $?"
printf 'host a\nscript\nend\n# nothing more\nend\n' > text.in
MYRIFAB=$room/program judge text.in report
echo "status $?"
printf '#!/bin/sh\ncat > /dev/null\nexit 7\n' > program
printf 'host a\nscript\nend\n' > text.in
MYRIFAB=$room/program judge text.in report
echo "status $?"
MYRIFAB=$room/program judge text.in nothing
