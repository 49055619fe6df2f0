# Commands in the place of a text's script: the text that the program is given, by a program that prints it.
echo=$(mktemp)
trap 'rm -f "$echo"' EXIT
printf '#!/bin/sh\ncat\n' >"$echo"
chmod +x "$echo"
export MYRIFAB=$echo
try ../../examples/two-hosts.in --command walk a +3 , map a 4 1 , routes
try ../../examples/two-hosts.in --next step advance s
try ../../examples/two-hosts.in --next provide b 5
try ../../examples/two-hosts.in --command 2>&1 | head -n 1
