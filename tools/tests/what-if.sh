export MYRIFAB=$PWD/recorded/run
what-if ../../examples/ring-of-four.in --without 's0 0'
echo "status $?"
what-if ../../examples/chain.in --without 't 2' --pairs
echo "status $?"
what-if ../../examples/cabled-twice.in --without 't 6' --without 's 1' | head -n 5
what-if ../../examples/ring-of-four.in --without s2
echo "status $?"
# The run, and a fabric of two parts, which has one for each.
what-if ../../examples/ring-of-four.in --without s2 --text | sed '/^script/,$!d'
text=$(mktemp)
trap 'rm -f "$text"' EXIT
printf '%s\n' 'host a' 'host b' 'host c' 'host d' 'cable a 0 b 0' 'cable c 0 d 0' script end > "$text"
what-if "$text" --without 'c 0'
# What the fabric alone says.
what-if ../../examples/room.in --each
echo "status $?"
what-if ../../examples/torus.in --each
echo "status $?"
what-if ../../examples/two-hosts.in --without 'a 1'
what-if ../../examples/refused.in --each
what-if no-such-file --each
what-if ../../examples/two-hosts.in 2> /dev/null
