page ../../examples/refused.in ../../examples/refused.out
echo "status $?"
page ../../examples/two-hosts.in no-such-file
echo "status $?"
page ../../examples/two-hosts.in ../../examples/two-hosts.out --layout tree 2> /dev/null
