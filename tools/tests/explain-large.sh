# A text above 1 MiB isn't run for its size, whatever it has in its lines; and a report that isn't that of a refused text is no report of it.
large=$(mktemp)
trap 'rm -f "$large"' EXIT
{ cat ../../examples/two-hosts.in; head -c 1048576 /dev/zero; } > "$large"
explain "$large" </dev/null
explain ../../examples/refused.in ../../examples/two-hosts.out
