explain ../../examples/two-hosts.in ../../examples/two-hosts.out
