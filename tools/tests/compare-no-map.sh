compare ../../examples/two-hosts.in ../../examples/first-walk.out
