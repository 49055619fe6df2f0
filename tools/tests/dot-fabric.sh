dot ../../examples/two-hosts.in
