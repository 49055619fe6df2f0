dot ../../examples/two-hosts.in --report ../../examples/two-hosts.out --route a x
