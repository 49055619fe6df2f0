compare ../../examples/lost-probes.in ../../examples/lost-probes.out
