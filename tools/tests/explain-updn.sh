explain ../../examples/updn-cycle.in ../../examples/updn-cycle.out
