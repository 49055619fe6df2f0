# In brief: no route and no switch of its own, and lists cut short.
explain ../../examples/cut-leaf.in ../../examples/cut-leaf.out --brief
explain ring.in ring.report --brief
explain ../../examples/wrong-size.in ../../examples/wrong-size.out --brief | tail -n 2
