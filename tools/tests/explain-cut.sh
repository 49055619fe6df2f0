explain ../../examples/cut-leaf.in < ../../examples/cut-leaf.out | head -n 16
