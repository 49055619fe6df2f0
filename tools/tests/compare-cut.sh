compare ../../examples/fat-tree.in ../../examples/cut-leaf.out
