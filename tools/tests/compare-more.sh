compare ../../examples/cut-leaf.in ../../examples/fat-tree.out
