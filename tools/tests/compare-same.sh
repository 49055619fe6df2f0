compare ../../examples/fat-tree.in ../../examples/fat-tree.out
