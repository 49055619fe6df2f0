compare ../../examples/fat-tree.in ../../examples/wrong-cable.out
