# How many routes cross each channel, with those that no route uses.
explain ../../examples/fat-tree.in ../../examples/fat-tree.out --loads | sed -n '1,4p;$p'
explain ring.in ring.report --loads
