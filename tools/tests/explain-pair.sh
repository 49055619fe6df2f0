# The routes between two hosts beside the shortest way, and what isn't there.
explain ring.in ring.report --pair h2 h4
explain ring.in ring.report --pair h0 h9
explain ../../examples/cut-leaf.in ../../examples/cut-leaf.out --pair h0 h8
explain ../../examples/first-walk.in --pair a b < ../../examples/first-walk.out
