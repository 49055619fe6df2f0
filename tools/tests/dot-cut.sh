dot ../../examples/cut-leaf.in --report ../../examples/cut-leaf.out | grep -E "^  (h8|leaf2|leaf3) "
