dot ../../examples/ring-of-four.in --report ../../examples/ring-of-four.out --route b d
