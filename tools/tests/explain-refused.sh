explain ../../examples/refused.in ../../examples/refused.out
