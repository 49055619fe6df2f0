explain ../../examples/ring-too-shallow.in ../../examples/ring-too-shallow.out
