explain ../../examples/refused-calls.in ../../examples/refused-calls.out
