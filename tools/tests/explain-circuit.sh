explain ../../examples/circuit-links.in < ../../examples/circuit-links.out
