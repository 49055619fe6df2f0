compare ../../examples/torus.in ../../examples/torus.out
