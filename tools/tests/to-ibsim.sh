to-ibsim ../../examples/ring-of-four.in
