explain ../../examples/lost-part.in ../../examples/lost-part.out | tail -n 6
