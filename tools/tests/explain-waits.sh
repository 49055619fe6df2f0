explain ../../examples/wrong-size.in ../../examples/wrong-size.out | tail -n 2
explain ../../examples/message-without-token.in ../../examples/message-without-token.out | tail -n 2
