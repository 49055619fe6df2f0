# Two hosts that restart, as two columns with each packet's way: an acknowledgement that a restart loses, a hello that
# comes late; in brief, and as facts.
explain ../../examples/duo-lost-acknowledgement.in ../../examples/duo-lost-acknowledgement.out
explain ../../examples/duo-late-hello.in ../../examples/duo-late-hello.out
explain ../../examples/duo-both-restart.in ../../examples/duo-both-restart.out --brief
explain ../../examples/duo-restart.in ../../examples/duo-restart.out --json | grep -c '"told"'
