# c has no table, and of three messages to b the second has no buffer of its size: it and the third wait, and the one to c.
explain waits.in waits.report | tail -n 3
