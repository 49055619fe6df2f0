# Which routes cross a cable, in both directions; and what is no cable.
explain ring.in ring.report --cable s2:0
for end in s2:3 s2:4 x:0 s2; do explain ring.in ring.report --cable $end; done
