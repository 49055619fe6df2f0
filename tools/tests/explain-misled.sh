# A route that leads to another host than it says.
sed "s/^route a b .*/route a b -1 +2/" ../../examples/ring-of-four.out | explain ../../examples/ring-of-four.in | grep WRONG
