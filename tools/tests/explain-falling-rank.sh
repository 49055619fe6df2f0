# The route from b to d that goes down and up again, with the ranks of the map: one falls, or stays the same.
sed "s/^route b d .*/route b d -2 -1 +1/" ../../examples/ring-of-four.out | explain ../../examples/ring-of-four.in | grep WRONG
sed "s/^route b d .*/route b d -2 -1 +1/" ../../examples/ring-of-four.out | explain ../../examples/ring-of-four.in > /dev/null
sed "s/^route b d .*/route b d -2 -1 +1/; s/^rank #3 -1 3/rank #3 -1 10/" ../../examples/ring-of-four.out | explain ../../examples/ring-of-four.in | grep 'b to d' | grep WRONG
