# A report of another text is told as such: by its hosts, by its cables, and by those that a complete map lacks.
explain ../../examples/two-hosts.in ../../examples/torus.out
explain ../../examples/room.in ../../examples/torus.out
explain ../../examples/fat-tree.in ../../examples/wrong-cable.out --brief
explain ../../examples/fat-tree.in ../../examples/cut-leaf.out --loads
page ../../examples/room.in ../../examples/torus.out
dot ../../examples/room.in --report ../../examples/torus.out
dot ../../examples/fat-tree.in --report ../../examples/cut-leaf.out --svg not-made.svg
