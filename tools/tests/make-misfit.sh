# What is no fabric of the program.
make fat-tree 6
make fat-tree 16 --levels 3
make fat-tree 8 --leaves 9
make ring 64
make random 5 3
make dragonfly 9 8 --hosts 8
make torus 3 3 --map b
make fat-tree 16 --traffic all
make torus 4 2> /dev/null
