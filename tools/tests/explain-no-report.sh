echo "map a complete asks x packets 2" | explain ../../examples/two-hosts.in
