dot ../../examples/self-cabled-map.in --report ../../examples/self-cabled-map.out | grep -E "t \[|h1|-- t"
