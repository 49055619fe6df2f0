explain ../../examples/pulled-and-plugged.in ../../examples/pulled-and-plugged.out | sed '/^line 24/,/^line 30/!d; /^line 30/d'
explain ../../crates/worked_runs/data/map-over-a-new-cable.in ../../crates/worked_runs/data/map-over-a-new-cable.out | grep '#0 is s'
explain ../../examples/pulled-in-a-map.in ../../examples/pulled-in-a-map.out | tail -n 1
# Routes of which a cable is gone.
gone=../../crates/worked_runs/data/changed-before-install
explain $gone.in $gone.out --pair a b
explain $gone.in $gone.out --cable s:5
