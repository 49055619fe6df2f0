compare ../../crates/worked_runs/data/map-over-a-new-cable.in ../../crates/worked_runs/data/map-over-a-new-cable.out
