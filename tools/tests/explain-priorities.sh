# The message of priority 0 has no buffer and waits; that of priority 1 behind it doesn't wait for it.
explain ../../crates/worked_runs/data/priority-passes.in ../../crates/worked_runs/data/priority-passes.out | tail -n 2
