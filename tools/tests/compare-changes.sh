# Fabrics that were built otherwise than planned: each difference is told once, and nothing else.
python3 - <<'END'
from fabrics import RNG, dragonfly, exchanged, fat_tree, mapped, pods, torus, without
from fabtools import differences

def tell(what, plan, built, host="h0"):
    print(f"{what}:")
    for it in differences.find(plan, mapped(built, host, RNG)) or [None]:
        print("  " + (it.text if it else "nothing"))

def swap(fabric, a, b):
    return exchanged(fabric, {a: b, b: a})

for name, plan, moved, free in (
    ("a torus", torus(), ("s5", 0), ("s5", 2)),
    ("a fat tree", fat_tree(), ("spine1", 2), ("spine1", 9)),
    ("three levels", pods(), ("core1", 3), ("core1", 6)),
    ("a dragonfly", dragonfly(), ("r2_1", 10), ("r2_1", 14)),
):
    host = plan.hosts[5]
    tell(f"{name} as planned", plan, plan, host)
    tell("a moved port", plan, exchanged(plan, {moved: free}))
    tell("two swapped hosts", plan, swap(plan, (plan.hosts[2], 0), (plan.hosts[7], 0)))
    tell("a missing cable", plan, without(plan, moved))
    tell("a missing host", plan, without(plan, (host, 0)))
plan = torus(hosts=2)
tell("two hosts a leaf, swapped", plan, swap(plan, ("h4", 0), ("h5", 0)))
tell("a switch in the wrong row", plan, exchanged(plan, {("s5", 6): ("s9", 6), ("s9", 6): ("s5", 6), ("s5", 7): ("s9", 7), ("s9", 7): ("s5", 7)}))
plan = pods()
tell("a leaf in the wrong pod", plan, exchanged(plan, {("agg0_0", 0): ("agg1_0", 0), ("agg1_0", 0): ("agg0_0", 0), ("agg0_1", 0): ("agg1_1", 0), ("agg1_1", 0): ("agg0_1", 0)}))
tell("a core without one pod", plan, without(plan, ("core2", 0)), "h9")
tell("a pod that is cut off", plan, without(plan, *((f"core{it}", 3) for it in range(4))))
plan = fat_tree(parallel=3)
tell("parallel cables, one missing", plan, without(plan, ("spine1", 4)))
tell("parallel cables, two exchanged", plan, swap(plan, ("spine0", 1), ("spine1", 7)))
END
