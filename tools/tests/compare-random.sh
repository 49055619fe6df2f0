# One or two changes at random: what is told is what was changed, or as few cables that give the same network.
python3 - <<'END'
from fabrics import RNG, differing, dragonfly, fabrics, fat_tree, mapped, pods, random_change, torus
from fabtools import differences

for name, plan in (("torus", torus()), ("fat tree", fat_tree()), ("parallel", fat_tree(parallel=3)), ("three levels", pods()), ("dragonfly", dragonfly())):
    wrong = 0
    for turn in range(12):
        built = random_change(plan, RNG)
        if turn % 2:
            built = random_change(built, RNG)
        host = RNG.choice([it for it in built.hosts if built.far((it, 0))])
        told = differences.find(plan, mapped(built, host, RNG))
        cables = {it for one in told for it in [*one.meant, *one.found]}
        whole = len(fabrics.reached(built, host)) == len(built.vertices())
        wrong += whole and cables != differing(plan, built) and len(cables) >= len(differing(plan, built))
    print(f"{name}: {wrong} told otherwise")
END
