# 500 random walks: what is got is in order, each token has one owner, polls tell the truth, and each effect occurs.
python3 - <<'END'
import sys
from collections import Counter

sys.dont_write_bytecode = True
sys.path.insert(0, "..")
from fabtools import duo  # noqa: E402

told = Counter()
for seed in range(500):
    for _, said in duo.walk(seed, 150):
        words = said.split()
        told[said if words[0] == "refused" else words[0]] += 1
print(*sorted(told))
END
