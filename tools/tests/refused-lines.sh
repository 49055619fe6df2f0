# Each refused line and text of the worked texts: the tools find the first fault where the program does, and of its kind; what is accepted has none.
python3 - <<'END'
import sys
from pathlib import Path
sys.dont_write_bytecode = True
sys.path.insert(0, "..")
from fabtools import fabric, script
data = Path("../../crates/worked_runs/data")
def differs(name, text, wanted):
    fault = script.first_fault(text)
    got = (fault.line, fault.kind) if fault else None
    if got != wanted:
        print(f"{name}: the tools say {got}, and the program {wanted}")
for part, end in (("fabric", "script\nend\n"), ("script", "end\n")):
    front = fabric.load(data / f"{part}-lines.front")
    for row in fabric.load(data / f"{part}-lines.refused").splitlines():
        kind, _, line = row.partition(" ")
        differs(line, f"{front}{line}\n{end}", (front.count("\n") + 1, kind))
for text in sorted(data.glob("*.in")):
    report = fabric.load(text.with_suffix(".out")).split()
    refused = report[:1] == ["refused"]
    if not text.with_suffix(".words").exists():
        differs(text.name, fabric.load(text), (int(report[1]), report[2]) if refused else None)
print("compared")
END
