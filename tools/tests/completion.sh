# What bash proposes for the last word of a line.
cd ../.. || exit 1
source tools/bash/myrifab
proposed() {
  COMP_WORDS=("$@") COMP_CWORD=$(($# - 1)) COMPREPLY=()
  case $1 in myrifab) _myrifab ;; *) _myrifab_tool ;; esac
  echo "$*: ${COMPREPLY[*]}"
}
proposed myrifab r
proposed myrifab ''
proposed tools/judge-routes --
proposed tools/dot examples/torus.in --lo
proposed tools/dot examples/torus.in --layout s
proposed tools/dot examples/ring-of-four.in --route ''
proposed tools/dot examples/ring-of-four.in --route a ''
proposed tools/what-if examples/ring-of-four.in --without s
proposed tools/make t
proposed tools/make torus 4 4 --traffic ''
proposed tools/page examples/fat-t
proposed tools/try examples/ring-of-four.in --c
proposed tools/try examples/ring-of-four.in --command s
proposed tools/try examples/ring-of-four.in --command send ''
proposed tools/try examples/ring-of-four.in --command plan ''
proposed tools/try examples/ring-of-four.in --command map a 9 1 , routes , step advance s
proposed tools/try examples/ring-of-four.in --command step advance s2 ''
proposed tools/try examples/refused.in --command step re
# Vim's words are those of the forms.
python3 - <<'END'
import re
import sys
sys.dont_write_bytecode = True
sys.path.insert(0, "tools")
from fabtools import fabric, forms, script
plugin, syntax = (open(f"tools/vim/{it}/myrifab.vim").read() for it in ("ftplugin", "syntax"))
listed = {name: re.findall("'([a-z]+)'", row) for name, row in re.findall(r"^let s:(\w+) = \[(.*)\]", plugin, re.M)}
second = {it: script.next_words(fabric.Fabric(), [it]) for it in forms.IN_TWO}
wanted = {"fabric": list(forms.FABRIC_FORMS), "script": [*script.next_words(fabric.Fabric(), []), "end"], "plans": second["plan"], "steps": second["step"]}
for name, words in wanted.items():
    if sorted(listed[name]) != sorted(words):
        print(f"s:{name} has {listed[name]} in place of {words}")
missing = sorted({it for words in wanted.values() for it in words if not re.search(rf"\b{it}\b", syntax)})
if missing:
    print("the syntax of vim lacks", *missing)
END
complete -p tools/page myrifab-page myrifab
