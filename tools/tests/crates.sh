# A small repository: one crate alone stands on what it should of the kit, the page lacks a crate, has one that is gone and one too early,
# a definition isn't where it was, of what carries a promise a law and a clause are gone, and it has one must-fail edit too many.
root=$(mktemp -d)
trap 'rm -rf "$root"' EXIT
mkdir -p "$root/docs/pictures" "$root/crates/net_defs/specs" "$root/crates/net_defs/src"
cat > "$root/crates.txt" <<'END'
# Base crates of definitions.
net_defs:
map_defs: net_defs
run_defs: map_defs net_defs

# Laws.
map_laws: map_defs net_defs

# The program.
fabric_run: run_defs map_laws
gm_port: slab
END
printf '## %s\n' 'Base crates of definitions' > "$root/docs/PROVED.md"
printf '| `%s` | what it promises |\n' net_defs map_defs run_defs >> "$root/docs/PROVED.md"
printf '## %s\n' 'Laws' 'The program' >> "$root/docs/PROVED.md"
printf '| `%s` | what it promises |\n' map_laws gm_port gone_laws >> "$root/docs/PROVED.md"
printf '%s\n' '| `far` | `crates/net_defs/specs/Network.antt` | ? |' '| `near` | `crates/net_defs/specs/Network.antt` | ? |' > "$root/docs/DEFINITIONS.md"
printf '%s\n' '**A fabric is hosts.**' '**By** the clause `hosts`, `cables`; `map_laws::fabrics`, `walks`.' '' > "$root/docs/PROMISES.md"
mkdir -p "$root/crates/fabric_run/src" "$root/crates/map_laws/src"
echo 'ensures hosts' > "$root/crates/fabric_run/src/top.rt"
echo 'pub fn fabrics' > "$root/crates/map_laws/src/lib.rt"
printf 'abbrev pub far : A\n' > "$root/crates/net_defs/specs/Network.antt"
printf '%s\n' '//! What a fabric is: hosts, switches' '//! and cables. It holds none.' '//!' '//! More.' > "$root/crates/net_defs/src/lib.rt"
mkdir "$root/crates/map_laws/must-fail"
touch "$root/crates/map_laws/must-fail/"{1..46}.edit
draw-crates "$root" > "$root/docs/pictures/laws.svg"
list-crates "$root" > "$root/crates/README.md"
check-crates "$root" | grep "^check-crates"
grep -A 3 '^## Base' "$root/crates/README.md"
grep net_defs "$root/crates/README.md"
echo "map_laws: net_defs" >> "$root/crates.txt"
check-crates "$root" | grep 'is old'
grep -c '<text' "$root/docs/pictures/laws.svg"
