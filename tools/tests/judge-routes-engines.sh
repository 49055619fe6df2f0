# What opensm's engines made of a fat tree of switches of 36 ports, a 3D torus and a dragonfly, over ibsim, judged by the tool itself:
# first by the tables alone, which leave circles undecided, then by lane. `updn` had a root; the tables keep the hosts' LIDs.
lanes=$(mktemp)
trap 'rm -f "$lanes"' EXIT
for shape in fat-tree torus dragonfly; do
  for tables in managers/$shape-*.lfts; do
    engine=${tables#managers/"$shape"-}
    said=$(judge-routes managers/$shape.txt "$tables" --own)
    echo "$shape ${engine%.lfts}: status $?, $(sed -n 2p <<< "$said" | cut -d, -f1)"
  done
done
for shape in torus dragonfly; do
  # Of each switch opensm-sl2vl.dump had such a line for each two ports.
  grep -o 'S-0[^"]*" *# "[^"]*"\|^Switch.*# "[^"]*"' managers/$shape.txt | sed -n 's/^Switch[^"]*"S-\([^"]*\)".*# "\(.*\)"/\1 \2/p' | while read -r guid name; do
    printf 'Switch 0x%s, base LID 1, "%s"\n' "$guid" "$name"
    for in in 0 1 2 3 4 5 6 7; do for out in 1 2 3 4 5 6 7; do echo "$in $out : 0 1 2 3 4 5 6 7 0 1 2 3 4 5 6 7"; done; done
  done > "$lanes"
  for engine in dfsssp lash; do
    echo "$shape $engine by lane: $(judge-routes managers/$shape.txt managers/$shape-$engine.lfts --paths managers/$shape-$engine.paths --lanes "$lanes" | tail -n 1)"
  done
done
# All service levels on one lane, and then the last three records missing.
sed 's/:.*/: 1 1 1 1 1 1 1 1 1 1 1 1 1 1 1 1/' "$lanes" > "$lanes.one"
head -n -3 managers/dragonfly-lash.paths > "$lanes.cut"
judge-routes managers/dragonfly.txt managers/dragonfly-lash.lfts --paths managers/dragonfly-lash.paths --lanes "$lanes.one"
judge-routes managers/dragonfly.txt managers/dragonfly-lash.lfts --paths "$lanes.cut" --lanes "$lanes.one" 2>&1 | sed 's,/tmp/tmp[^ ,]*,FILE,g'
rm -f "$lanes".*
