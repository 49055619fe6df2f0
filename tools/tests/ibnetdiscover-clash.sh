# Names that become one get a number, those that need the least change first; and the table stands in a file too.
table=$(mktemp)
trap 'rm -f "$table"' EXIT
node() { printf 'Ca 1 "%s" # "%s"\n[1] "S-1"[%s]\n' "$1" "$2" "$3"; }
{
  printf 'Switch 36 "S-1" # "MF0;sw-ib1:IS5200/L01/U1"\n'
  for it in 1 2 3 4 5 6 7; do printf '[%s] "H-%s"[1]\n' $it $it; done
  node H-1 'Node036 mlx5_0' 1
  node H-2 'node036 HCA-1' 2
  node H-3 'node036' 3
  node H-4 'cluster-rack12-node036 HCA-1' 4
  node H-5 'cluster-rack12-node037 HCA-1' 5
  node H-6 '10.0.0.7' 6
  node H-7 'node4' 7
} | from-ibnetdiscover --names "$table" --map 'cluster-rack12-node037'
cat "$table"
