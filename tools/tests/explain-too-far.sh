# A chain of 40 switches with a host at each end is too long for a whole map from either; with a host in the middle one may be, with four surely.
chain() {
  printf 'host h0\nhost h39\n'
  for s in $(seq 0 39); do printf 'switch s%s 8\n' "$s"; done
  printf 'cable h0 0 s0 2\ncable h39 0 s39 2\n'
  for s in $(seq 1 39); do printf 'cable s%s 0 s%s 1\n' $((s - 1)) "$s"; done
  for s in "$@"; do printf 'host h%s\ncable h%s 0 s%s 2\n' "$s" "$s" "$s"; done
  printf 'script\nmap h0 32 1\nend\n'
}
text=$(mktemp)
trap 'rm -f "$text"' EXIT
for hosts in "" "20" "8 14 20 28" ; do
  chain $hosts > "$text"
  printf '%s\n' 'map h0 incomplete depth asks 931 packets 1862' endmap 'end injected 1862 dropped 931' | explain "$text" | head -n 3
done
