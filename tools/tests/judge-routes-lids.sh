# With an LMC above 0 every LID of a host is judged: here each second one leads astray. A form without LMCs is refused then.
room=$(mktemp -d)
trap 'rm -rf "$room"' EXIT
cd "$room" || exit
switch() { # NAME TABLE ..
  printf 'Unicast lids [0x0-0x7] of switch Lid 8 guid 0x%s:\n' "$1"
  shift
  printf '0x000%s 00%s : \n' "$@"
  echo '5 lids dumped'
}
cat > net <<'TOPOLOGY'
Switch	36 "S-0a"		# "left" base port 0 lid 8 lmc 0
[1]	"H-01"[1](1) 		# "one" lid 2 4xHDR
[2]	"S-0b"[2]		# "right" lid 9 4xHDR
Switch	36 "S-0b"		# "right" base port 0 lid 9 lmc 0
[1]	"H-02"[1](2) 		# "two" lid 4 4xHDR
[2]	"S-0a"[2]		# "left" lid 8 4xHDR
Ca	1 "H-01"		# "one"
[1](1) 	"S-0a"[1]		# lid 2 lmc 1 "left" lid 8 4xHDR
Ca	1 "H-02"		# "two"
[1](2) 	"S-0b"[1]		# lid 4 lmc 1 "right" lid 9 4xHDR
TOPOLOGY
{ switch 0a 2 1 3 1 4 2 5 2; switch 0b 2 2 3 2 4 1 5 1; } > good
{ switch 0a 2 1 3 1 4 2 5 1; switch 0b 2 2 3 9 4 1 5 1; } > astray
printf '#!/bin/sh\ncat >> "%s/given"\necho judge yes\n' "$room" > program
chmod +x program
MYRIFAB=$room/program judge-routes net good
grep -c '^route ' given
judge-routes net astray --own
judge-routes net astray --own --json
end() { printf '{ %s Ports:01 SystemGUID:%s NodeGUID:%s PortGUID:%s VenID:000000 DevID:0000 Rev:000000A1 {%s} LID:%s PN:%s }' "$1" "$2" "$2" "$2" "$3" "$4" "$5"; }
cable() { printf '%s %s PHY=4x LOG=ACT SPD=25\n' "$1" "$2"; }
cable "$(end CA 01 one 0002 01)" "$(end SW 0a left 0008 01)" > net.lst
cable "$(end CA 02 two 0004 01)" "$(end SW 0b right 0009 01)" >> net.lst
cable "$(end SW 0a left 0008 02)" "$(end SW 0b right 0009 02)" >> net.lst
sed -i 's/{ SW Ports:01/{ SW Ports:24/g' net.lst
judge-routes net.lst good --own
sed '/^0x000[35]/d' good > base
judge-routes net.lst base --own
