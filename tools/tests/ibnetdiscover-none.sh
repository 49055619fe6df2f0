# What is no topology is refused, with what it is and what was expected.
for text in '' 'CA 1 1 0x0002c903 4x QDR - SW 2 1 0x0002c902' 'Ca : 0x0002c903 ports 1 "x"' \
  'Switch 0x0002c902 MF0;sw:\n  1 1[ ] ==( 4X )==> 3 1[ ] "x"' 'Switch: 0x0002c902 MF0;sw:\n  1 1[ ] ==( Down/ Polling)==> [ ] "" ( )' 'host a\nscript\nend'; do
  printf "$text" | from-ibnetdiscover 2>&1 | cut -d';' -f1
done
printf '' | from-ibnetdiscover
echo "status $?"
from-ibnetdiscover names.txt --map node-1
# A switch alone, and an adapter without a cable.
printf 'Switch 8 "s"\nHca 2 "h"\n' | from-ibnetdiscover
