# The same fabric by ibnetdiscover, by iblinkinfo and by ibutils' .lst; and each of the two others cut off.
room=$(mktemp -d)
trap 'rm -rf "$room"' EXIT
for form in ibnetdiscover iblinkinfo subnet-lst; do
  from-ibnetdiscover links/$form.txt | grep -v '^#' > "$room/$form"
  cmp "$room/ibnetdiscover" "$room/$form" && echo "$form: $(grep -c ^cable "$room/$form") cables"
done
for form in iblinkinfo subnet-lst; do
  for count in 3 9 11; do head -n $count links/$form.txt | from-ibnetdiscover 2>&1 | cut -c1-140; done
  sed '5s/LinkUp.*//; 5s/PN:.*//' links/$form.txt | from-ibnetdiscover 2>&1 | cut -c1-140
done
sed 's/ 2   36\[/ 2   35[/' links/iblinkinfo.txt | from-ibnetdiscover
sed '2s/PN:0./PN:04/' links/subnet-lst.txt | from-ibnetdiscover
