# How tools end: over a full device, with streams closed, by an interrupt, in a clone where nothing can be written, and in one line.
room=$(mktemp -d)
trap 'rm -rf "$room"' EXIT
text=../../examples/two-hosts.in report=../../examples/two-hosts.out
compare ../../examples/room.in $report > /dev/full
echo "status $?"
make --help > /dev/full
echo "status $?"
compare $text $report >&-
echo "status $?"
explain $text <&-
echo "status $?"
compare $text no-such-file 2>&-
echo "status $?"
compare $text no-such-file 2> /dev/full
echo "status $?"
dot $text --svg - | head -c 4
echo " status ${PIPESTATUS[*]}"
timeout --preserve-status -s INT 2 duo-model --walk 1 100000000 > /dev/null
echo "status $?"
# A folder `out` that is none stands for one that can't be written, as root may write in each.
mkdir "$room/clone"
cp -R .. "$room/clone/tools"
touch "$room/clone/out"
MYRIFAB= "$room/clone/tools/try" $text 2>&1 | sed "s|$room|ROOM|"
# Reports and texts in each other's place, and those that were cut off or damaged.
: | explain $text
explain $text $text
compare $text $text
compare $text ../../examples/refused.out
judge /dev/null $report
head -n 5 $report | compare $text
head -n 12 $report | explain $text | tail -n 2
sed 's/^rank a 0 .*/rank a/' $report | dot $text --report - --svg -
sed 's/^installed .*/installed/' $report | page $text
sed 's/^settle rounds .*/settle rounds 1/' fragments.report | explain fragments.in
sed 's/^duo emitted 0/duo emitted/' ../../examples/duo-restart.out | explain ../../examples/duo-restart.in
tail -n 1 $report | cat $report - | page $text
to-ibsim $text $text
echo "status $?"
