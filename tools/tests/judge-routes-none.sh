# Files that are no topology or no tables, and tables of other switches.
judge-routes updn-lfts.txt updn-lfts.txt
echo "status $?"
judge-routes ibnetdiscover.txt ibnetdiscover.txt
echo "status $?"
sed 's/guid 0x0000/guid 0x0009/' updn-lfts.txt > /tmp/other-lfts.$$
judge-routes ibnetdiscover.txt /tmp/other-lfts.$$ 2>&1 | sed 's,/tmp/other-lfts[.0-9]*,other-lfts,'
rm /tmp/other-lfts.$$
# Paths without lanes, without a record, and with a service level that there isn't; lanes without a row.
judge-routes ibnetdiscover.txt updn-lfts.txt --paths updn-lfts.txt 2>&1 | tail -n 1
judge-routes ibnetdiscover.txt updn-lfts.txt --paths updn-lfts.txt --lanes updn-lfts.txt
judge-routes ibnetdiscover.txt updn-lfts.txt --paths <(echo 1 5 16) --lanes updn-lfts.txt 2>&1 | sed 's,/dev/fd/[0-9]*,PATHS,'
judge-routes ibnetdiscover.txt updn-lfts.txt --paths <(echo 1 5 1) --lanes updn-lfts.txt
