# Installed, found by their names, and gone again. tools/make stands before the system's own here.
to=$(mktemp -d)
trap 'rm -rf "$to"' EXIT
cd ../.. || exit 1
MYRIFAB=tools/tests/recorded/run command -p make -s install "PREFIX=$to" | sed "s|$to|TO|"
cp tools/tests/recorded/what-if-0.* "$to/bin"
(cd "$to" && find . -type f -o -type l | grep -v -E 'fabtools/|what-if-0' | sort)
export PATH=$to/bin:$PATH
unset MYRIFAB
myrifab-try tools/tests/recorded/what-if-0.in | head -n 1
myrifab-what-if examples/ring-of-four.in --each | head -n 1
myrifab-page --help | head -n 1
# Which program they have, and under which names they speak.
myrifab-explain --version | sed -e '1s/ [^ ]*$/ REVISION/' -e "s|$to|TO|"
MYRIFAB=/elsewhere myrifab-try --version | tail -n 2
myrifab-explain no-such-file
myrifab-dot examples/ring-of-four.in --route a b 2>&1 | tail -n 1
grep -c '^\.Ss myrifab-' "$to/share/man/man1/myrifab-explain.1"
if command -v mandoc > /dev/null; then mandoc -T lint -W warning "$to/share/man/man1/myrifab-tools.1"; fi
command -p make -s uninstall "PREFIX=$to"
(cd "$to" && find . -type f -o -type l | grep -v what-if-0)
command -p make -s help
# A relative prefix is one of the folder at hand; a prefix of two words is none.
MYRIFAB=tools/tests/recorded/run command -p make -s install "PREFIX=$(realpath --relative-to=. "$to")/part" | sed "s|$to|TO|"
(cd / && "$to/part/bin/myrifab-try" --program | sed "s|$to|TO|")
command -p make -s install PREFIX="$to/a b" 2>&1 | sed 's/^Makefile:[0-9]*: //'
