# What isn't a text, and a number of runs that is none, are refused before anything is built.
for words in "room" "--jobs none" "--jobs 0 room.in" "--each room.in"; do
  refuse-memory $words >/dev/null 2>&1
  echo "$words: status $?"
done
