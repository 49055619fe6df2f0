# Words that are none of its own are refused in a line before anything is tried; and each body of the list fits its file.
for words in "" "no_such_crate" "--jobs none reg_mem" "--only" "--sooner"; do
  plant $words
  echo "plant $words: status $?"
done
plant --since no_such_revision 2>/dev/null
echo "plant --since no_such_revision: status $?"
plant --list >/dev/null
echo "plant --list: status $?"
plant --list --only last_returned
