# A program that goes on after a short read and a short write, and one that takes a short write for the whole.
folder=$(mktemp -d)
trap 'rm -rf "$folder"' EXIT
echo abcdef >"$folder/text.in"
cp "$folder/text.in" "$folder/text.out"
cat >"$folder/whole" <<'PY'
#!/usr/bin/env python3
import os
text = b""
while more := os.read(0, 100):
    text += more
while text:
    text = text[os.write(1, text) :]
PY
sed '/^while text:/,$d' "$folder/whole" >"$folder/short"
echo 'os.write(1, text)' >>"$folder/short"
chmod +x "$folder/whole" "$folder/short"
for program in whole short; do
  said=$(MYRIFAB=$folder/$program check-short-io "$folder/text.in")
  echo "$said"
done >"$folder/said"
# Where the system lets no program trace another, there is nothing to compare.
if grep -q 'trace another' "$folder/said"; then cat check-short-io.out; else cat "$folder/said"; fi
