# A program that says what the model says, and one that says nothing.
folder=$(mktemp -d)
trap 'rm -rf "$folder"' EXIT
printf '#!/bin/sh\nduo-model\necho end injected 0 dropped 0\n' >"$folder/model"
printf '#!/bin/sh\ncat >/dev/null\n' >"$folder/silent"
chmod +x "$folder"/*
MYRIFAB=$folder/model check-duo 1 2
MYRIFAB=$folder/silent check-duo 1
