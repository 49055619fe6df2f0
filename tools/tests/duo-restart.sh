# A message whose sender learns that its peer restarted, and an old frame that comes once more.
sed 's/^/duo /' <<'END' | duo-model
provide 1 4
send 0 1 65
emit 0
deliver 0
emit 1
deliver 1
emit 0
restart 1
deliver 2
emit 1
deliver 3
poll 0
emit 0
deliver 4
deliver 2
poll 1
END
