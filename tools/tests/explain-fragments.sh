# A message of two fragments waits for a buffer, one of 70,000 bytes is refused, and a port with a message that came in part isn't closed.
explain fragments.in fragments.report | tail -n 6
