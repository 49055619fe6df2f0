"""What the tools beside the program share: texts, reports, and how a map lies in its fabric."""

import signal

# A reader that stops early, as `head` does, ends a tool without a word; so does an interrupt before its work has begun.
signal.signal(signal.SIGPIPE, signal.SIG_DFL)
signal.signal(signal.SIGINT, signal.SIG_DFL)
