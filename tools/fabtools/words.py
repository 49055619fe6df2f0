"""Words of what the tools say."""


def counted(count, word, several=None):
    """A count with what it counts: 1 cable, 2 cables."""
    return f"{count:,} {word if count == 1 else several or word + 's'}"
