"""What two hosts that restart did, as two columns, one a host, with each packet's way through the medium."""

WIDE = 34
# What is said of an effect that leaves something open.
OPEN = {
    "unsure": "the message may have come or not: the other host restarted before it acknowledged it",
    "stale": "it is of an incarnation that is over, and changed nothing",
    "notnext": "its number isn't the next one, as where it came before",
    "notoken": "no provided token takes it",
}


def pairs(script, items):
    """The `duo` lines of a script, as numbers and words, with those of its report: the number of the report's line, the words of both."""
    answers = [it for it in items if isinstance(it, tuple) and it[1][0] == "duo"]
    asked = [words for _, words in script if words[:1] == ["duo"]]
    return [(line, words, answer) for words, (line, answer) in zip(asked, answers)]


class Restarts:
    """The lines of two hosts that restart."""

    def __init__(self, told):
        self.rows, self.senders = [], {}
        for line, words, answer in told:
            self.rows.append((line, self.host(words, answer), self.text(words[1:], answer[1:]), OPEN.get(answer[1])))

    def host(self, words, answer):
        """Where a line happened: of a packet that came, at the host that heard it; nowhere without such a packet."""
        if words[1] != "deliver":
            host = int(words[2])
            if answer[1] == "emitted":
                self.senders[answer[2]] = host
            return host
        sender = self.senders.get(str(int(words[2])))
        return None if sender is None else 1 - sender

    def text(self, words, answer):
        """A line in short: `packet 2 ->` leaves, `-> packet 2: message` comes."""
        if words[0] == "emit" and answer[0] == "emitted":
            return f"packet {answer[1]} ->"
        if words[0] == "deliver":
            return f"-> packet {int(words[1])}: {answer[0]}"
        named = " ".join([words[0], *words[2:]])
        return f"{named}: {' '.join(answer)}"

    def facts(self):
        return {"kind": "restarts", "lines": [{"line": line, "host": host, "told": text, "meaning": why} for line, host, text, why in self.rows]}

    def lines(self, is_brief):
        if is_brief:
            told = [text for _, _, text, why in self.rows if why and "unsure" in text]
            return [f"two hosts that restart: {len(self.rows)} lines, of which {len(told)} are unsure"]
        return [f"  {'':5}{'host 0':{WIDE}}host 1", *map(self.row, self.rows), *self.remarks()]

    def row(self, row):
        line, host, text, _ = row
        return f"  {line:<5}{'' if host == 1 else text:{WIDE}}{text if host == 1 else ''}".rstrip()

    def remarks(self):
        """What is left open, each kind once, with the lines that have it."""
        kinds = {}
        for line, _, _, why in self.rows:
            if why:
                kinds.setdefault(why, []).append(str(line))
        return [f"  line{'s' if len(at) > 1 else ''} {', '.join(at)}: {why}" for why, at in kinds.items()]
