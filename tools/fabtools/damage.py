"""Reports as people have them, whole, cut off or damaged: read where they are whole, else told by their first wrong line."""

from fabtools import forms
from fabtools.entry import Failure
from fabtools.reading import FORMS, Ends, Fails, Reader
from fabtools.report import Map, Report, misfit

# The commands of which answers begin with another word.
COMMANDS = {"installed": "install", "revoked": "revoke", "endbroken": "broken"}
LONGEST = 60


class Damaged(Failure):
    """A report that isn't whole, in one sentence; whether it only ends too early, and its whole answers before that."""

    def __init__(self, why, is_cut, before):
        super().__init__(why)
        self.is_cut, self.before = is_cut, before


class AnyNames:
    """The names of a report without its text: any may be a host's or a switch's."""

    def __init__(self):
        self.hosts, self.script = self, []

    def __contains__(self, name):
        return isinstance(name, str) and bool(forms.NAME.match(name))

    def ports(self, name):
        return max(forms.PORT_COUNTS) if name in self else 0


class Alone(Reader):
    """A report without its text: each answer's first word says which command it answers."""

    def __init__(self, report, past):
        super().__init__(AnyNames(), report, past)
        self.addressed = 0

    def commands(self):
        while self.at < len(self.report):
            line, said = self.report[self.at]
            if said[0] == "circuit":
                said = [*said[:2], *said[3:4]]
            yield line, [COMMANDS.get(said[0], said[0]), *said[1:]]

    def address(self, host):
        """Addresses rise, since nothing says what they are."""
        self.addressed += 1
        return self.addressed

    def mapped_hosts(self):
        return None


def report_of(fabric, text, name):
    """The report of a fabric's script, in a file of this name; its maps are of the fabric as it stands."""
    try:
        report = read(Reader(fabric, list(forms.saying(text)), 0), text, name, "line {} of the text, {}")
    except Damaged as why:
        check_maps(fabric, why.before, name)
        raise
    check_maps(fabric, report, name)
    return report


def check_maps(fabric, report, name):
    for shown, standing in report.standing(fabric):
        if isinstance(shown, Map) and misfit(standing, shown):
            raise Failure(f"{name}: the report isn't that of this text: {misfit(standing, shown)}")


def report_alone(text, name="standard input"):
    """A report by itself: its fabric and its script may be any. That of a refused text has one line."""
    lines = list(forms.saying(text))
    is_refused = len(lines) == 1 and lines[0][1][0] == "refused"
    return Report(text) if is_refused else read(Alone(lines, 0), text, name, "line {}, {}")


def read(reader, text, name, due):
    try:
        reader.run()
    except Fails as it:
        is_cut = isinstance(it, Ends)
        why = too_early(reader, due) if is_cut else out_of_place(reader, it.line, due)
        raise Damaged(f"{name}: {why}", is_cut, Report(before(reader, text))) from None
    return Report(text)


def before(reader, text):
    """The text of the answers before the one that isn't whole, its last line with its end."""
    is_there = reader.begun < len(reader.report)
    return "\n".join([*text.split("\n")[: reader.report[reader.begun][0] - 1], ""]) if is_there else text


def too_early(reader, due):
    asked = due.format(reader.asked[0], quoted(reader.asked[1]))
    if not reader.report:
        return f"the report is empty, and {asked}, has no answer"
    ends = f"the report ends after line {reader.report[-1][0]}"
    return f"{ends}: {asked}, has no answer" if reader.begun == reader.at else f"{ends}, within the answer of {asked}"


def out_of_place(reader, line, due):
    words = next(words for at, words in reader.report if at == line)
    there = f"line {line}, {quoted(words)},"
    if reader.asked is None or reader.is_done:
        return f"{there} stands after the last answer"
    asked = due.format(reader.asked[0], quoted(reader.asked[1]))
    if isinstance(reader, Alone) and line == reader.report[reader.begun][0]:
        return f"{there} is no line of a report" if words[0] not in FORMS else f"{there} has no form of a report's line"
    if line == reader.report[0][0]:
        return f"the report isn't that of this text: its {there} doesn't answer {asked}"
    if line == reader.report[reader.begun][0]:
        return f"{there} doesn't answer {asked}"
    return f"{there} doesn't belong to the answer of {asked}"


def quoted(words):
    text = " ".join(words)
    return forms.shown(text if len(text) <= LONGEST else text[:LONGEST] + "..")
