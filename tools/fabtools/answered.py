"""The answers of a report, one for each line of its script: which lines they have, and over which fabric they stand."""

from fabtools import forms

# The lines that may answer a command. Words between strokes stand in each other's place.
ANSWERS = {
    "walk": ["walk host H", "walk switch S port P", "walk nothing"],
    "map": ["map H complete|doubtful N|incomplete depth asks A packets N, and the lines of the map up to endmap", "map H incomplete nodes asks A packets N", "map H refused busy"],
    "circuit": ["circuit H depth D asks A, and the lines of the map up to endmap", "circuit H nodes asks A"],
    "routes": ["routes N, so many lines route by their hosts, lines rank by vertex and port, and endroutes", "routes refused nomap"],
    "install": ["installed K of N, and a line table for each host of the last routes, at least K of them active", "install refused noroutes|busy|changed|installed|epochs"],
    "open": ["open H P done", "open H P refused already"],
    "close": ["close H P done N", "close H P refused notopen|busy N|unread N|filling N"],
    "provide": ["provide H P token T", "provide H P refused notopen|notoken|badsize"],
    "send": ["send H P token T", "send H P refused notopen|notoken|toolong|noroute|spent"],
    "poll": ["poll H P sent token T", "poll H P received token T from A Q prio P len N bytes HEX", "poll H P nothing", "poll H P refused notopen"],
    "tokens": ["tokens H P send T=PLACE .. recv T=PLACE ..", "tokens H P refused notopen"],
    "plan": ["plan at N"],
    "step": ["step EFFECT"],
    "settle": ["settle rounds R resets N unacked U"],
    "pull": ["pull V P done", "pull V P refused nocable"],
    "plug": ["plug V P W Q done", "plug V P W Q refused portused|full"],
    "broken": ["lines broken A B by their hosts, and endbroken", "broken refused noroutes"],
    "revoke": ["revoked N"],
    "end": ["end injected N dropped M"],
}
# No report tells when these struck, so a text that has them isn't judged.
UNJUDGED = (["plan", "pull"], ["duo"])
NO_ROUTES = ["refused", "noroutes"]


class Answer:
    """The lines of a report that answer one line of the script, as (number, words), and the fabric before it."""

    def __init__(self, line, words, lines, fabric, end):
        self.line, self.words, self.lines, self.fabric, self.end = line, words, lines, fabric, end

    def has(self, number):
        return self.lines and self.lines[0][0] <= number <= self.lines[-1][0]

    def first(self):
        return self.lines[0][1] if self.lines else []

    def is_whole(self):
        """Whether its last line is there."""
        return bool(self.lines) and (self.end is None or self.lines[-1][1] == [self.end])


def ends_with(words, are_pairs):
    """The word that ends the answer that this line begins, or None where it stands alone. Of a broken route two hosts may be called `refused` and `noroutes`."""
    if words[0] == "map" and words[2:3] != ["refused"] and words[2:4] != ["incomplete", "nodes"] or words[0] == "circuit" and words[2:3] == ["depth"]:
        return "endmap"
    if words[0] == "broken" and (words[1:] != NO_ROUTES or are_pairs):
        return "endbroken"
    return "endroutes" if words[0] == "routes" and words[1:2] != ["refused"] else None


def taken(lines, end):
    """How many lines, from the first on, are one answer."""
    if lines and lines[0][1][0] == "installed":
        return 1 + next((at for at, (_, it) in enumerate(lines[1:]) if it[0] != "table"), len(lines) - 1)
    return 1 + next((at for at, (_, it) in enumerate(lines) if it[0] == end), len(lines) - 1) if end else min(1, len(lines))


def answers(fabric, report):
    """An answer for each line of the fabric's script, as far as the report's lines go."""
    lines, installed, named = list(forms.saying(report)), False, set(NO_ROUTES) <= set(fabric.hosts)
    for line, words in fabric.script:
        end = ends_with(lines[0][1], installed and named) if lines else None
        count = taken(lines, end)
        answer = Answer(line, words, lines[:count], fabric, end)
        yield answer
        lines = lines[count:]
        if answer.lines:
            fabric = fabric.after(answer.first())
        installed = installed or answer.first()[:1] == ["installed"]
        if words == ["end"]:
            return


def unjudged(text):
    """The first line of a script after which no report is judged, as (line, words), or None."""
    lines = forms.saying(text)
    scripted = any(words == ["script"] for _, words in lines)
    return next(((line, words) for line, words in lines if any(words[: len(it)] == it for it in UNJUDGED)), None) if scripted else None
