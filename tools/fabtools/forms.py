"""The forms of a text's lines, and what is wrong with a line that has none of them."""

import re
from difflib import get_close_matches

NAME = re.compile(r"[a-z][a-z0-9_]{0,15}\Z")
LONGEST_WALK, FARTHEST_TURN = 64, 15
MOST_HOSTS, MOST_SWITCHES = 128, 64
PORT_COUNTS = (4, 8, 16)
LONGEST_TEXT = 1 << 20
MOST_DEPTH = 32

# A line each: its words, the capital ones in the place of others, and what it does; of words between strokes one stands there.
FABRIC = """
host NAME                             there is a host, with port 0 alone
switch NAME PORTS                     there is a switch, with ports from 0
cable V P W Q                         joins port P of V and port Q of W
script                                the fabric ends, the script begins
"""
SCRIPT = """
walk H TURN ..                        shows where a walk of up to 64 turns ends
map H DEPTH TRIES                     maps from H by packets, so many cables deep
circuit H DEPTH                       maps from H as over circuit links
routes                                the routes of the last map, if complete
install TRIES                         sends each host of the map its table
open H PORT SENDS RECVS               opens a port with so many tokens
provide H PORT SIZE PRIO              a buffer of 2^SIZE - 8 bytes (SIZE 4 to 16)
send H PORT B BPORT PRIO LEN SEED     sends bytes SEED, SEED + 1, .. (LEN to 65528)
poll H PORT                           takes the port's next event
tokens H PORT                         shows where each token is
close H PORT                          closes the port
plan lose|repeat|hold N               a fault for the Nth injection from now
plan flip N BIT PATTERN               the same, of bits from BIT on
plan pull N V P                       the cable at port P of V is pulled then
step inject|giveup H                  one event of a host
step expire H B                       sends again what B didn't acknowledge
step advance|lose|repeat|hold|reset V P
                                      one event of what leaves port P of V
step flip V P BIT PATTERN             the same
step replay SERIAL                    a packet that was put aside comes back
settle                                sends again until all is acknowledged
pull V P                              pulls the cable at port P of V
plug V P W Q                          joins two ports by a new cable
broken                                shows the installed routes over pulled cables
revoke                                all hosts give up the installed routes
duo provide X SIZE                    host 0 or 1 of two that restart: a buffer (SIZE 4 to 16)
duo send X LEN SEED                   sends the other bytes SEED, SEED + 1, .. (LEN to 1016)
duo emit|expire|poll|restart X        one event of one of the two
duo deliver K                         packet K, from 0, of theirs comes, again if need be
end                                   the script ends
"""
RANGES = {
    "P": (0, 15),
    "Q": (0, 15),
    "PORTS": (0, 2**32 - 1),
    "DEPTH": (1, 32),
    "TRIES": (1, 8),
    "PORT": (0, 7),
    "BPORT": (0, 7),
    "SENDS": (0, 64),
    "RECVS": (0, 64),
    "SIZE": (0, 31),
    "PRIO": (0, 1),
    "LEN": (0, 1_000_000),
    "SEED": (0, 255),
    "N": (1, 1_000_000_000),
    "BIT": (0, 10_000),
    "PATTERN": (1, 255),
    "SERIAL": (0, 2**32 - 1),
    "X": (0, 1),
    "K": (0, 2**32 - 1),
}
NAMES = {"NAME": "a new name", "H": "a host", "B": "a host", "V": "a host or switch", "W": "a host or switch"}
# Of these a run takes fewer than the form allows.
SENSIBLE = {"SIZE": (4, 16)}
# So many numbers and more aren't proposed one by one.
MANY = 40
# The words that a line begins with in two.
IN_TWO = ("plan", "step", "duo")


class Fault(Exception):
    """The first fault of a text: its line, its kind in the program's word, and what is wrong."""

    def __init__(self, line, kind, why):
        super().__init__(f"line {line}: {kind}: {why}")
        self.line, self.kind, self.why = line, kind, why


def forms_of(table):
    """The forms of a table by their first word, or their first two: the names of their further words."""
    forms = {}
    for row in table.strip().splitlines():
        words = re.split(r"  +", row)[0].split()
        if words and words[0] in IN_TWO:
            forms.update({f"{words[0]} {second}": words[2:] for second in words[1].split("|")})
        elif words:
            forms[words[0]] = words[1:]
    return forms


FABRIC_FORMS, SCRIPT_FORMS = forms_of(FABRIC), forms_of(SCRIPT)


def shown(word):
    """A word as a message shows it: what isn't ASCII or can't be seen as an escape."""
    return "'" + "".join(it if " " <= it <= "~" else f"\\x{ord(it):02x}" for it in word) + "'"


def range_text(name):
    if name == "PORTS":
        return "PORTS 4, 8 or 16"
    if name in RANGES:
        return "{} {:,} to {:,}".format(name, *RANGES[name])
    return "TURN -15 to 15" if name == "TURN" else f"{name} {NAMES[name]}"


def form_text(first, forms):
    """The form of a line, with the ranges of its words."""
    names = [it for it in forms[first] if it != ".."]
    ranges = ", ".join(range_text(it) for it in dict.fromkeys(names))
    return " ".join([first, *forms[first]]) + (f"    ({ranges})" if ranges else "")


def nearest(word, choices):
    """A question for the choice that is nearest to a word, or no text."""
    found = get_close_matches(word, list(choices), 1, 0.6)
    return f"; did you mean {shown(found[0])}?" if found else ""


def check_count(line, first, words, forms):
    """The number of a line's further words is that of its form."""
    wanted = len(forms[first])
    if len(words) != wanted:
        takes = f"{wanted} word{'s'[: wanted != 1]} after it" if wanted else "no word after it"
        raise Fault(line, "badword", f"{shown(first)} takes {takes}, and {len(words)} stand{'s'[: len(words) == 1]} there")


def number(line, name, word, most=None):
    """The number that a word says for this name of a form, whose range may end elsewhere."""
    least, most = RANGES[name][0], most or RANGES[name][1]
    if not re.fullmatch(r"[0-9]+", word):
        raise Fault(line, "notnumber", f"{shown(word)} stands where {name} must, a number of digits alone")
    digits = word.lstrip("0") or "0"
    if len(digits) > 10 or not least <= int(digits) <= most:
        raise Fault(line, "toolarge", f"{shown(word)} is outside the range of {name}, {least:,} to {most:,}")
    return int(digits)


def name(line, word):
    if not NAME.match(word):
        raise Fault(line, "badword", f"{shown(word)} is no name: 1 to 16 of a-z, 0-9 and _, and a letter first")
    return word


def turn(line, word):
    digits = re.fullmatch(r"[+-]?([0-9]+)", word)
    if not digits:
        raise Fault(line, "notnumber", f"{shown(word)} is no turn: digits, with one sign + or - before them or none")
    digits = digits[1].lstrip("0") or "0"
    if len(digits) > 2 or int(digits) > FARTHEST_TURN:
        raise Fault(line, "toolarge", f"{shown(word)} is outside the range of a turn, -15 to 15")


def saying(text):
    """The lines that say something, with their numbers: neither blank nor a comment."""
    lines = text.split("\n")
    for at, line in enumerate(lines, 1):
        if at < len(lines):
            line = line.removesuffix("\r")
        words = [it for it in line.replace("\t", " ").split(" ") if it]
        if words and not words[0].startswith("#"):
            yield at, words


def past_the_last(text):
    """One more than the number of the text's last line."""
    return text.count("\n") + (not text.endswith("\n") and text != "") + 1
