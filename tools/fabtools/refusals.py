"""What each refusal of a command or of a client's call means, and what to do: the one source of tools/explain and of the tables of pages.

The causes of a command stand in the order in which they are tested."""

AT_A_PORT = ("provide", "send", "poll", "tokens", "close")

# The line of a report; its commands; its cause; where it holds; what to do.
REFUSALS = [
    ("map H refused busy", ("map",), "busy", "a channel holds a packet, as one that a `step` left there", "let it settle: `settle`"),
    ("routes refused nomap", ("routes",), "nomap", "no map was made, or the last one that wasn't refused isn't complete", "map again, deeper or with more tries"),
    ("install refused noroutes", ("install",), "noroutes", "no routes were computed", "`routes`, after a complete map"),
    ("install refused busy", ("install",), "busy", "a channel holds a packet, as one that a `step` left there", "let it settle: `settle`"),
    ("install refused changed", ("install",), "changed", "a cable was pulled or plugged since the map of the last routes began", "map, then `routes`, again"),
    ("install refused installed", ("install",), "installed", "other routes are installed, or a cable was pulled or plugged since, and some host hasn't given them up", "`revoke`, then `install` again"),
    ("install refused epochs", ("install",), "epochs", "the epoch of the installed routes is the last: no run gets there", "begin another run"),
    ("open H P refused already", ("open",), "already", "the port is open", "`close` it first"),
    (".. refused notopen", AT_A_PORT, "notopen", "the port isn't open", "`open` it first"),
    (".. refused notoken", ("provide", "send"), "notoken", "the client holds no token of that kind", "`poll` for those that are due back, or open the port with more"),
    ("provide .. refused badsize", ("provide",), "badsize", "SIZE isn't 4 to 16", "give one of these"),
    ("send .. refused toolong", ("send",), "toolong", "a message has at most 65,528 bytes", "send several"),
    ("send .. refused noroute", ("send",), "noroute", "the host has no active table with a route there", "`install`, again if K was below N"),
    ("send .. refused spent", ("send",), "spent", "the message needs a fragment's number above 4,294,967,294 among those of its two hosts and priority", "nothing: a run is not that long"),
    ("close .. refused busy N", ("close",), "busy N", "so many sends of the port aren't acknowledged", "`settle`, then `poll` for them"),
    ("close .. refused unread N", ("close",), "unread N", "so many events wait", "`poll` for them"),
    ("close .. refused filling N", ("close",), "filling N", "so many provided tokens hold the beginning of a message", "`settle`, then `poll` for them"),
    ("pull V P refused nocable", ("pull",), "nocable", "the port has no cable", "name a port that has one"),
    ("plug V P W Q refused portused", ("plug",), "portused", "a port has a cable, or the two are one", "`pull` that cable first, or take another port"),
    ("plug V P W Q refused full", ("plug",), "full", "a run has at most 4,096 cables, pulled ones and those of the text counted", "begin another run"),
    ("broken refused noroutes", ("broken",), "noroutes", "no routes are installed", "`install` first"),
    ("duo refused notoken", ("duo",), "notoken", "the client of that host holds no token of that kind", "`duo poll` for those that are due back"),
    ("duo refused toolong", ("duo",), "toolong", "a message between two hosts that restart has at most 1,016 bytes", "send several"),
    ("duo refused spent", ("duo",), "spent", "no number is left for the message, or no incarnation for the host", "nothing: a run is not that long"),
    ("duo refused badsize", ("duo",), "badsize", "SIZE isn't 4 to 16", "give one of these"),
]
# No refusal, but told in the same place: the line of an event that wasn't possible.
IDLE = ("step idle", "that event wasn't possible just then", "nothing: it changed nothing")


def causes(command):
    """The causes for which a command is refused, in the order in which they are tested."""
    return [cause for _, commands, cause, *_ in REFUSALS if command in commands]


def meaning(command, cause):
    """What a refusal of this command with this cause means, and what to do, as a sentence of plain text; None if there is none."""
    for _, commands, named, where, remedy in REFUSALS:
        if named.split()[0] == cause and command in commands:
            return f"{where}: {remedy}".replace("`", "'")
    return None


def rows():
    """The rows of docs/TROUBLESHOOTING.md."""
    told = [(line, where, remedy) for line, _, _, where, remedy in REFUSALS]
    return [f"| `{line}` | {where} | {remedy} |" for line, where, remedy in [*told, IDLE]]
