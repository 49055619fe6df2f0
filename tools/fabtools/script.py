"""The script of a text, line by line: its first fault, with what is wrong there, and the words that may stand next."""

from fabtools import fabric as fabrics
from fabtools import forms
from fabtools.forms import FABRIC_FORMS, IN_TWO, SCRIPT_FORMS, Fault, nearest, shown


def first_fault(text):
    """The first fault of a text, or None where it is accepted."""
    try:
        check_script(fabrics.read(text), text)
    except Fault as fault:
        return fault
    return None


def check_script(fabric, text):
    lines = iter(fabric.script)
    for line, words in lines:
        if words == ["end"]:
            for after, _ in lines:
                raise Fault(after, "afterend", "only blank lines and comments may follow the line 'end'")
            return
        check_line(fabric, line, words)
    raise Fault(forms.past_the_last(text), "noend", "the line 'end' is missing")


def check_line(fabric, line, words):
    """The first word of a line, the number of its words, their forms from left to right, and then the fabric."""
    first, words = words[0], words[1:]
    if first in IN_TWO:
        first, words = check_second(line, first, words)
    elif first not in SCRIPT_FORMS:
        raise Fault(line, "badword", no_such_line(first))
    if first == "walk":
        check_walk(line, words)
        at_hosts(fabric, line, words[:1])
        return
    forms.check_count(line, first, words, SCRIPT_FORMS)
    if first == "end":
        return
    values = [value(line, it, word) for it, word in zip(SCRIPT_FORMS[first], words)]
    at_hosts(fabric, line, [word for it, word in zip(SCRIPT_FORMS[first], words) if it in ("H", "B")])
    fabrics.check_ends(fabric, line, [(values[at], values[at + 1]) for at, it in enumerate(SCRIPT_FORMS[first]) if it in ("V", "W")])


def no_such_line(first):
    if first == "script":
        return "the line 'script' stands once, and stands above"
    if first in FABRIC_FORMS:
        return f"{shown(first)} is a line of the fabric, and stands after the line 'script'"
    return f"{shown(first)} begins no line of a script{nearest(first, {it.split()[0] for it in SCRIPT_FORMS})}"


def check_second(line, first, words):
    choices = [it.split()[1] for it in SCRIPT_FORMS if it.startswith(first + " ")]
    if not words or words[0] not in choices:
        told = f"{shown(words[0])} is none" if words else "nothing stands there"
        hint = nearest(words[0], choices) if words else ""
        raise Fault(line, "badword", f"after {shown(first)} one of {', '.join(choices)} must stand, and {told}{hint}")
    return f"{first} {words[0]}", words[1:]


def check_walk(line, words):
    if not words:
        raise Fault(line, "badword", "'walk' takes a host and its turns after it, and nothing stands there")
    if len(words) > forms.LONGEST_WALK + 1:
        raise Fault(line, "badword", f"a walk has at most {forms.LONGEST_WALK} turns, and this one {len(words) - 1}")
    forms.name(line, words[0])
    for it in words[1:]:
        forms.turn(line, it)


def value(line, field, word):
    return forms.number(line, field, word) if field in forms.RANGES else forms.name(line, word)


def at_hosts(fabric, line, names):
    for it in names:
        if it in fabric.switches:
            raise Fault(line, "novertex", f"{shown(it)} is a switch, and a host must stand there")
        if it not in fabric.hosts:
            raise Fault(line, "novertex", f"the fabric has no host {shown(it)}{nearest(it, fabric.hosts)}")


def next_words(fabric, words):
    """The words that may stand next in a line of the script that begins with these, as far as they are few: for completion."""
    first = " ".join(words[: 1 + (words[:1] != [] and words[0] in IN_TWO)])
    if first not in SCRIPT_FORMS:
        firsts = [it for it in SCRIPT_FORMS if it != "end"]
        return list(dict.fromkeys(it.split()[len(words)] for it in firsts if it.split()[: len(words)] == words and len(it.split()) > len(words)))
    form, at = SCRIPT_FORMS[first], len(words) - len(first.split())
    return choices(fabric, form[at], words[-1], first == "plug") if at < len(form) else []


def choices(fabric, field, before, is_free):
    """The words that may stand for this name of a form, with the word before them; none where they are many. Ports are free ones or cabled ones."""
    if field in ("H", "B"):
        return list(fabric.hosts)
    if field in ("V", "W"):
        return fabric.vertices()
    if field in ("P", "Q"):
        return [str(it) for it in range(fabric.ports(before)) if is_free == (not fabric.far((before, it)))]
    least, most = forms.SENSIBLE.get(field) or forms.RANGES.get(field, (0, forms.MANY))
    return [str(it) for it in range(least, most + 1)] if most - least < forms.MANY else []


def form_of(words):
    """The form of the line that these words begin, or None."""
    for first in (" ".join(words[:2]), words[0]):
        for table in (SCRIPT_FORMS, FABRIC_FORMS):
            if first in table:
                return forms.form_text(first, table)
    return None


def told(text, fault):
    """A fault in sentences, line by line: the line of the text, what is wrong, and its form."""
    lines = text.split("\n")
    line = lines[fault.line - 1].removesuffix("\r") if fault.line <= len(lines) else ""
    words = [it for it in line.replace("\t", " ").split(" ") if it]
    yield f"line {fault.line} of the text" + (f": {shown(line.strip())[1:-1]}" if words else "")
    yield f"  {fault.kind}: {fault.why}"
    if words and form_of(words):
        yield f"  its form: {form_of(words)}"
    elif words and words[0] in IN_TWO:
        yield f"  its forms: {', '.join(it for it in SCRIPT_FORMS if it.startswith(words[0] + ' '))}"
