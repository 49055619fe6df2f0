"""Where the sources call a public call, told by their text."""

import re

COMMENT = re.compile(r"//[^\n]*")
# Names that std's types have too: a call by a dot tells nothing of the type.
OF_STD = {"push", "insert", "copy", "append", "map"}
METHOD = re.compile(r"^(?:    )?    (?:pub (?:\(crate\) )?|pub\(crate\) )?(?:const )?fn (\w+)[^(]*\(\s*(?:&(?:'\w+ )?)?(?:mut )?self\b", re.M)


def split(line):
    """A line of the page as its type or trait, its name, and whether it is called by a dot."""
    head, _, rest = line.partition("(")
    of, _, name = re.sub(r"<.*", "", head).rpartition("::")
    return of, name, bool(re.match(r"\s*(&('\w+ )?)?(mut )?self\b", rest))


class Callers:
    """The callers in all sources of a repository, by their texts without comments."""

    def __init__(self, sources, crates, lines):
        self.texts = {file: COMMENT.sub("", file.read_text()) for crate in crates for file in sources.files(crate)}
        # The types of the page that have a call of this name.
        self.sharing = {}
        for of, name, dotted in map(split, lines):
            if dotted:
                self.sharing.setdefault(name, set()).add(of)
        declared = [name for text in self.texts.values() for name in METHOD.findall(text)]
        self.single = {name for name in declared if declared.count(name) == 1}

    def of(self, line):
        """The files that call what a line of the page says."""
        of, name, dotted = split(line)
        return [file for file, text in self.texts.items() if self.calls(text, of, name, dotted)]

    def calls(self, text, of, name, dotted):
        if not of:
            return re.search(rf"(?<!fn )(?<![.:\w]){name}\(", text)
        if re.search(rf"\b{of}::{name}\(", text):
            return True
        return dotted and re.search(rf"\.{name}\(", text) and self.is_meant(text, of, name)

    def is_meant(self, text, of, name):
        """Whether a call by a dot is that of a type: its name is the only one, or the text calls it as often as it speaks of
        types that have the name, this one among them, or calls it at what was made or declared as one."""
        named = {it for it in self.sharing[name] if re.search(rf"\b{it}\b", text)}
        often = len(re.findall(rf"\.{name}\(", text)) >= len(named)
        if name not in OF_STD and (name in self.single or of in named and often):
            return True
        held = re.findall(rf"\b(\w+): (?:&(?:mut )?)?{of}\b|\blet (?:mut )?(\w+) = {of}\b", text)
        return any(re.search(rf"\b{it}\.{name}\(", text) for pair in held for it in pair if it)
