"""The public items of a crate, as its sources declare them and as the page of public calls has them: each call with its types, each type
with its parts."""

import re
from pathlib import Path

USE = re.compile(r"^pub use ([\w:]+?)(?:::\{([^}]*)\}|::(\w+)(?: as (\w+))?);", re.M)
ITEM = re.compile(r"^pub (?:const )?(fn|struct|enum|trait|const) (\w+)", re.M)
BLOCK = re.compile(r"^impl(?:<[^>]*>)? (?:(\w+)(?:<[^>]*>)? for )?(\w+)(?:<[^>{]*>)? ?\{\n(.*?)^\}", re.M | re.S)
SECTION = re.compile(r"^### `(\w+)`\n(.*?)(?=^###? |\Z)", re.M | re.S)
LINES = re.compile(r"^```rust\n(.*?)^```$", re.M | re.S)
CALL = re.compile(r"^    pub (?:const )?fn (\w+)", re.M)


def listed(text):
    """The lines of the page, by crate."""
    return {name: [it for block in LINES.findall(body) for it in block.splitlines() if it] for name, body in SECTION.findall(text)}


def plain(text):
    """A text on one line, as the page has it: without comments, attributes, allocators and the commas of the layout."""
    text = re.sub(r"//[^\n]*|#\[[^\n]*\]|\bpub ", "", text)
    text = re.sub(r"\s+", " ", text).strip()
    text = re.sub(r"\balloc: (?:Global|impl \w+)(?:, )?", "", text)
    text = re.sub(r",? ([)}])", lambda m: (" " if m[1] == "}" else "") + m[1], text)
    return re.sub(r"\( ?", "(", text).replace(",)", ")").replace("AllocError", "NoMemory")


def signature(text, start):
    """What stands from the name of a function up to its contract or its body."""
    head = re.compile(r"\n\s*(?:requires|ensures|where)\b|\s*\{\s*$|;\s*$|\s\{\}?\n|\n\{", re.M)
    end = text.index("(", start)
    depth = 0
    while True:
        depth += {"(": 1, ")": -1}.get(text[end], 0)
        end += 1
        if depth == 0:
            break
    tail = head.search(text, end)
    return plain(text[start : tail.start() if tail else len(text)])


def braces(text, start):
    """What stands from a name to the end of its braces, or to the semicolon before any."""
    opened = re.compile(r"[{;]").search(text, start)
    if opened[0] == ";":
        return text[start : opened.start()]
    depth, end = 0, opened.start()
    while True:
        depth += {"{": 1, "}": -1}.get(text[end], 0)
        end += 1
        if depth == 0:
            return text[start:end]


def parts(kind, name, text, start):
    """A type with its public parts."""
    body = braces(text, start)
    if kind == "struct" and "{" in body:
        fields = re.findall(r"^    pub (\w+: [^\n]*?),?$", body, re.M)
        return f"struct {name}" + (" { " + ", ".join(plain(it) for it in fields) + " }" if fields else "")
    if kind == "enum":
        return f"enum {plain(body)}"
    return f"{kind} {name}"


def trait_calls(name, text, start):
    body = braces(text, start)
    for found in re.finditer(r"^    fn (\w+)", body, re.M):
        yield f"{name}::{signature(body, found.start(1))}"


class Sources:
    """The sources of all crates of a repository."""

    def __init__(self, root):
        self.root = Path(root)

    def files(self, crate):
        return sorted((self.root / "crates" / crate / "src").rglob("*.rt"))

    def exported(self, crate):
        """The names that a crate hands out, each with the crate and the name of its definition."""
        found = {}
        text = (self.root / "crates" / crate / "src/lib.rt").read_text()
        for path, several, one, renamed in USE.findall(text):
            first = path.split("::")[0]
            for it in several.split(",") if several else [f"{one} as {renamed}" if renamed else one]:
                inner, _, outer = it.strip().partition(" as ")
                if inner:
                    found[outer or inner] = (first if (self.root / "crates" / first).is_dir() else crate, inner)
        for _, name in ITEM.findall(text):
            found[name] = (crate, name)
        return found

    def items(self, crate, name, at=None):
        """The lines of one name of a crate: a call, or a type with its calls."""
        home, inner = at or self.exported(crate).get(name, (None, None))
        if home is None:
            return []
        if home != crate:
            return [re.sub(rf"\b{inner}\b", name, it) for it in self.items(home, inner)]
        lines = []
        for file in self.files(crate):
            text = file.read_text()
            for found in ITEM.finditer(text):
                if found[2] == inner:
                    lines += self.declared(found, text)
            for of_trait, of, body in BLOCK.findall(text):
                if of == inner and not of_trait:
                    lines += [f"{name}::{signature(body, it.start(1))}" for it in CALL.finditer(body)]
        return lines

    def declared(self, found, text):
        if found[1] == "fn":
            return [signature(text, found.start(2))]
        if found[1] == "const":
            return [f"const {found[2]}"]
        calls = trait_calls(found[2], text, found.start(2)) if found[1] == "trait" else []
        return [parts(found[1], found[2], text, found.start(2)), *calls]

    def public(self, crate):
        """All lines of a crate."""
        return [line for name in self.exported(crate) for line in self.items(crate, name)]
