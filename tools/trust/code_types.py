"""The types of the code, and words of a text: what `run` reads, apart from definitions."""
import re


class Declared:
    """A struct or an enum of the code: its lines, its fields with the types that each names, and all types that it names."""

    def __init__(self, text):
        self.lines = sum(1 for line in text.splitlines() if line.strip())
        self.is_enum = re.search(r"\benum\b", text) is not None
        fields = re.findall(r"^\s+(?:pub(?:\(\w+\))? )?(\w+): (.*?),?$", text, re.M)
        self.words = [] if self.is_enum else [(name, re.findall(r"\b[A-Z]\w*", type_)) for name, type_ in fields]
        self.named = re.findall(r"\b[A-Z]\w*", text)
        self.fields, self.uses = {}, []


def declared_types(top):
    """All structs and enums: {(crate, name): Declared}."""
    types, scopes = {}, {}
    for path in sorted(top.glob("crates/*/src/**/*.rt")):
        crate = path.relative_to(top).parts[1]
        text = re.sub(r"//[^\n]*", "", path.read_text())
        brought = {}
        for owner, names in re.findall(r"^use ((?:ec|cmd|test)_\w+)::([^;]*);", text, re.M):
            brought.update((name, (owner, name)) for name in re.findall(r"\b[A-Z]\w*", names))
        for found in re.finditer(r"^(?:pub(?:\(\w+\))? )?(?:struct|enum) (\w+)(?:[^;{]*;|.*?\})$", text, re.M | re.S):
            types.setdefault((crate, found.group(1)), Declared(found.group(0)))
            scopes.setdefault((crate, found.group(1)), brought)
    for (crate, name), one in types.items():
        def meant(word):
            place = scopes[crate, name].get(word, (crate, word))
            return place if place in types and place != (crate, name) else None
        one.fields = {field: [place for place in map(meant, words) if place] for field, words in one.words}
        one.uses = [place for place in map(meant, one.named) if place]
    return types


def arrows(text):
    """The parts of a function's type, between its arrows."""
    parts, depth = [""], 0
    for sign in text:
        depth += {"(": 1, "{": 1, ")": -1, "}": -1}.get(sign, 0)
        if sign == "→" and depth == 0:
            parts.append("")
        else:
            parts[-1] += sign
    return parts


def words_of(text):
    """A text as words, each with the place where it begins and where it ends."""
    return [(m.group(0), m.start(), m.end()) for m in re.finditer(r"==|[^\s(){}\[\];,.=]+|[(){}\[\];,.=]", text)]


def opening(words, k):
    """The place of the bracket that the one at place `k` closes."""
    depth = 0
    while True:
        depth += {")": 1, "}": 1, "]": 1, "(": -1, "{": -1, "[": -1}.get(words[k][0], 0)
        if depth == 0:
            return k
        k -= 1
