# Rattle as far as the gate reads it: the items of a file, each with its attributes, its contract and what lies in it.
import re
from collections import namedtuple

# what no item ends in: strings, characters and comments
LITERAL = r'b?r(#*)".*?"\1|b?"(?:\\.|[^"\\])*"|b?\'(?:\\[^\']+|[^\\\'])\''
COMMENT = r"//[^\n]*|/\*.*?\*/"
MARKS = r'(?:(?:pub(?:\s*\([^)]*\))?|unsafe|async|default|extern\s+"[^"]*"|const(?=\s+(?:unsafe|extern|fn)))\s+)*'

# kind, name, whether it is `pub`, its attributes; what it says (of a function all before its contract, else all of it
# but ghost fields), its clauses, its body, and the items that lie in it: ghost fields, and those of a block
Item = namedtuple("Item", "kind name public attributes said clauses body inner")
Clause = namedtuple("Clause", "kind label text")


def plain(text):
    """The text with its comments blanked, every line and column where it was."""
    return re.sub(f"{LITERAL}|({COMMENT})", lambda m: re.sub(r"\S", " ", m[0]) if m[2] else m[0], text, flags=re.S)


def read(text):
    """The items of a file."""
    text = plain(text)
    return list(items(text, re.sub(LITERAL, lambda m: f'"{"_" * (len(m[0]) - 2)}"', text, flags=re.S), 0, len(text)))


def find(shape, at, ends):
    """The first of these, a character or a word, that no bracket encloses."""
    depth = 0
    for m in re.compile(r"[()\[\]{};,]|\b\w+").finditer(shape, at):
        if depth == 0 and m[0] in ends:
            return m.start()
        depth += (m[0] in "([{") - (m[0] in ")]}")
    return len(shape)


def closed(shape, at):
    """The place behind the bracket that closes the one here."""
    return find(shape, at + 1, ")]}") + 1


def items(text, shape, at, end):
    while True:
        at, attributes = re.compile(r"\s*").match(shape, at).end(), []
        while shape[at : at + 1] == "#":
            to = closed(shape, shape.index("[", at))
            attributes += [text[at:to]] if shape[at + 1] == "[" else []
            at = re.compile(r"\s*").match(shape, to).end()
        if at >= end:
            return
        start, m = at, re.compile(rf"({MARKS})(\w+!?)\s*([\w!]*)").match(shape, at)
        kind, name, clauses, body, inner = m[2], m[3], [], "", []
        if kind == "ghost" and name == "use":
            kind, name = "ghost use", ""
        if kind == "fn":
            said = at = find(shape, m.end(), ["requires", "ensures", "{", ";"])
            while clause := re.compile(r"(requires|ensures)\b([^{]*)").match(shape, at):
                to = closed(shape, clause.end())
                clauses.append(Clause(clause[1], clause[2].strip(), text[clause.end() + 1 : to - 1].strip()))
                at = find(shape, to, ["requires", "ensures", "{", ";"])
            to = at + 1
            if shape[at : at + 1] == "{":
                to = closed(shape, at)
                body = text[at + 1 : to - 1].strip()
            whole = text[start:said]
        elif kind in ("use", "ghost use", "ghost", "const", "static", "type"):
            to = find(shape, at, ";") + 1
            whole = text[start : to - 1]
        else:
            at = find(shape, m.end(), "{;")
            to = closed(shape, at) if shape[at : at + 1] == "{" else at + 1
            whole = text[start:at]
            if kind in ("trait", "impl", "mod"):
                inner = list(items(text, shape, at + 1, to - 1)) if shape[at : at + 1] == "{" else []
                body = text[at + 1 : to - 1]
            elif shape[at : at + 1] == "{":
                plain_fields, inner = fields(text, shape, at + 1, to - 1)
                whole += f"{{\n{plain_fields}\n}}"
        yield Item(kind, name, re.match(r"pub\s(?!\s*\()", m[1]) is not None, attributes, whole, clauses, body, inner)
        at = to


def fields(text, shape, at, end):
    """What a type says of its fields or cases, and its ghost fields."""
    said, ghosts = [], []
    while at < end:
        to = min(find(shape, at, ","), end)
        field = text[at:to].strip()
        if ghost := re.match(r"ghost\s+(\w+)", field):
            ghosts.append(Item("ghost", ghost[1], False, [], field, [], "", []))
        elif field:
            said.append(field)
        at = to + 1
    return ",\n".join(said), ghosts


def brought(text):
    """What each name that a `use` line brings stands for: its path."""
    names = {}
    for use in re.findall(r"(?<!ghost )\buse\s+([^;]*);", text):
        for path, alias in spread(re.sub(r"\s+", " ", use)):
            names[alias or path.split("::")[-1]] = path
    return names


def spread(use, before=""):
    """Each path of a `use` line, whose braces may lie in one another, with the name it is brought as."""
    depth, parts = 0, [""]
    for c in use:
        depth += (c == "{") - (c == "}")
        if c == "," and depth == 0:
            parts.append("")
        else:
            parts[-1] += c
    for part in filter(None, map(str.strip, parts)):
        path, brace, rest = part.partition("{")
        if brace:
            yield from spread(rest[: rest.rindex("}")], before + path)
        else:
            path, _, alias = part.partition(" as ")
            yield (before + path).removesuffix("::self"), alias


def tokens(text):
    """The words of a text, code or a clause, so that white space tells nothing."""
    return [m[0] for m in re.finditer(rf"{LITERAL}|[()\[\]{{}};,@]|[^\s()\[\]{{}};,@\"]+", text, re.S)]
