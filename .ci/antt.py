# antt as far as the gate reads it: a file without its comments, what its `use` lines bring, what it opens and declares.
import re

# what ends a name, besides a space
ENDS = r'\s(){};,@"'


def plain(text):
    """The text with its comments blanked, every line and column where it was."""
    blank = lambda m: m[0] if m[0].startswith('"') else re.sub(r"\S", " ", m[0])
    return re.sub(rf'"(?:\\.|[^"\\\n])*"|{{-.*?-}}|(?<![^{ENDS}])--[^\n]*', blank, text, flags=re.S)


def brought(text):
    """What each name that a `use` line brings stands for, and the `use` lines that this cannot read."""
    names, unread = {}, []
    for line in re.findall(r"^\s*(?:(?:unfoldable|pub)\s+)*use(?=\s)[^\n{]*(?:\{[^}]*\}[^\n]*)?", text, re.M):
        use = re.fullmatch(r"\s*use\s+([^\s{}]*?[^\s{}.])(?:\.\{([^}]*)\}|\s+as\s+(\S+))?\s*", line)
        if not use:
            unread.append(" ".join(line.split()))
            continue
        path, items, alias = use.groups()
        for item in [i for i in items.split(",") if i.strip()] if items else []:
            there, here = (re.split(r"\s+as\s+", item.strip()) * 2)[:2]
            names.setdefault(here.split(".")[-1], set()).add(f"{path}.{there}")
        if not items:
            names.setdefault(alias or path.split(".")[-1], set()).add(path)
    return names, unread


def paths(name, names, steps=8):
    """The whole paths that a name may stand for, one `use` line after the other."""
    head, dot, rest = name.partition(".")
    onward = names.get(head, ()) if steps else ()
    return {whole for path in onward for whole in paths(path + dot + rest, names, steps - 1)} or {name}


def opened(text):
    """The names on `unfolding` lines, each as far as it is indented deeper, and those of `unfold .. in`."""
    lists = [m[2] for m in re.finditer(r"^( *)unfolding(?=\s)(.*(?:\n\1 .*|\n *$)*)", text, re.M)]
    lists += [m[1] for m in re.finditer(rf"(?<![^{ENDS}])unfold\s(.*?)\sin(?=[{ENDS}])", text, re.S)]
    return [name for names in lists for name in re.sub(r"[«»]", "", names).split()]


def declared(text):
    """Each declared name with what it is: a statement (a name with a type), a type, or a member (of data or a record).

    Sections (`module _ .. where`) are looked into; what is declared inside a proof (`where`, `let`) is not there.
    """
    return [("statement" if kind == "function" else kind, name) for kind, name, _ in stated(text)]


def stated(text):
    """The same with what is said of each name: its type, and the sections round it; a definition is a function."""
    return [(kind, name, said) for kind, name, said, _, _ in items(text) if kind != "fixity"]


def items(text):
    """The same with the sections round it, and its whole text, which of a definition has its equations; beside these how
    an operator binds, its fixity."""
    return list(block([line for line in text.split("\n") if line.strip()], "module", ""))


def tokens(text):
    """The words of a text, so that white space tells nothing: strings, brackets and the like, and what lies between."""
    return re.findall(rf'"(?:\\.|[^"\\\n])*"|[(){{}};,@]|[^{ENDS}]+', text)


def block(lines, inside, heads):
    column = lambda line: len(line) - len(line.lstrip())
    starts = [n for n, line in enumerate(lines) if column(line) == column(lines[0])]
    last = None  # the name that the next items may be equations of, as it is yielded
    for start, end in zip(starts, starts[1:] + [len(lines)]):
        item = lines[start:end]
        text = "\n".join(item)
        marks = re.match(r"\s*((?:(?:unfoldable|abbrev|axiom|pub)\s+)*)", text)
        words = text[marks.end() :].split()
        begins = words[0] in ("module", "record", "data", "use", "mod") or words[0].startswith("infix")
        names = re.sub(r"\{[^}]*\}", "", " ".join(words[: words.index(":")])).split() if ":" in words else []
        if inside == "module" and last and not begins and len(names) != 1:
            last[4] += f"\n{text}"
            continue
        if last:
            yield tuple(last)
        last = None
        if words[0] in ("module", "record", "data"):
            head = next((n for n, line in enumerate(item) if line.split()[-1] == "where"), len(item))
            said = " ".join(item[: head + 1])
            if words[0] != "module":
                yield "type", words[1], said, heads, text
            yield from block(item[head + 1 :], words[0], f"{heads} {said} →")
        elif words[0].startswith("infix"):
            yield "fixity", words[-1], words[0], heads, text
        elif names:
            said = f"{heads} {' '.join(words[words.index(':') + 1 :])}"
            if inside != "module":
                yield from (("member", name, said, heads, text) for name in names)
            elif len(names) == 1:
                kind = "function" if re.search(r"unfoldable|abbrev", marks[1]) else "statement"
                last = [kind, names[0], said, heads, text]
    if last:
        yield tuple(last)
