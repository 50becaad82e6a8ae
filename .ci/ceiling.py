# include/ceiling.h as far as the gate reads it.
import re


def code(text):
    """A header without its comments."""
    return re.sub(r"/\*.*?\*/|//[^\n]*", " ", text, flags=re.S)


def functions(text):
    """The functions that a header declares: every name before a parenthesis, the words of C and its own macro aside,
    and what it defines itself (`static inline`), whose text is passed over."""
    text = re.sub(r"^\s*#(?:[^\n]*\\\n)*[^\n]*", " ", code(text), flags=re.M)
    text = re.sub(r"\bstatic inline\b[^;{]*\{(?:[^{}]|\{[^{}]*\})*\}", " ", text)
    return set(re.findall(r"\b([A-Za-z_]\w*)\s*\((?!\*)", text)) - {"CEILING_IS", "sizeof", "offsetof"}


def constants(text):
    """The version of the face and each case of an enum, with what the header says that it is: nothing where it says
    nothing."""
    yield from re.findall(r"^#define (CEILING_FACE) (\w+)$", code(text), re.M)
    for cases in re.findall(r"\benum\b[^{;]*\{([^}]*)\}", code(text)):
        for case in filter(str.strip, cases.split(",")):
            yield tuple(part.strip() for part in case.partition("=")[::2])
