"""Where an edit may stand: the body of each function of the code and the right sides of each definition."""
import re
from collections import namedtuple

# `path` is from the repository's root; `spans` are the places in the file's text that may be edited.
Unit = namedtuple("Unit", "crate path name spans claim")    # a claim is a definition that is a statement

FUNCTION = re.compile(r"^(?:#\[[^\n]*\] )?(?:pub(?:\([^)\n]*\))? )?(?:extern \"C\" )?fn (\w+)", re.M)
DEFINITION = re.compile(r"^(?:abbrev|unfoldable)(?: pub)? (\S+) : ?(.*)", re.M)


def functions(text):
    """Each function's name and the span between its braces."""
    for head in FUNCTION.finditer(text):
        begin = re.compile(r"^\{$|\) (?:-> [^{}\n]+ )?\{$", re.M).search(text, head.start())
        close = re.compile(r"^\}$", re.M).search(text, head.start())
        if begin and close and begin.end() < close.start():
            yield head[1], [(begin.end(), close.start())], False


def definitions(text):
    """Each definition's name and the spans behind the `=` of its equations, up to the next empty line."""
    for head in DEFINITION.finditer(text):
        stop = text.find("\n\n", head.start())
        stop = len(text) if stop < 0 else stop
        starts = [m.start() for m in re.compile(rf"^{re.escape(head[1])}(?= )", re.M).finditer(text, head.end(), stop)]
        spans = []
        for start, end in zip(starts, starts[1:] + [stop]):
            sign = text.find(" =", start, end)
            if sign >= 0:
                spans.append((sign + 2, end))
        yield head[1], spans, head[2].endswith("Type 0")


def units(root, crates):
    """Every unit, crate by crate."""
    for crate in crates:
        for folder, pattern, parts in [("specs", "*.antt", definitions), ("src", "*.rt", functions)]:
            for path in sorted((root / "crates" / crate / folder).glob(pattern)):
                for name, spans, claim in parts(path.read_text()):
                    yield Unit(crate, path.relative_to(root), name, spans, claim)
