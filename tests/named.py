"""The named edits of the mutation run, tests/mutation/named/CRATE/NAME.edit: written as the gate's must-fail edits are, and tried by the mutation run alone.

rt names a goal by the test before it, as `returns-then-d-eq0`. Where an edit changes such a test, it changes the name in the proof's file too, so that
the fact is what refuses it and not the name.
"""
from pathlib import Path

ROOT = Path(__file__).resolve().parent.parent
PLACE = ROOT / "tests" / "mutation" / "named"


def named():
    """Each edit's crate and path."""
    return [(path.parent.name, path) for path in sorted(PLACE.glob("*/*.edit"))]


def changed(crate, edit, read=lambda path: (ROOT / path).read_text()):
    """The files that an edit's text changes, by their path from the root, as they are after it."""
    found, path, old = {}, None, None
    for line in edit.splitlines():
        if line.startswith("file: "):
            path = f"crates/{crate}/{line[6:]}"
        elif line.startswith("old: "):
            old = line[5:]
        elif line.startswith("new:"):
            text = found.get(path) or read(path)
            if text.count(old) != 1:
                raise ValueError(f"'{old}' is in {path} {text.count(old)} times")
            found[path] = text.replace(old, line[4:].removeprefix(" "))
    if not found:
        raise ValueError("it has no 'old:' and 'new:' pair")
    return found
