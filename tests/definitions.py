#!/usr/bin/env python3
"""Every definition, claim and table of the crates' specs with a digest of its text, comments aside: tests/definitions.txt. A proof shows that a claim
holds, not that it still says what it said: one that was loosened, given a premise that nothing meets or robbed of rows is proved all the same. So a
changed text must be renewed here, and shows as a line in what is reviewed. So do a file's `use` lines, which can give a name another meaning.

    tests/definitions.py           what is not as recorded
    tests/definitions.py make      records what stands there
"""
import hashlib
import re
import sys
from pathlib import Path

ROOT = Path(__file__).resolve().parent.parent
RECORD = Path(__file__).with_suffix(".txt")
NAME = re.compile(r"(?:abbrev |unfoldable )?(?:pub )?(?:record |data )?([^\s:]+)")


def blocks(text):
    """Name and text of each definition of a file, after its `use` lines. Blank lines part them; comments are left out."""
    lines = [line.partition("-- ")[0].rstrip() for line in text.splitlines() if not line.lstrip().startswith("--")]
    if uses := [line for line in lines if line.startswith("use ")]:
        yield "use", " ".join(uses)
    for block in "\n".join(line for line in lines if not re.match(r"use |pub mod ", line)).split("\n\n"):
        if words := block.split():
            yield NAME.match(block.strip())[1], " ".join(words)


def digests(root=ROOT):
    """Crate, file, name and digest of each."""
    found = {}
    for path in sorted(root.glob("crates/*/specs/**/*.antt")):
        for name, text in blocks(path.read_text()):
            key = f"{path.relative_to(root / 'crates').parts[0]} {path.stem}.{name}"
            found[key] = hashlib.sha256((found.get(key, "") + text).encode()).hexdigest()[:16]
    return found


def recorded():
    return dict(line.rsplit(" ", 1) for line in RECORD.read_text().splitlines()) if RECORD.exists() else {}


def unlike(have, want):
    """What is new, gone or changed."""
    return sorted(f"{key}: {'gone' if key not in have else 'new' if key not in want else 'changed'}" for key in have.keys() | want.keys() if have.get(key) != want.get(key))


def main():
    if sys.argv[1:] == ["make"]:
        RECORD.write_text("".join(f"{key} {digest}\n" for key, digest in digests().items()))
    elif sys.argv[1:]:
        sys.exit(__doc__)
    else:
        print("\n".join(unlike(digests(), recorded())) or "as recorded")


if __name__ == "__main__":
    main()
