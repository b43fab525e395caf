#!/usr/bin/env python3
"""Runs what the documents show: each fenced block that begins with `$ ` is commands and what they print. The last line is 'N passed, M failed'.

A command runs in bash at the repository's root, in the documents' order, and must print just the lines below it, errors too; a line `...` stands for any
lines. Long commands, as the gate itself, stand in the documents without the `$`.
"""
import re
import subprocess
from pathlib import Path

from checks import check, end

ROOT = Path(__file__).resolve().parent.parent
BLOCK = re.compile(r"^```\w*\n(\$ .*?)^```$", re.M | re.S)


def commands(text):
    """Each command of a document, and the lines that it is shown to print."""
    for block in BLOCK.findall(text):
        for part in re.split(r"^\$ ", block, flags=re.M)[1:]:
            command, _, shown = part.partition("\n")
            yield command, shown.splitlines()


def fits(shown, printed):
    """Whether what was printed is what is shown."""
    pattern = "".join("(?:.*\n)*?" if line == "..." else re.escape(line) + "\n" for line in shown)
    return re.fullmatch(pattern, "".join(line + "\n" for line in printed)) is not None


def run(command):
    return subprocess.run(["bash", "-c", command], cwd=ROOT, stdin=subprocess.DEVNULL, stdout=subprocess.PIPE, stderr=subprocess.STDOUT, text=True).stdout.splitlines()


def main():
    check("what is printed is held to what is shown", [] if fits(["a", "...", "d"], list("abcd")) and not fits(["a", "...", "d"], list("abc")) and not fits(["a"], ["b"]) else ["it is not"])
    for path in [ROOT / "README.md", *sorted(ROOT.glob("docs/**/*.md"))]:
        for command, shown in commands(path.read_text()):
            printed = run(command)
            check(f"{path.relative_to(ROOT)}: {command}", [] if fits(shown, printed) else ["it printed:", *printed])
    end()


main()
