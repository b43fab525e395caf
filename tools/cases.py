#!/usr/bin/env python3
"""The hand-worked cases of tests/cases.txt: the Rattle program that runs them is made from that file, and its output is read beside it.

  cases.py make    write crates/cases/stdin and crates/cases/stdout
  cases.py check   exit 1 unless both are what `make` would write
  cases.py show    read the program's output from standard input, print it beside the cases, exit 1 at a difference
"""
import sys
from pathlib import Path

from table import Table

ROOT = Path(__file__).resolve().parent.parent
CASES = ROOT / "tests" / "cases.txt"
STDIN = ROOT / "crates" / "cases" / "stdin"
STDOUT = ROOT / "crates" / "cases" / "stdout"

# A line of the program's input: what to do, then four numbers.
EVENT, FRESH, SET, CASE = range(4)
KINDS = {word: kind.number for word, kind in Table().words.items()}
FIELDS = {word: len(kind.fields) for word, kind in Table().words.items()} | {"raw": 4}
STATE = ["address", "remotevalue", "localvalue", "runs", "config", "remotehighfine", "remotelowfine", "offsetfine",
         "localdiodefound", "localdiodeflag"]


def fail(number, text):
    sys.exit(f"{CASES.name}:{number}: {text}")


def numbers(number, words, count):
    if len(words) != count:
        fail(number, f"{count} numbers wanted, {len(words)} found")
    try:
        found = [int(word, 0) for word in words]
    except ValueError as error:
        fail(number, str(error))
    for n in found:
        if abs(n) > 99999:
            fail(number, f"a number of more than five digits: {n}")
    return found


def rows():
    """Each line of the file that does something: its text, its row, and the line that the program must write."""
    case = 0
    for number, line in enumerate(CASES.read_text().splitlines(), 1):
        if not line.strip() or line.startswith("#"):
            continue
        told, _, wanted = line.partition("->")
        word, *rest = told.split()
        if word == "case":
            case += 1
            yield line, [CASE, case, 0, 0, 0], f"case {case}"
        elif word == "fresh":
            yield line, [FRESH, *numbers(number, rest, 1), 0, 0, 0], "fresh %d" % numbers(number, wanted.split(), 1)[0]
        elif word == "set":
            if len(rest) != 2 or rest[0] not in STATE:
                fail(number, "a field and its value wanted")
            yield line, [SET, STATE.index(rest[0]), *numbers(number, rest[1:], 1), 0, 0], "set"
        elif word in FIELDS:
            fields = numbers(number, rest, FIELDS[word])
            if word != "raw":
                fields = [KINDS[word], *fields, 0, 0, 0][:4]
            yield line, [EVENT, *fields], "%d %d %d %d" % tuple(numbers(number, wanted.split(), 4))
        else:
            fail(number, f"no such word: {word}")


def made():
    table = "".join(f"{what}" + "".join(f" {n:+06d}" for n in fields) + "\n" for _, (what, *fields), _ in rows())
    return table, "".join(line + "\n" for _, _, line in rows())


def show():
    wrong = 0
    got = sys.stdin.read().splitlines()
    wanted = list(rows())
    for place, (text, _, want) in enumerate(wanted):
        have = got[place] if place < len(got) else "nothing"
        mark = "" if have == want else f"   GOT {have}"
        wrong += have != want
        print(text + mark)
    wrong += max(0, len(got) - len(wanted))
    print(f"{len(wanted)} lines, {wrong} not as the documents have them")
    sys.exit(1 if wrong else 0)


def main():
    verb = sys.argv[1] if len(sys.argv) == 2 else ""
    if verb == "make":
        for path, text in zip((STDIN, STDOUT), made()):
            path.write_text(text)
    elif verb == "check":
        for path, text in zip((STDIN, STDOUT), made()):
            if path.read_text() != text:
                sys.exit(f"{path.relative_to(ROOT)} is not what tests/cases.txt makes: run tools/cases.py make")
    elif verb == "show":
        show()
    elif verb in ("-h", "--help"):
        print(__doc__.strip())
    else:
        sys.exit(__doc__)


main()
