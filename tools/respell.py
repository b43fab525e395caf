#!/usr/bin/env python3
"""Brings the repository's own definitions and lemmas to snake case, once, behind the toolchain's own script of a new spelling.

A name of camel case or with dashes that a file of specs/ or proofs/ declares is respelled wherever it stands: in definitions, proofs,
contracts, edits, documents and the tests' tables. Where a definition and a lemma fall together, the lemma gets `_lem` behind it. In a
function's proof the steps that are named after functions follow their functions' spelling. Run a second time it changes nothing.
"""
import re
import sys
from pathlib import Path

ROOT = Path(sys.argv[1] if len(sys.argv) > 1 else ".").resolve()
WORD = r"[a-z][A-Za-z0-9_'-]*[A-Za-z0-9_']|[a-z]"
DECLARES = re.compile(rf"^\s*(?:(?:pub|abbrev|unfoldable|irreducible|ruleset|let|in)\s+)*({WORD})\s+:\s(.*)$")
LETS = re.compile(rf"\blet ({WORD})\s*[:=]")
# Names that the toolchain's script had respelled already, since a library has them too; here for the documents and the edits.
BEFORE = """aboveOf, add-at, address-seen, after-one, again-kept, all-digits, all-left, all-more, all-moved, all-none, all-seen, all-shown,
all-snoc, all-true, answerOf, any-none, anyFlag, apply-code, as-many, askedOf, at-key, at-source, at-zero, bitOf, bitsAt, byteAt, byteOf,
bytes-same, bytesOf, callOf, callsAt, callsOf, carriedOf, cast-signed, clamp-spec, clear-spec, code-fits, code-of, codeOf, countOf,
counted-spec, digit-low, digits-same, doneOf, drop-min, each-same, end-is, endOf, endedOf, entryOf, factsOf, first-good, fit-stays,
flag-is, from-first, from-second, from-zero, front-length, givenOf, head-spec, headOf, held-next, in-a-row, into-one, is-digit, isByte,
isHeld, isKey, isSet, keyOf, lastAt, left-by, line-read, lineOf, load-spec, local-back, made-fault, made-of, made-so, madeOf, mag-sum,
main-spec, make-spec, markOf, mid-start, mid-step, midway-start, moved-back, mul-at, no-flag, no-whole, none-yet, number-short, numberOf,
offsetOf, one-less, one-more, one-power, open-spec, openedOf, orElse, other-length, part-held, part-of, placeIn, placeOf, plainOf,
put-front, put-full, put-then, putOf, read-between, read-done, read-spec, read-whole, readOnly, readingOf, record-of, restAt, restOf,
rowOf, run-end, run-ends, run-on, runAt, runFrom, runOf, same-length, same-self, same-spec, scaleOf, seen-at, shiftOf, signedOf, size-of,
so-far, some-left, sourceOf, stands-on, start-spec, startOf, stateOf, step-spec, stepOf, steps-on, still-after, stored-back, sub-row,
sum-more, take-behind, take-min, takenOf, targetOf, textOf, too-large, too-long, topOf, turnOf, two-bytes, two-in, up-to, viewOf,
word-back, word-below, wordAt, write-spec"""


def odd(name):
    return "-" in name or re.search("[a-z0-9][A-Z]", name)


def snake(name):
    return re.sub("([a-z0-9])([A-Z])", r"\1_\2", name).lower().replace("-", "_")


def files(*patterns):
    return sorted(p for pattern in patterns for p in ROOT.glob(pattern) if p.is_file() and "out" not in p.parts)


def own():
    """The names that definitions and lemmas of the repository declare, with the places where the toolchain names goals left out."""
    found = set()
    for path in files("crates/*/specs/**/*.antt", "crates/*/proofs/**/*.antt"):
        of_function = path.name in ("Proof.antt", "Answers.antt", "Invariants.antt")
        for line in path.read_text().split("\n"):
            m = DECLARES.match(line)
            names = [m[1]] if m and not (of_function and (re.match("returns|invariant|decreases|loop", m[1]) or re.search(r"\btie\.|Need|\bstatement\b", m[2]))) else []
            names += LETS.findall(line)
            found |= {n for n in names if odd(n)}
    return found - {"and-false", "not-true", "not-false", "or-false"}


def functions():
    return {n for path in files("crates/*/src/**/*.rt") for n in re.findall(r"\bfn (\w+)", path.read_text())}


def respelled(names):
    to = {n: snake(n) for n in names}
    camel = {v for k, v in to.items() if "-" not in k}
    return {k: v + "_lem" if "-" in k and v in camel else v for k, v in to.items()}


def main():
    names = respelled(own())
    steps = {n.replace("_", "-"): n for n in functions() if "_" in n}
    before = {n: snake(n) for n in re.split(r",\s+", BEFORE)}
    token = re.compile(rf"(?<![\w'-])(?:{WORD})(?![\w'-])")
    # In proofs a dash may also join the parts of a goal's name: only whole tokens are respelled.
    code = lambda text, more={}: token.sub(lambda m: names.get(m[0]) or more.get(m[0]) or m[0], text)
    for path in files("crates/*/specs/**/*.antt", "crates/*/proofs/**/*.antt"):
        text = path.read_text()
        new = code(text)
        if "proofs" in path.parts:
            new = re.sub(r"(?<=\.)[a-z][\w-]*", lambda m: steps.get(m[0]) or m[0], new)
        if new != text:
            path.write_text(new)
    for path in files("crates/*/src/**/*.rt"):
        text = path.read_text()
        new = code(text)
        if new != text:
            path.write_text(new)
    # Words of prose have dashes too, so that in documents only camel case, or what stands alone between backticks, is respelled.
    both = {**before, **names}
    for path in files("README.md", "docs/*.md", "tests/*.py", "tests/mutation/*.py", "tests/mutation/*.txt", "tests/definitions.txt", "crates/*/must-fail/*.edit", "tests/mutation/named/**/*.edit"):
        text = path.read_text()
        new = re.sub(rf"(?<![\w'/-])({WORD})(?![\w'-])", lambda m: both[m[1]] if m[1] in both and (not "-" in m[1]) else m[1], text)
        new = re.sub(rf"`({WORD})`", lambda m: "`" + both.get(m[1], m[1]) + "`", new)
        if path.suffix in (".edit", ".txt"):
            new = re.sub(rf"(?<![\w'-])({WORD})(?![\w'-])", lambda m: both[m[1]] if m[1] in both and "-" in m[1] and path.suffix == ".edit" and "antt" in text else m[1], new)
        if new != text:
            path.write_text(new)


main()
