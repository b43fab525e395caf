#!/usr/bin/env python3
"""All that the prover says of each crate as it stands, and of each must-fail edit, for tests/repository.py to read.

    tests/trials.py [CRATE..]    of these crates alone; of all where none is given

`rt ci` tells of an edit only the first line of its refusal, and of a crate that an earlier run passed nothing. Which claim or table refuses an edit, and
what a crate rests on, is seen in all that was said. So each is checked once more here, in copies of the crates, over what `rt check` kept of them as they
stand. What was said stands in target/said/CRATE/EDIT, or in target/said/CRATE/.whole, behind a line with a digest of all
that it was said of; where that is the same, nothing is checked again.
"""
import hashlib
import os
import shutil
import subprocess
import sys
import time
from concurrent.futures import ThreadPoolExecutor
from contextlib import ExitStack
from pathlib import Path
from queue import SimpleQueue

from copies import ROOT, Copy, below, dependencies, prepare
from named import changed

SAID = ROOT / "target" / "said"
WHOLE = ".whole"    # no edit is called so


def must_fail():
    """Each edit's crate and path."""
    return [(path.parts[-3], path) for path in sorted(ROOT.glob("crates/*/must-fail/*.edit"))]


class Digests:
    """Of what a check is of: the kit, the crate, those below it, and the edit."""

    def __init__(self):
        self.deps, self.texts = dependencies(), {}
        self.kit = subprocess.run(["rt", "version"], stdout=subprocess.PIPE, check=True).stdout
        for crate in self.deps:
            paths = [path for part in ("src", "specs", "proofs") for path in sorted((ROOT / "crates" / crate / part).rglob("*")) if path.is_file()]
            self.texts[crate] = b"".join(repr((str(path.relative_to(ROOT)), path.read_bytes())).encode() for path in paths)

    def of(self, crate, edit=None):
        names = [*below(crate, self.deps), crate]
        sort = repr([(name, self.deps[name]) for name in names]).encode()
        return hashlib.sha256(b"\n".join([self.kit, sort, *[self.texts[name] for name in names], edit.read_bytes() if edit else b""])).hexdigest()


def said_of(crate, digests, edit=None):
    """What was said of a crate, or of one of its edits, if that was of what stands there now; else None."""
    log = SAID / crate / (edit.stem if edit else WHOLE)
    first, _, rest = log.read_text().partition("\n") if log.exists() else ("", "", "")
    return rest if first == digests.of(crate, edit) else None


def keep(crate, digests, said, edit=None):
    log = SAID / crate / (edit.stem if edit else WHOLE)
    log.parent.mkdir(parents=True, exist_ok=True)
    log.write_text(f"{digests.of(crate, edit)}\n{said}")


def check(copy, crate, edit):
    """What is said of a crate in a copy, with an edit where one is given; the copy is then as it was."""
    if not edit:
        return copy.check(crate)[1]
    try:
        files = changed(crate, edit.read_text())
    except ValueError as error:
        return f"it cannot be made: {error}"
    for path, text in files.items():
        (copy.root / path).write_text(text)
    _, said = copy.check(crate)
    for path in files:
        shutil.copy(copy.origin / path, copy.root / path)
    copy.restore([crate])
    return said


def check_all(todo, digests):
    """As many at a time as there are processors, each in a copy of its own."""
    free, jobs = SimpleQueue(), min(len(os.sched_getaffinity(0)), len(todo))

    def one(crate, edit):
        copy, began = free.get(), time.time()
        try:
            said = check(copy, crate, edit)
        finally:
            free.put(copy)
        if has_verdict := "logic=" in said:    # else it is checked again by the next run
            keep(crate, digests, said, edit)
        return f"{crate}/{edit.stem if edit else WHOLE}: {time.time() - began:.0f} s" + ("" if has_verdict else f", no verdict: {said[-300:]}")

    with ExitStack() as stack:
        for _ in range(jobs):
            free.put(stack.enter_context(Copy()))
        with ThreadPoolExecutor(jobs) as pool:
            for line in pool.map(lambda pair: one(*pair), todo):
                print(line, flush=True)


def main():
    digests = Digests()
    crates = [crate for crate in digests.deps if crate in (sys.argv[1:] or digests.deps)]
    every = [(crate, None) for crate in crates] + [(crate, edit) for crate, edit in must_fail() if crate in crates]
    todo = [(crate, edit) for crate, edit in every if said_of(crate, digests, edit) is None]
    if todo:
        prepare(crates)
        check_all(todo, digests)
    print(f"crates and must-fail edits: {len(todo)} checked, {len(every) - len(todo)} as they were")


if __name__ == "__main__":
    main()
