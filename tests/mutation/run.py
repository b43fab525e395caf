#!/usr/bin/env python3
"""Applies small edits to the code and the definitions, one at a time, and counts how many the prover refuses at a fact.

    tests/mutation/run.py                  one trial for each function and definition, then the report
    tests/mutation/run.py --rounds 3       three for each; what was tried before is not tried again
    tests/mutation/run.py --crate chip     of one crate alone
    tests/mutation/run.py --named          the named edits alone
    tests/mutation/run.py --report         the report of what was tried so far

Each edit is tried in its own crate; one that is still proved there goes against the crates above, in order, until one refuses it. What was
tried stands in target/mutation/results, a line each, so a run that was stopped goes on where it was. An edit that the compiler refuses, or
whose refusal says only that a definition has no type or a proof no place, counts as not tried, and the unit's next edit takes its turn.
Before them the named edits of tests/mutation/named are tried, in their own crates; one that is not refused at a fact fails the run, and so
does a survivor that tests/mutation/explained.txt does not explain.
"""
import argparse
import hashlib
import json
import re
import subprocess
import sys
import threading
import time
from collections import Counter
from pathlib import Path

ROOT = Path(__file__).resolve().parent.parent.parent
sys.path.insert(0, str(ROOT / "tests"))
from copies import NOT_STORED, Copy, dependencies    # noqa: E402
from named import changed, named    # noqa: E402
from refusals import errors_of, said_by, unfit    # noqa: E402
from edits import edits    # noqa: E402
from units import units    # noqa: E402

PLACE = ROOT / "target" / "mutation"
RESULTS = PLACE / "results"
EXPLAINED = Path(__file__).with_name("explained.txt")
ATTEMPTS = 12    # edits of one unit that may turn out to be no trial, for each round
REFUSED, SURVIVED, UNTRIED = "refused", "survived", "not tried"


def above(crate, deps):
    """The crates that build on one, directly or not, in the order of crates.txt."""
    reached = [crate]
    for name in deps:
        if name not in reached and any(d in reached for d in deps[name]):
            reached.append(name)
    return reached[1:]


def sources(crate):
    """The files of code, definitions and proofs, which rt's own folder out/ may repeat."""
    paths = [path for part in ("src", "specs", "proofs") for path in (ROOT / "crates" / crate / part).rglob("*")]
    return sorted(path for path in paths if path.suffix in (".antt", ".rt"))


class Reach:
    """Which crates could notice that a definition says something else: those that import it, or what is said with it, and so on; and where a
    function's contract does, every crate above it. A module taken whole (`use .. as`) is not followed: what is taken so has other ways here. What a
    function's attribute names, as `rules::specs::Step::step_of`, counts as imported."""

    USE = re.compile(r"^(?:ghost )?use (\S+?)\.\{([^}]*)\}", re.M)
    NAME = re.compile(r"^ {0,2}(?:(?:abbrev|unfoldable|pub|data|record) )*([^\s(){},;.:]+)(?= :| \()", re.M)
    NAMED = re.compile(r"\w+::(?:specs|proofs)::(\w+)::(\w+)")
    WORD = re.compile(r"[^\s(){},;.:]+")

    def __init__(self, deps):
        self.deps, self.files = deps, []
        for crate in deps:
            for path in sources(crate):
                text = path.read_text()
                taken = {name: (module, name) for module, name in self.NAMED.findall(text)}    # a name as the file has it: the module and the name that it stands for
                for module, names in self.USE.findall(text):
                    for name in names.split(","):
                        whole, _, local = name.strip().partition(" as ")
                        taken[local or whole] = (module.rsplit(".", 1)[-1], whole)
                parts = [(set(self.WORD.findall(part)), set(self.NAME.findall(part))) for part in self.USE.sub("", text).split("\n\n")]
                self.files.append((crate, path, taken, parts))

    def crates(self, unit):
        changed, found, before = {(unit.path.stem, unit.name)}, set(), None
        while before != (len(changed), len(found)):
            before = len(changed), len(found)
            for crate, path, taken, parts in self.files:
                here = {local for local, whole in taken.items() if whole in changed} | {name for stem, name in changed if stem == path.stem}
                for words, named in parts:
                    if words & here:
                        found |= {crate} | (set(above(crate, self.deps)) if path.suffix == ".rt" else set())
                        changed |= {(path.stem, name) for name in named}
        return found


class Worker:
    """A copy of the crates and of what is proved of them, in which one edit at a time stands."""

    def __init__(self, copy, deps, reach):
        self.copy, self.root, self.deps, self.reach = copy, copy.root, deps, reach

    def own(self, crate):
        """Whether the crate itself is proved, and what was said; over what was proved of it without an edit, which is many times faster."""
        return self.copy.check(crate)

    def higher(self, crate):
        """Whether a crate, and each below it that is no longer as it was proved, is proved, and a program writes what is stored; the lowest that is
        not, and what was said of it."""
        proved, said = self.copy.check(crate)
        if proved and self.is_program(crate):
            proved, said = self.copy.runs(crate)
        if proved:
            return True, crate, said
        refusing = re.search(r"^rt: the library (\w+) did not build", said, re.M)
        if "logic=not-proved" not in said and NOT_STORED not in said:
            raise RuntimeError(f"the toolchain failed: {said}")
        return False, refusing[1] if refusing else crate, said

    def verdict(self, unit, edit):
        """What became of an edit, the first error or why it was no trial, the crate where that was seen, and what refused it."""
        path = self.root / unit.path
        text = path.read_text()
        path.write_text(text[:edit.start] + edit.new + text[edit.end:])
        touched = [unit.crate]
        try:
            proved, log = self.own(unit.crate)
            if not proved:
                return (*self.judged(log, unit), unit.crate, said_by(log, unit.crate))
            touched += above(unit.crate, self.deps)
            reached = self.reach.crates(unit)
            for crate in [name for name in touched[1:] if name in reached] or ([unit.crate] if self.is_program(unit.crate) else []):
                proved, refusing, log = self.higher(crate)
                if not proved:
                    return (*self.judged(log, unit), refusing, said_by(log, refusing))
            return SURVIVED, "", "", ""
        finally:
            path.write_text(text)
            self.copy.restore(touched)

    def is_program(self, crate):
        """A program is also run, and what it writes is held to what is stored."""
        return (self.root / "crates" / crate / "src" / "main.rt").exists()

    def tried(self, crate, changes):
        """What became of a named edit, a file's text for each file, and the first error or why it shows nothing."""
        before = {path: (self.root / path).read_text() for path in changes}
        for path, text in changes.items():
            (self.root / path).write_text(text)
        try:
            proved, log = self.own(crate)
            if proved:
                return SURVIVED, ""
            return self.judged(log, None)
        finally:
            for path, text in before.items():
                (self.root / path).write_text(text)
            self.copy.restore([crate])

    def judged(self, log, unit):
        errors = errors_of(log)
        first = errors[0][:300] if errors else log[-300:]
        if "logic=not-proved" not in log:
            # a program that is proved and writes something else is refused by its stored output
            return (REFUSED, "its program writes something else") if NOT_STORED in log else (UNTRIED, f"not compiled: {first}")
        if why := unfit(log):
            return UNTRIED, why
        if unit and unit.path.suffix == ".antt" and f"/{Path(*unit.path.parts[2:])}:" in errors[0].split(" error")[0]:
            return UNTRIED, f"no definition: {first}"
        return REFUSED, first


def key_of(unit, edit, text):
    digest = hashlib.sha256(text.encode()).hexdigest()[:16]
    return f"{unit.path}:{unit.name}:{edit.start}:{edit.old}:{edit.new}:{digest}"


def whole():
    """A digest of all that is proved."""
    paths = [path for crate in dependencies() for path in sources(crate)]
    return hashlib.sha256(b"".join(path.read_bytes() for path in paths)).hexdigest()[:16]


class Results:
    """What was tried. An edit that survived something else than what stands now is tried again."""

    def __init__(self):
        self.lock, self.lines, self.whole = threading.Lock(), {}, whole()
        if RESULTS.exists():
            for line in RESULTS.read_text().splitlines():
                entry = json.loads(line)
                if entry["verdict"] != SURVIVED or entry["whole"] == self.whole:
                    self.lines[entry["key"]] = entry

    def add(self, entry):
        with self.lock:
            self.lines[entry["key"]] = entry
            with RESULTS.open("a") as file:
                file.write(json.dumps(entry) + "\n")


def candidates(crates):
    """Each unit with its edits and their keys."""
    for unit in units(ROOT, crates):
        text = (ROOT / unit.path).read_text()
        found = edits(text, unit.spans, unit.path.suffix == ".rt")
        seen = {}
        for edit in found:
            seen.setdefault(key_of(unit, edit, text), edit)
        yield unit, list(seen.items())


def run(todo, rounds, jobs, deps, results):
    """One trial of each unit, then a second of each, and so on."""
    queue = [(number, unit, found) for number in range(1, rounds + 1) for unit, found in todo]
    lock, at, reach, broken = threading.Lock(), iter(enumerate(queue, 1)), Reach(deps), []

    def guarded():
        try:
            work()
        except BaseException as error:    # a thread's own end would be silent
            broken.append(error)

    def work():
        with Copy() as copy:
            try_all(Worker(copy, deps, reach))

    def try_all(worker):
        while True:
            with lock:
                place, (wanted, unit, found) = next(at, (None, (None, None, None)))
            if place is None:
                return
            for key, edit in found:
                tried = [results.lines[k]["verdict"] for k, _ in found if k in results.lines]
                if broken or len([v for v in tried if v != UNTRIED]) >= wanted or tried.count(UNTRIED) >= ATTEMPTS * wanted:
                    break
                if key in results.lines:
                    continue
                began = time.time()
                verdict, why, crate, by = worker.verdict(unit, edit)
                results.add({"key": key, "whole": results.whole, "unit": f"{unit.path}:{unit.name}", "crate": unit.crate, "kind": edit.kind, "old": edit.old,
                             "new": edit.new, "verdict": verdict, "at": crate, "by": by, "why": why, "seconds": round(time.time() - began, 1)})
                print(f"{place}/{len(queue)} {unit.path}:{unit.name}: {edit.kind}: {verdict} {crate if verdict == REFUSED else ''}", flush=True)

    threads = [threading.Thread(target=guarded) for _ in range(jobs)]
    for thread in threads:
        thread.start()
    for thread in threads:
        thread.join()
    if broken:
        sys.exit(f"broken off: {broken[0]!r}")


def shapes(unit, found):
    """Each edit as explained.txt has it, by its key: unit, words, and which of the unit's places with these words it is."""
    told, seen = {}, Counter()
    for key, edit in sorted(found, key=lambda one: one[1].start):
        words = f"{unit.path}:{unit.name} | {' '.join(edit.old.split())} -> {' '.join(edit.new.split())}"
        seen[words] += 1
        told[key] = f"{words} | {seen[words]}"
    return told


def explained():
    """Each edit that is explained, with why."""
    lines = [line for line in EXPLAINED.read_text().splitlines() if line and not line.startswith("#")]
    return {line.rpartition(" | ")[0]: line.rpartition(" | ")[2] for line in lines}


def report(todo, results):
    """The figures, as a table for docs/MUTATION.md, then every survivor, every definition that no claim speaks of and every unit without a trial.
    Gives the counts and the survivors without an explanation."""
    rows, survivors, bare, unsaid = {}, [], [], []
    for unit, found in todo:
        sort = "functions" if unit.path.suffix == ".rt" else "claims" if unit.claim else "definitions"
        told = shapes(unit, found)
        row = rows.setdefault((unit.crate, sort), Counter())
        row["units"] += 1
        tried = [results.lines[k] for k, _ in found if k in results.lines]
        for entry in tried:
            row[entry["verdict"]] += 1
            if entry["verdict"] == REFUSED:
                row[entry["by"]] += 1
                if sort == "definitions" and entry["by"] != "claim":
                    unsaid.append(f"{told[entry['key']]} | refused by {'the code' if entry['by'] == 'code' else 'a restatement'} alone: {entry['at']}: {entry['why'][:120]}")
            survivors += [told[entry["key"]]] * (entry["verdict"] == SURVIVED)
        if all(entry["verdict"] == UNTRIED for entry in tried):
            bare.append(f"{unit.path}:{unit.name}")
        else:
            row["reached"] += 1
    print("| Crate | Of | Units | With a trial | Refused by a claim | By a restatement alone | By the code alone | Survived | Not tried |")
    print("|---|---|---|---|---|---|---|---|---|")
    total = Counter()
    for (crate, sort), row in [*rows.items(), (("all", ""), total)]:
        if row is not total:
            total.update(row)
        counts = [row[name] for name in ("units", "reached", "claim", "restated", "code", SURVIVED, UNTRIED)]
        print(f"| {crate} | {sort} | {' | '.join(map(str, counts))} |")
    why = explained()
    for shape in survivors:
        print(f"survived: {shape} | {why.get(shape, 'NOT EXPLAINED')}")
    for line in unsaid:
        print(f"no claim: {line}")
    for name in bare:
        print(f"no trial: {name}")
    return total, [shape for shape in survivors if shape not in why]


def try_named(jobs, deps):
    """The named edits that were not refused at a fact, with why."""
    todo, lock, wrong = iter(named()), threading.Lock(), []

    def work():
        with Copy() as copy:
            try_all(Worker(copy, deps, None))

    def try_all(worker):
        while True:
            with lock:
                crate, path = next(todo, (None, None))
            if crate is None:
                return
            try:
                verdict, why = worker.tried(crate, changed(crate, path.read_text()))
            except (OSError, ValueError, RuntimeError) as error:
                verdict, why = UNTRIED, str(error)
            print(f"{crate}/{path.stem}: {verdict} {why[:160]}", flush=True)
            if verdict != REFUSED:
                wrong.append(f"{crate}/{path.stem}: {verdict} {why}")

    threads = [threading.Thread(target=work) for _ in range(jobs)]
    for thread in threads:
        thread.start()
    for thread in threads:
        thread.join()
    return wrong


def main():
    parser = argparse.ArgumentParser(description=__doc__, formatter_class=argparse.RawDescriptionHelpFormatter)
    parser.add_argument("--rounds", type=int, default=1)
    parser.add_argument("--jobs", type=int, default=2)
    parser.add_argument("--crate", action="append")
    parser.add_argument("--report", action="store_true")
    parser.add_argument("--named", action="store_true")
    words = parser.parse_args()
    deps = dependencies()
    todo = list(candidates(words.crate or list(deps)))
    PLACE.mkdir(parents=True, exist_ok=True)
    results, wrong = Results(), []
    if not words.report:
        for crate in deps:    # what the trials of each crate start from: what is proved of it, and the library that it is
            is_program = (ROOT / "crates" / crate / "src" / "main.rt").exists()
            for command in "check", "run" if is_program else "lib":
                if subprocess.run(["rt", command], cwd=ROOT / "crates" / crate, stdin=subprocess.DEVNULL, stdout=subprocess.DEVNULL, stderr=subprocess.DEVNULL).returncode:
                    sys.exit(f"{crate} is not proved as it is")
        if words.named or not words.crate:
            wrong = try_named(words.jobs, deps)
            for line in wrong:
                print(f"named edit: {line}")
            print(f"{len(named()) - len(wrong)} of {len(named())} named edits refused at a fact")
        if words.named:
            sys.exit(len(wrong) > 0)
        run(todo, words.rounds, words.jobs, deps, results)
    total, left = report(todo, results)
    print(f"{total['claim']} refused by a claim, {total['restated']} by a restatement alone, {total['code']} by the code alone, {total[SURVIVED]} survived, {len(left)} of them not explained")
    sys.exit(bool(left or wrong))


main()
