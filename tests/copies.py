"""Copies of the crates outside the repository, with what is proved of them, in which an edit stands while rt checks it.

They lie outside, since `rt ci` refuses a file of code or of proof anywhere but in a crate of its own repository.
"""
import os
import shutil
import subprocess
import tempfile
from pathlib import Path

ROOT = Path(__file__).resolve().parent.parent
NOT_STORED = "what the program wrote, or its status, is not what is stored"


def dependencies(root=ROOT):
    """Each crate with those that it names, in the order of crates.txt."""
    found = {}
    for line in (root / "crates.txt").read_text().splitlines():
        name, colon, rest = line.partition("#")[0].partition(":")
        if colon:
            found[name.split()[0]] = rest.split()
    return found


def below(crate, deps):
    """The crates that one builds on, directly or not, in the order of crates.txt."""
    reached = set(deps[crate])
    for name in reversed(list(deps)):
        if name in reached:
            reached |= set(deps[name])
    return [name for name in deps if name in reached]


def prepare(crates):
    """Has rt keep, in the repository itself, what is proved of the crates, where it does not yet: each trial starts from a copy of that."""
    for crate in crates:
        folder = ROOT / "crates" / crate
        if not (folder / "out" / "incremental").exists():
            subprocess.run(["rt", "check"], cwd=folder, stdin=subprocess.DEVNULL, stdout=subprocess.DEVNULL, stderr=subprocess.DEVNULL)


def linked(one, other):
    """What is proved is many files, which a check replaces and does not write into: a second name serves."""
    if one.endswith(".oantt"):
        try:
            return os.link(one, other)
        except OSError:
            pass
    return shutil.copy2(one, other)


class Copy:
    """A copy of the crates of a folder, and of what is proved of them, which `restore` brings back."""

    def __init__(self, origin=ROOT):
        self.origin, self.root = origin, Path(tempfile.mkdtemp(prefix="dlaveth-"))
        shutil.copytree(origin / "crates", self.root / "crates", symlinks=True, copy_function=linked)
        shutil.copy(origin / "crates.txt", self.root)

    def __enter__(self):
        return self

    def __exit__(self, *what):
        shutil.rmtree(self.root, ignore_errors=True)

    def restore(self, crates):
        for name in crates:
            have, good = self.root / "crates" / name / "out", self.origin / "crates" / name / "out"
            shutil.rmtree(have, ignore_errors=True)
            if good.exists():
                shutil.copytree(good, have, symlinks=True, copy_function=linked)

    def rt(self, crate, *words, **how):
        how = {"stdin": subprocess.DEVNULL, "stderr": subprocess.STDOUT} | how
        return subprocess.run(["rt", *words, "--jobs", "1"], cwd=self.root / "crates" / crate, stdout=subprocess.PIPE, **how)

    def check(self, crate):
        """Whether a crate is proved, over what was proved of it before, and all that was said."""
        done = self.rt(crate, "check")
        return done.returncode == 0, done.stdout.decode(errors="replace").replace(f"{self.root}/", "")

    def runs(self, crate):
        """Whether a proved program writes what is stored, and what it says where it does not."""
        folder = self.root / "crates" / crate
        given = folder / "stdin"
        with open(given if given.exists() else os.devnull, "rb") as stdin:
            done = self.rt(crate, "run", stdin=stdin, stderr=subprocess.PIPE)
        stored, status = folder / "stdout", folder / "status"
        want = stored.read_bytes() if stored.exists() else b"", int(status.read_text()) if status.exists() else 0
        if (done.stdout, done.returncode) == want:
            return True, ""
        said = done.stderr.decode(errors="replace").replace(f"{self.root}/", "")
        return False, f"{said}\n{NOT_STORED}" if "rt: running" in said else said
