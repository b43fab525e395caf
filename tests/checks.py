"""What the tests in Python share: checks that are counted and shown, and the last line, 'N passed, M failed'."""
import sys

passed, failed = 0, 0


def check(name, wrong):
    """Counts one check: `wrong` lists what it found."""
    global passed, failed
    failed += bool(wrong)
    passed += not wrong
    print(f"{'FAILED' if wrong else 'ok'} {name}")
    for line in wrong[:20]:
        print(f"    {line}")


def differs(have, want):
    return [] if have == want else [f"wanted {want!r}", f"found  {have!r}"]


def end():
    print(f"{passed} passed, {failed} failed")
    sys.exit(failed > 0)
