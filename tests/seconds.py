#!/usr/bin/env python3
"""From what tests/trials.py said: seconds for each crate of its must-fail edits, as the wall clock has them with others beside them. `rt ci` tells no times.

    tests/seconds.py LOG
"""
import re
import sys
from collections import Counter
from pathlib import Path


def main():
    edits, count = Counter(), Counter()
    for crate, took in re.findall(r"^(\w+)/[\w-]+: (\d+) s\b", Path(sys.argv[1]).read_text(), re.M):
        edits[crate] += int(took)
        count[crate] += 1
    print("seconds by crate: edits, and how many")
    for name in edits:
        print(f"  {name:14} {edits[name]:6} {count[name]:5}")
    print(f"  {'all':14} {sum(edits.values()):6} {sum(count.values()):5}")


main()
