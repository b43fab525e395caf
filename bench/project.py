#!/usr/bin/env python3
"""Sums a count by part of the project: lines `PART<tab>COUNT`.

    bench/project.py ADDRESSES LISTING

ADDRESSES has an address and how often it was executed on each line, LISTING is objdump's. The library has no line numbers, and nearly all
stands in `replay::play::drive`. Its parts are found by how control goes: each begins at a place that is known by a constant in it, and has what
is reached from there before another begins. What is reached only by a jump through a table is the step's. Where a place is not found the function
is given whole; so is every other function.
"""
import re
import sys
from collections import Counter, defaultdict

DRIVE = "replay::play::drive"
# A part, and what is seen where it begins.
PLACES = {
    "reading": r"cmp +\$0x27,",                   # 39 bytes or more are left
    "step": r"cmp +\$0x7,%(?:e|r\d+d)",          # the kind
    "answer, loop and room": r"\$0x65646f63,",    # "code"
}


def listed(path):
    """Each function's instructions in order: address and text."""
    functions, name = defaultdict(list), None
    for line in open(path):
        head = re.match(r"^[0-9a-f]+ <(.*)>:$", line)
        code = re.match(r"^ *([0-9a-f]+):\t(.*)", line)
        if head:
            name = head.group(1)
        elif code and name:
            functions[name].append((int(code.group(1), 16), code.group(2)))
    return functions


def divided(code, count):
    """The part of each instruction's address; none where a place is not found."""
    at = {address: i for i, (address, _) in enumerate(code)}
    jump = [re.match(r"j\w+ +([0-9a-f]+) ", text) for _, text in code]
    leads = [at.get(int(j.group(1), 16)) if j else None for j in jump]
    ends = [bool(re.match(r"(jmp|ret)\b", text)) for _, text in code]
    begins = {i for i in leads if i is not None} | {i + 1 for i in range(len(code) - 1) if jump[i] or ends[i]} | {0}
    first = {}
    for part, pattern in PLACES.items():
        found = [i for i, (address, text) in enumerate(code) if re.search(pattern, text) and count[address]]
        if not found:
            return None
        often = max(found, key=lambda i: count[code[i][0]])
        first[part] = max(i for i in begins if i <= often)
    part_of = {}
    for part in first:
        if part == "step":
            continue
        todo = [first[part]]
        while todo:
            i = todo.pop()
            if i in part_of or i >= len(code) or i in (j for p, j in first.items() if p != part):
                continue
            part_of[i] = part
            if leads[i] is not None:
                todo.append(leads[i])
            if not ends[i]:
                todo.append(i + 1)
    return {address: part_of.get(i, "step") for i, (address, _) in enumerate(code)}


def main():
    count = Counter()
    for line in open(sys.argv[1]):
        address, times = line.split()
        count[int(address, 16)] += int(times)
    sums = Counter()
    for name, code in listed(sys.argv[2]).items():
        parts = divided(code, count) if name == DRIVE else None
        for address, _ in code:
            if count[address]:
                sums[parts[address] if parts else name] += count[address]
    for part, times in sums.most_common():
        print(f"{part}\t{times}")


main()
