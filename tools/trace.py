#!/usr/bin/env python3
"""Turns a short notation into the records of a trace. With bad input nothing is written."""
import argparse
import os
import re
import signal
import sys
from fractions import Fraction

from output import put, say
from table import LARGEST, USUAL_ADDRESS, Table

TABLE = Table()
BUS = TABLE.bus
RAW = "raw"
LONGEST = 40    # characters of a number; longer ones are refused unread


class Bad(Exception):
    """What is wrong with a line."""


def integer(word):
    if not re.fullmatch(r"-?(0x[0-9a-fA-F]+|0|[1-9][0-9]*)", word):
        # Document 01 writes commands as bare hex with a leading zero: taken as decimal they would be other registers.
        raise Bad(f"{word[:LONGEST]}: no number (decimal with no leading zero, or hex behind 0x)")
    if len(word) > LONGEST or abs(int(word, 0)) > LARGEST:
        raise Bad(f"{word[:LONGEST]}: too large, a trace holds {-LARGEST} to {LARGEST}")
    return int(word, 0)


def quarters(word):
    if re.fullmatch(r"-?[0-9][0-9a-fA-Fx]*", word):
        return integer(word)
    if len(word) > LONGEST or not re.fullmatch(r"-?[0-9]+\.[0-9]+", word):
        raise Bad(f"{word[:LONGEST]}: no temperature (degrees with a point, as 85.25, or plain quarters)")
    found = Fraction(word) * 4
    if found.denominator != 1:
        raise Bad(f"{word}: no whole number of quarters")
    return int(found)


def register(sort, word):
    for command, name in TABLE.registers[sort].items():
        if name == word:
            return command
    if re.fullmatch(r"[a-zA-Z].*", word):
        raise Bad(f"{word[:LONGEST]}: no register to {sort} has this name")
    return integer(word)


def field_of(field, word):
    if field.form == "flag":
        if word != field.name:
            raise Bad(f"{word[:LONGEST]}: only '{field.name}' may stand here")
        return field.most
    if field.form in TABLE.registers:
        found = register(field.form, word)
    elif field.form == "whole" and "." in word:
        raise Bad(f"{word[:LONGEST]}: {field.name} is in whole degrees, with no point")
    else:
        found = quarters(word) if field.form == "quarters" else integer(word)
    if not field.least <= found <= field.most:
        degrees = f" quarters, {field.least / 4:.2f} to {field.most / 4:.2f} degrees" if field.form == "quarters" else ""
        raise Bad(f"{word}: {field.name} is {field.least} to {field.most}{degrees}, only '{RAW}' goes beyond")
    return found


def shape(kind, word=None, given=0):
    """A kind as it is written; or by a word that stands for it and its first fields."""
    told = [f"[{f.name}]" if f.form == "flag" else f.name.upper() for f in kind.fields if f.form != "bus"]
    return " ".join([word or kind.word, *told[given:]])


def record(event, behind, address, said):
    """The record of an event's word and first fields, with what stands behind the word that was written."""
    word, *given = event
    if word not in TABLE.words:
        raise Bad(f"{word[:LONGEST]}: no such word")
    kind = TABLE.words[word]
    written = [field for field in kind.fields if field.form != "bus"]
    needed = sum(field.form != "flag" for field in written)
    left = [*given, *behind]
    if not needed <= len(left) <= len(written):
        raise Bad(f"'{shape(kind, said, len(given))}' wanted, {len(behind)} behind '{said}' found")
    found = [address if f.form == "bus" else field_of(f, left.pop(0)) if left else f.least for f in kind.fields]
    return [kind.number, *found, 0, 0, 0][:4]


def records(text, address):
    """The records of a notation, and the line and reason of what is wrong in it."""
    found, wrong = [], []
    if text.startswith(TABLE.lines["record"][0] + "="):
        return found, [(1, "these are records, not the notation; tools/show.py takes both")]
    for place, line in enumerate(text.split("\n"), 1):
        words = line.partition("#")[0].split()
        if not words:
            continue
        word, *rest = words
        try:
            if word in (BUS.name, RAW):
                wanted = 1 if word == BUS.name else len(TABLE.lines["record"])
                if len(rest) != wanted:
                    raise Bad(f"{wanted} behind '{word}' wanted, {len(rest)} found")
                if word == RAW:
                    found.append([integer(one) for one in rest])
                else:
                    address = field_of(BUS, rest[0])
            else:
                events = TABLE.shorts.get(word, [[word]])
                for event, behind in zip(events, [[]] * (len(events) - 1) + [rest]):
                    found.append(record(event, behind, address, word))
        except Bad as bad:
            wrong.append((place, "".join(one if one.isprintable() else "?" for one in str(bad))))    # a terminal obeys the rest
    return found, wrong


def written(found):
    return "".join(f"{name}={number}\n" for numbers in found for name, number in zip(TABLE.lines["record"], numbers))


def help_text():
    shorts = [f"{word} ...   for: {' / '.join(' '.join(event) for event in events)} ..." for word, events in TABLE.shorts.items()]
    names = [f"registers to {sort}: {', '.join(names.values())}" for sort, names in TABLE.registers.items()]
    lines = ["An event to a line, # begins a comment; numbers are decimal or 0x hex, and a register may be named.", ""]
    lines += [f"  {shape(kind)}" for kind in TABLE.kinds.values()] + [f"  {line}" for line in shorts]
    lines += [f"  {RAW} {' '.join(TABLE.lines['record']).upper()}", f"  {BUS.name} N   for the lines behind it", ""]
    lines += [f"{f.name.upper()}: plain quarters, or degrees with a point (85.25)" for f in TABLE.fields.values() if f.form == "quarters"]
    return "\n".join(lines + names)


def main():
    parser = argparse.ArgumentParser(description=__doc__, epilog=help_text(), formatter_class=argparse.RawDescriptionHelpFormatter)
    parser.add_argument("notation", nargs="?", default="-", help="a file; - or none is standard input")
    parser.add_argument("-o", metavar="FILE", dest="out", help="where the records go, instead of standard output")
    parser.add_argument("--address", metavar="N", default=str(USUAL_ADDRESS), help=f"the bus address, {USUAL_ADDRESS} where none is given")
    given = parser.parse_args()
    try:
        address = field_of(BUS, given.address)
    except Bad as bad:
        sys.exit(f"--address {bad}")
    named = "standard input" if given.notation == "-" else given.notation
    try:
        if given.notation == "-":
            data = sys.stdin.buffer.read()
        else:
            with open(given.notation, "rb") as file:
                data = file.read()
    except OSError as error:
        sys.exit(f"{named}: {error.strerror}")
    found, wrong = records(data.decode(errors="replace"), address)
    if wrong:
        sys.exit("\n".join(f"{named}:{place}: {what}" for place, what in wrong))
    if given.out is None:
        say(written(found))
        return
    try:
        if given.notation != "-" and os.path.exists(given.out) and os.path.samefile(given.out, given.notation):
            raise OSError(0, "this is the notation itself")
        put((given.out, written(found).encode()))
    except OSError as error:
        sys.exit(f"{given.out}: {error.strerror}")


if __name__ == "__main__":
    signal.signal(signal.SIGPIPE, signal.SIG_DFL)    # a reader that stops early is no error
    main()
