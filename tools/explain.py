#!/usr/bin/env python3
"""Prints each record of a trace beside its answer, in words. With bad input nothing is printed on standard output."""
import argparse
import re
import signal
import sys

from output import say
from table import USUAL_ADDRESS, Table

TABLE = Table()
RESET = 0              # the kind that puts the pointer back to command 0, and configuration bits to 0
PIN = TABLE.lines["answer"][2]               # pin 6, the first of the chip's lines, which has two roles
ROLE = TABLE.roles[PIN]                      # the register and its bit that give it the other one
THERM2 = TABLE.bits[ROLE[0]][ROLE[1]]        # its name then
LEVELS = ["low", "high"]
NUMBER = "(0|-?[1-9][0-9]{0,4})"


class Bad(Exception):
    """The line where input is bad, and why."""

    def __init__(self, place, what):
        super().__init__(what)
        self.place = place


# ---- reading


def lines_of(data):
    """A text's lines; document 01 ends each by byte 10, the last one too."""
    *lines, rest = data.decode("latin-1").split("\n")
    if rest:
        raise Bad(len(lines) + 1, "the last line has no end")
    return lines


def four_by_four(lines, names):
    """The numbers of records or answers."""
    found = []
    for place, line in enumerate(lines, 1):
        name = names[(place - 1) % len(names)]
        match = re.fullmatch(name + "=" + NUMBER, line)
        if not match:
            returns = ", a line that ends with byte 13 (carriage return) before byte 10" if line.endswith("\r") else ""
            raise Bad(place, f"{name}=NUMBER wanted, {line[:40]!r} found{returns}")
        found.append(int(match[1]))
    if len(found) % len(names):
        raise Bad(len(lines), f"cut short: {names[len(found) % len(names)]}=NUMBER wanted behind this line")
    return [found[at:at + len(names)] for at in range(0, len(found), len(names))]


def records_of(data):
    return four_by_four(lines_of(data), TABLE.lines["record"])


def answers_of(data):
    """The answers, and the ending's code where there is one."""
    lines, ending = lines_of(data), None
    if lines and (match := re.fullmatch(TABLE.ending + "=" + NUMBER, lines[-1])):
        ending = int(match[1])
        if ending not in TABLE.stops:
            raise Bad(len(lines), f"{lines[-1]}: no such code")
        lines.pop()
    names = TABLE.lines["answer"]
    allowed = [TABLE.codes, range(256), range(2), range(2)]
    found = four_by_four(lines, names)
    for at, answer in enumerate(found):
        for row, (name, number) in enumerate(zip(names, answer)):
            if number not in allowed[row]:
                raise Bad(at * len(names) + row + 1, f"{name}={number}: no answer has that")
    return found, ending


# ---- words


def register_of(sort, command):
    """A register in words, and its name."""
    name = TABLE.registers[sort].get(command)
    return (f"{name} ({command:02x})" if name else f"0x{command:02x} (no register)"), name


def byte_of(number, register):
    text = f"{number} = 0x{number:02x}"
    if register not in TABLE.bits:
        return text
    named = TABLE.bits[register]
    found = [named.get(bit, f"bit {bit}") for bit in range(7, -1, -1) if number >> bit & 1]
    return f"{text}: {', '.join(found) or 'no bit set'}"


def is_event(record):
    """Whether document 01 gives the record neither code 1 nor 2."""
    kind = TABLE.kinds.get(record[0])
    if kind is None:
        return False
    used = len(kind.fields)
    return all(f.least <= n <= f.most for f, n in zip(kind.fields, record[1:])) and not any(record[1 + used:])


def event_of(record, refused):
    """An event in words."""
    kind = TABLE.kinds[record[0]]
    behind, bus, register = [], "", None
    for field, number in zip(kind.fields, record[1:]):
        if field.form == "bus":
            # The chip's own address goes without saying, but for a refusal it may be why.
            bus = f" at {number}" if refused or number != USUAL_ADDRESS else ""
        elif field.form in TABLE.registers:
            text, register = register_of(field.form, number)
            behind.append(text)
        elif field.form == "byte":
            behind[-1] += " " + byte_of(number, register)
        elif field.form == "quarters":
            sampled = field.name, f"{number / 4:.2f}"
            behind.append(f"{' '.join(sampled)} ({number} quarters)")
        elif field.form == "flag":
            if number:    # of the diode whose sample stands before it
                behind[-1] = f"{sampled[0]} {field.name} ({sampled[1]} not stored)"
        else:
            behind.append(f"{field.name} {number}")
    return kind.word + bus + (" " if behind else "") + ", ".join(behind)


def reply_of(code, reply, replies, register):
    """What was answered, in words; replies is what the kind replies with."""
    if code == 0 and replies in TABLE.registers:
        return byte_of(reply, register)
    if code == 0 and replies == "own" and reply % 2:
        return f"{byte_of(reply, None)}: {TABLE.bus.name} {reply // 2}"
    said = f"refused, code {code}: {TABLE.codes[code]}" if code else TABLE.codes[code]
    return said + (f", reply {reply}" if reply else "")    # document 01 has 0 here


def lines_said(levels, therm2):
    """The lines of the chip in words: pin 6 has the name of its role."""
    names = [THERM2 if therm2 and name == PIN else name.upper() for name in TABLE.lines["answer"][2:]]
    return ", ".join(f"{name} {LEVELS[level]}" for name, level in zip(names, levels))


def explained(records, answers):
    """A line for each answer. The pointer is followed, so that a reply without a command has its register's name; so is the role of pin 6."""
    found, pointer, therm2, width = [], 0, 0, len(str(len(answers)))
    for place, (record, (code, reply, *levels)) in enumerate(zip(records, answers), 1):
        replies, register = "none", None
        if is_event(record):
            kind = TABLE.kinds[record[0]]
            replies = kind.reply
            told = event_of(record, code != 0)
            commands = [n for f, n in zip(kind.fields, record[1:]) if f.form in TABLE.registers]
            if code == 0:
                pointer = 0 if kind.number == RESET else (commands or [pointer])[0]
                if kind.number == RESET:
                    therm2 = 0
                elif "byte" in [field.form for field in kind.fields] and TABLE.registers[kind.fields[1].form].get(pointer) == ROLE[0]:
                    therm2 = record[3] >> ROLE[1] & 1
                if replies in TABLE.registers:
                    text, register = register_of(replies, pointer)
                    told += "" if commands else f" [{text}]"
        else:
            told = " ".join(f"{name}={number}" for name, number in zip(TABLE.lines["record"], record))
        said = reply_of(code, reply, replies, register)
        found.append(f"{place:>{width}}  {told} -> {said}; {lines_said(levels, therm2)}\n")
    return found


def whole(records, answers, ending, trace):
    """All that is printed."""
    found = explained(records, answers)
    if len(answers) < len(records):
        why = "" if ending is None else f"; {TABLE.ending}={ending}: {TABLE.stops[ending]}"
        line = len(answers) * len(TABLE.lines["record"]) + 1
        found.append(f"stopped at record {len(answers) + 1} of {len(records)}, {trace}:{line}{why}\n")
    return "".join(found)


def read(path):
    if path == "-":
        return sys.stdin.buffer.read()
    with open(path, "rb") as file:
        return file.read()


def main():
    parser = argparse.ArgumentParser(description=__doc__)
    parser.add_argument("trace", help="the records")
    parser.add_argument("answers", help="what the chip answered to them, with or without the small program's last line; - is standard input")
    given = parser.parse_args()
    path = given.trace
    try:
        records = records_of(read(path))
        path = given.answers
        answers, ending = answers_of(read(path))
        rows = len(TABLE.lines["answer"])
        if len(answers) > len(records):
            raise Bad(len(records) * rows + 1, f"{len(answers)} answers, but {given.trace} has {len(records)} records")
        if ending is not None and (ending == 0) != (len(answers) == len(records)):
            raise Bad(len(answers) * rows + 1, f"{TABLE.ending}={ending}, but {len(answers)} of {len(records)} records are answered")
    except OSError as error:
        sys.exit(f"{path}: {error.strerror}")
    except Bad as bad:
        sys.exit(f"{'standard input' if path == '-' else path}:{bad.place}: {bad}")
    say(whole(records, answers, ending, given.trace))


if __name__ == "__main__":
    signal.signal(signal.SIGPIPE, signal.SIG_DFL)    # a reader that stops early is no error
    main()
