"""The names that the tools share, read from names.txt, whose head says what an entry looks like."""
import sys
from collections import namedtuple
from pathlib import Path

PATH = Path(__file__).with_name("names.txt")
USUAL_ADDRESS = 76
LARGEST = 99999    # a number in a trace has five digits at most

Field = namedtuple("Field", "name least most form")
Kind = namedtuple("Kind", "number word reply fields")


class Table:
    def __init__(self, path=PATH):
        self.lines, self.ending = {}, ""
        self.fields, self.kinds, self.words, self.shorts = {}, {}, {}, {}
        self.codes, self.stops = {}, {}
        self.registers = {}    # sort: {command: name}
        self.bits = {}         # register's name: {bit: name}
        self.roles = {}        # line of the chip: register's name, bit
        for place, line in enumerate(path.read_text().split("\n"), 1):
            words = line.partition("#")[0].split()
            try:
                if words:
                    self.add(*words)
            except (LookupError, TypeError, ValueError) as error:
                sys.exit(f"{path}:{place}: {error}")

    @property
    def bus(self):
        """The field that has the bus address."""
        return next(field for field in self.fields.values() if field.form == "bus")

    def add(self, sort, first, *rest):
        if sort in ("record", "answer"):
            put(self.lines, sort, [first, *rest])
        elif sort == "ending":
            self.ending = first
        elif sort == "field":
            least, most, form = rest
            put(self.fields, first, Field(first, int(least, 0), int(most, 0), form))
        elif sort == "kind":
            word, reply, *fields = rest
            kind = Kind(int(first, 0), word, reply, [self.fields[name] for name in fields])
            put(self.kinds, kind.number, kind)
            put(self.words, word, kind)
        elif sort == "short":
            put(self.shorts, first, [event.split() for event in " ".join(rest).split("/")])
        elif sort in ("code", "stop"):
            put(self.codes if sort == "code" else self.stops, int(first, 0), " ".join(rest))
        elif sort == "register":
            command, name = rest
            put(self.registers.setdefault(first, {}), int(command, 0), name)
        elif sort == "bit":
            put(self.bits.setdefault(first, {}), int(rest[0], 0), " ".join(rest[1:]))
        elif sort == "role":
            register, number = rest
            if first not in self.lines["answer"][2:]:
                raise ValueError(f"no line: {first}")
            self.bits[register][int(number, 0)]    # it has a name
            put(self.roles, first, (register, int(number, 0)))
        else:
            raise ValueError(f"no such sort: {sort}")


def put(entries, key, value):
    if key in entries:
        raise ValueError(f"{key} stands twice")
    entries[key] = value
