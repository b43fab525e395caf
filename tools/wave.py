#!/usr/bin/env python3
"""Turns a trace, as records or in the short notation, into waves: NAME.vcd, which GTKWave opens, and NAME.png, a picture of the run. Time is
the number of the event.

All that is shown comes from the C library, asked after each event (tools/probe.c). Degrees are the registers read in the range that the
configuration has at that event: a value stored before a change of range is so read off by 64 until a conversion stores the next one, as a driver reads
it and as the chip compares it. Exit code 1: nothing was written. 3: gnuplot is missing, only the VCD was written.
"""
import argparse
import os
import re
import shutil
import subprocess
import sys
from collections import namedtuple
from pathlib import Path

import explain
import show
from output import put
from table import USUAL_ADDRESS

TABLE = explain.TABLE
WRITE, READ, RESPOND, END = 2, 3, 5, 7                 # kinds
REGISTERS = TABLE.registers[TABLE.kinds[READ].reply]    # names of what is read, by command
LOCAL, REMOTE, STATUS, CONFIGURATION, HYSTERESIS = 0x00, 0x01, 0x02, 0x03, 0x21
# Each channel's value, high, low and THERM limit, with the command of the low byte where there is one.
CHANNELS = [{0x01: 0x10, 0x07: 0x13, 0x08: 0x14, 0x19: None}, {0x00: None, 0x05: None, 0x06: None, 0x20: None}]
DEGREES = CHANNELS[0] | CHANNELS[1]
VALUES = [next(iter(channel)) for channel in CHANNELS]
HIGH = [list(channel)[1] for channel in CHANNELS]
ASKED = [STATUS, CONFIGURATION, HYSTERESIS, *DEGREES, *filter(None, DEGREES.values())]
TO_CONFIGURATION = 0x09
TO_LIMITS = [0x0B, 0x0C, 0x0D, 0x0E, 0x13, 0x14, 0x19, 0x20, 0x21]    # the writes that compare in standby
FLAGS = TABLE.bits[REGISTERS[STATUS]]
BUSY, LATCHED = 7, range(6, 1, -1)    # of the status; the latter are set by a comparison and cleared by a status read
EXTENDED = 2         # of the configuration
SHIFT = 64           # degrees by which the extended range is shifted
MOST = 2000          # records; each event replays all before it
WORDY = 40           # up to so many events the picture has each in words
LONGEST = 42         # characters of an event in words
PIN, THERM2 = "pin 6", explain.THERM2
MARKS = ["conversion ended", "ended, diode open", "limit write", "configuration write", "status read", "alert response", "power-on reset", "refused"]

# After an event: its answer, then registers and degrees by command.
Shown = namedtuple("Shown", "code reply alert therm registers degrees")


class Failed(Exception):
    """Why there are no waves."""


def as_therm2(one):
    """Whether pin 6 is THERM2."""
    return one.registers[CONFIGURATION] >> explain.ROLE[1] & 1


# ---- asking the library


def shown_of(line):
    code, reply, alert, therm, *bytes_read = map(int, line.split())
    found = dict(zip(ASKED, bytes_read, strict=True))
    shift = SHIFT * (found[CONFIGURATION] >> EXTENDED & 1)
    degrees = {command: found[command] + found.get(low, 0) / 256 - shift for command, low in DEGREES.items()}
    return Shown(code, reply, alert, therm, found, degrees)


def probe(data, address, count):
    """What is shown at power-on and after each event."""
    words = [Path(__file__).with_name("probe.sh"), str(address), *map(str, ASKED)]
    found, told = [], sys.stderr.isatty()
    with subprocess.Popen(words, stdin=subprocess.PIPE, stdout=subprocess.PIPE) as program:
        try:
            program.stdin.write(data)
            program.stdin.close()
        except BrokenPipeError:
            pass    # it has ended, and its code says why
        for line in program.stdout:
            found.append(shown_of(line))
            if told and len(found) % 50 == 0:
                print(f"\r{len(found)} of {count} events", end="", file=sys.stderr, flush=True)
    if told:
        print("\r\033[K", end="", file=sys.stderr, flush=True)
    if program.returncode or len(found) != count + 1:
        raise Failed(f"tools/probe.sh ended with code {program.returncode} behind {len(found)} of {count + 1} lines")
    return found


# ---- the VCD


def signals():
    """Type, width, name, and what gives the value of what is shown, in the order in which they stand in the VCD."""
    def bit(number):
        return lambda shown: str(shown.registers[STATUS] >> number & 1)

    def line(name):
        return lambda shown: str(getattr(shown, name))

    def pin_as(role):
        return lambda shown: str(shown.alert) if as_therm2(shown) == role else "z"

    def byte(name):
        return lambda shown: "b%s " % format(getattr(shown, name), "08b")

    def degrees(command):
        return lambda shown: f"r{shown.degrees[command]:.16g} "

    *numbers, alert, therm = TABLE.lines["answer"]
    found = [("wire", 1, PIN, line(alert)), ("wire", 1, alert.upper(), pin_as(0)), ("wire", 1, THERM2, pin_as(1)), ("wire", 1, therm.upper(), line(therm))]
    found += [("wire", 1, FLAGS[number], bit(number)) for number in [*LATCHED, BUSY]]
    found += [("real", 64, REGISTERS[command], degrees(command)) for command in DEGREES]
    found += [("real", 64, REGISTERS[HYSTERESIS], lambda shown: f"r{shown.registers[HYSTERESIS]} ")]
    return found + [("wire", 8, name, byte(name)) for name in numbers]


def vcd(shown, named):
    named = named.replace("$", "?")    # $end in a name would end the comment
    found = ["$comment", f"  A run of the ADT7461 model, from {named}: what the library answers and shows.",
             "  One unit of time is one event: at n stands what holds after event n, at 0 the power-on state. No duration is meant.",
             "  Lines: 1 is high. Pin 6 is ALERT, or THERM2 while configuration bit 5 is set; the one that it is not is z.",
             "  Degrees are the registers read in the range that the configuration has then.",
             "$end", "$timescale 1 ns $end", "$scope module adt7461 $end"]
    listed = [(chr(ord("A") + at), *signal) for at, signal in enumerate(signals())]
    for sign, sort, width, name, _ in listed:
        found.append(f"$var {sort} {width} {sign} {name.replace(' ', '_').replace('-', '_')} $end")
    found += ["$upscope $end", "$enddefinitions $end"]
    last = {}
    for time, one in enumerate(shown):
        lines = []
        for sign, _, _, name, value in listed:
            # There is no event at 0, so nothing is answered there.
            text = "bx " if time == 0 and name in TABLE.lines["answer"] else value(one)
            if last.get(sign) != text:
                lines.append(text + sign)
            last[sign] = text
        found += [f"#{time}", "$dumpvars", *lines, "$end"] if time == 0 else [f"#{time}", *lines] if lines else []
    found.append(f"#{len(shown)}")    # so that the last event is seen to last
    return "\n".join(found) + "\n"


# ---- the picture


def marks_of(records, shown):
    """Event and mark of those that touch what is shown, and of those that were refused. The pointer is followed, for a receive may read the status."""
    found, pointer = [], 0
    for time, (record, one) in enumerate(zip(records, shown[1:]), 1):
        if one.code:
            found.append((time, "refused"))
            continue
        kind = TABLE.kinds[record[0]]
        commands = [number for field, number in zip(kind.fields, record[1:]) if field.form in TABLE.registers]
        pointer = 0 if kind.number == explain.RESET else (commands or [pointer])[0]
        if kind.number == explain.RESET:
            found.append((time, "power-on reset"))
        elif kind.number == END:
            found.append((time, "ended, diode open" if record[3] else "conversion ended"))
        elif kind.number == RESPOND:
            found.append((time, "alert response"))
        elif kind.number == WRITE and pointer == TO_CONFIGURATION:
            found.append((time, "configuration write"))
        elif kind.number == WRITE and pointer in TO_LIMITS:
            found.append((time, "limit write"))
        elif kind.reply in TABLE.registers and pointer == STATUS:
            found.append((time, "status read"))
    return found


def spans(held):
    """From where to where a list of truths holds."""
    found, start = [], None
    for time, one in enumerate([*held, False]):
        if one and start is None:
            start = time
        elif not one and start is not None:
            found.append((start, time))
            start = None
    return found


def quoted(text):
    """For gnuplot; between these quotes it runs no command and replaces nothing."""
    return "'" + "".join(one if one.isprintable() else "?" for one in text).replace("'", "''") + "'"


def block(name, rows):
    return [f"${name} << EOD", *(" ".join(map(str, row)) for row in rows or [("NaN",) * 8]), "EOD"]


def words_of(record, code):
    """An event in few words: without what is said twice."""
    text = explain.event_of(record, code != 0) if explain.is_event(record) else "raw " + " ".join(map(str, record))
    text = re.sub(r" \([^)]*\)", "", text)
    return f"code {code}: {text}" if code else text


def shortened(text):
    return text if len(text) <= LONGEST else text[:LONGEST - 2] + ".."


def picture(records, shown, named):
    """What gnuplot is told."""
    count = len(records)
    wordy = count <= WORDY
    marks = marks_of(records, shown)
    width, foot = 1200, 260 if wordy else 60
    panels = [230, 230, 190, 170]
    gap, head = 22, 50
    height = head + sum(panels) + gap * (len(panels) - 1) + foot
    # The values that some conversion stored, and whether an open diode held the remote one back in the latest.
    measured, away, had, held = [], [], set(), False
    for time in range(count + 1):
        if time and not shown[time].code:
            kind, _, _, c = records[time - 1]
            if kind == END:
                had, held = (had | {LOCAL}, True) if c else (set(VALUES), False)
            elif kind == explain.RESET:
                had, held = set(), False
        measured.append(had)
        away.append(held)

    def row_of(time, at, before):
        """What is drawn at a time of the state after event `at`; before is whether the remote value was held back until then."""
        one = shown[at]
        # Before a channel's first conversion its value register has 0, which nobody measured.
        row = {command: "NaN" if command in VALUES and command not in measured[at] else f"{one.degrees[command]:g}" for command in DEGREES}
        # A remote value that was kept has a line of its own, up to the event that stores another; the other goes on to where it begins.
        kept = row[REMOTE] if away[at] or before else "NaN"
        if away[at] and before:
            row[REMOTE] = "NaN"
        # Where THERM2 lets go: the high limit less the hysteresis, not under code 0.
        least = -SHIFT * (one.registers[CONFIGURATION] >> EXTENDED & 1)
        release = [f"{max(one.degrees[high] - one.registers[HYSTERESIS], least):g}" for high in HIGH]
        return (time, *row.values(), kept, *release)

    rows = []
    for time in range(count + 2):
        at = min(time, count)    # the last event's state goes on for one unit
        if 0 < time <= count and measured[at - 1] and not measured[at]:
            rows.append(row_of(time, at - 1, away[at - 1]))    # a reset: what was stored goes on to it
        rows.append(row_of(time, at, away[at - 1] if 0 < time <= count else away[at]))
    # Pin 6 by its role; what stands for THERM2 is left out where no event has it so.
    alert, therm = TABLE.lines["answer"][2:]
    roles = [as_therm2(one) for one in shown]
    bars = [(f"{alert.upper()} low", [not one.alert and not role for one, role in zip(shown, roles)], 2)]
    if any(roles):
        bars += [(f"{THERM2} low", [not one.alert and role for one, role in zip(shown, roles)], 2), (f"{PIN} is {THERM2}", roles, 3)]
    bars += [(f"{therm.upper()} low", [not one.therm for one in shown], 2)]
    bars += [(FLAGS[bit], [one.registers[STATUS] >> bit & 1 for one in shown], 0 if bit == BUSY else 1) for bit in [*LATCHED, BUSY]]
    boxes = [(f"{(low + high) / 2} {-row} {low} {high} {-row - 0.36} {-row + 0.36}", colour)
             for row, (_, held, colour) in enumerate(bars) for low, high in spans(held)]

    told = ["set encoding utf8", f"set terminal pngcairo noenhanced size {width},{height} font 'sans,10' background '#ffffff'"]
    told += block("degrees", rows) + block("bars", boxes) + block("marks", [(time, -MARKS.index(mark)) for time, mark in marks])
    step = next(step for step in (1, 2, 5, 10, 20, 50, 100, 200) if count <= 15 * step)
    told += [f"set multiplot title {quoted(f'ADT7461 model: {named}, {count} events')} font 'sans,13'",
             "set lmargin at screen 0.155", "set rmargin at screen 0.83", f"set xrange [0:{count + 1}]",
             "set border 3 lc rgb '#808080'", "set tics nomirror out textcolor rgb '#000000'",
             f"set xtics {step} format ''", "set grid xtics ytics lc rgb '#e4e4e4' lt 1 lw 1", "set style fill solid 1.0 noborder"]
    if wordy:
        told += [f"set arrow from first {time}, graph 0 to first {time}, graph 1 nohead lc rgb '#909090' dt 3 back" for time, _ in marks]

    top = head
    for at, panel in enumerate(panels):
        told += [f"set tmargin at screen {1 - top / height:.5f}", f"set bmargin at screen {1 - (top + panel) / height:.5f}",
                 f"set key at screen 0.84, {1 - (top + panel / 2) / height:.5f} left center Left reverse samplen 2 spacing 1.25"]
        top += panel + gap
        if at < len(CHANNELS):
            value, high, low, therm = CHANNELS[at]
            drawn = [(therm, "lc rgb '#e8b0b0' lw 6 dt 1"), (high, "lc rgb '#c02020' lw 2 dt 2"), (low, "lc rgb '#2060c0' lw 2 dt 2"),
                     (value, "lc rgb '#000000' lw 2.5 dt 1")]
            column = {command: place for place, command in enumerate(DEGREES, 2)}
            numbers = [float(row[column[command] - 1]) for row in rows for command in CHANNELS[at] if row[column[command] - 1] != "NaN"]
            lines = [(column[command], style, REGISTERS[command]) for command, style in drawn]
            kept = [float(row[len(DEGREES) + 1]) for row in rows if row[len(DEGREES) + 1] != "NaN"]
            if value == REMOTE and kept:
                lines.append((len(DEGREES) + 2, "lc rgb '#808080' lw 2.5 dt 3", "kept, diode open"))
                numbers += kept
            if any(roles):
                lines.append((len(DEGREES) + 3 + at, "lc rgb '#c02020' lw 1 dt 3", f"{THERM2} released at"))
                numbers += [float(row[len(DEGREES) + 2 + at]) for row in rows]
            told += [f"set yrange [{min(numbers) - 8}:{max(numbers) + 8}]", f"set ylabel '{REGISTERS[value].split('-')[0]}, °C' offset screen -0.02,0",
                     "plot " + ", ".join(f"$degrees using 1:{place} with steps {style} title {quoted(name)}" for place, style, name in lines)]
        elif at == len(CHANNELS):
            tics = ", ".join(f"{quoted(name)} {-row}" for row, (name, _, _) in enumerate(bars))
            sorts = [(2, "#c02020", "line low"), (1, "#e08000", "flag set"), (0, "#8090a0", FLAGS[BUSY])] + [(3, "#60a080", f"role of {PIN}")] * any(roles)
            told += ["unset ylabel", f"set yrange [{-len(bars) + 0.5}:0.5]", f"set ytics ({tics})",
                     "plot " + ", ".join(f"$bars using ($7 == {sort} ? $1 : NaN):2:3:4:5:6 with boxxyerror fc rgb '{colour}' title '{name}'"
                                         for sort, colour, name in sorts)]
        else:
            tics = ", ".join(f"{quoted(name)} {-row}" for row, name in enumerate(MARKS))
            if wordy:
                words = [shortened(f"{time} {words_of(record, shown[time].code)}") for time, record in enumerate(records, 1)]
                named_tics = ["'power-on' 0", *(f"{quoted(text)} {time}" for time, text in enumerate(words, 1))]
                told += [f"set xtics rotate by {-35 if count <= 20 else -60} left ({', '.join(named_tics)})"]
            else:
                told += ["set xlabel 'event'", f"set xtics {step} format '%g'"]
            told += [f"set yrange [{-len(MARKS) + 0.5}:0.5]", f"set ytics ({tics})",
                     # Dots of a long trace would run into one another.
                     "plot $marks using 1:2 with points pt 7 ps 1.3 lc rgb '#205080' notitle" if wordy else
                     "plot $marks using 1:($2 - 0.3):(0):(0.6) with vectors nohead lw 1 lc rgb '#205080' notitle"]
    return "\n".join([*told, "unset multiplot", ""])


def draw(script):
    done = subprocess.run(["gnuplot", "-d"], input=script.encode(), capture_output=True)
    if done.returncode or not done.stdout.startswith(b"\x89PNG"):
        raise Failed(f"gnuplot: {done.stderr.decode(errors='replace').strip()[:2000] or 'no picture'}")
    return done.stdout


# ---- the command


def save(files, trace):
    try:
        for path, _ in files:
            if not os.path.basename(path).partition(".")[0]:
                raise OSError(0, "a name is wanted, not a folder", path)
            if trace != "-" and os.path.exists(path) and os.path.samefile(path, trace):
                raise OSError(0, "this is the trace itself", path)
        put(*files)
    except OSError as error:
        raise Failed(f"{error.filename}: {error.strerror}") from error


def waves(trace, address, name):
    named = "standard input" if trace == "-" else trace
    data = show.trace_of(explain.read(trace), address, named)
    records = explain.records_of(data)
    if len(records) > MOST:
        raise Failed(f"{named}: {len(records)} records, at most {MOST} are taken: each event replays all before it")
    named = "".join(one if one.isprintable() else "?" for one in os.path.basename(named))
    shown = probe(data, address, len(records))
    text = vcd(shown, named).encode()
    image = draw(picture(records, shown, named)) if shutil.which("gnuplot") else None
    files = [(name + ".vcd", text)] + [(name + ".png", image)] * (image is not None)
    save(files, trace)
    if image is None:
        print(f"gnuplot is missing (Debian's package gnuplot-nox): {name}.vcd is written, {name}.png is not drawn", file=sys.stderr)
        return 3
    return 0


def main():
    parser = argparse.ArgumentParser(description=__doc__, formatter_class=argparse.RawDescriptionHelpFormatter)
    parser.add_argument("trace", help=f"at most {MOST} records; - is standard input, with -o; tools/trace.py --help has the notation")
    parser.add_argument("--address", type=int, choices=[76, 77], default=USUAL_ADDRESS, help=f"the chip's bus address, {USUAL_ADDRESS} where none is given")
    parser.add_argument("-o", metavar="NAME", dest="name", help="NAME.vcd and NAME.png are written; where none is given, the trace's path without its ending")
    given = parser.parse_args()
    if given.trace == "-" and given.name is None:
        parser.error("standard input has no name: -o NAME is wanted")
    try:
        return waves(given.trace, given.address, given.name or given.trace.removesuffix(".trace").removesuffix(".txt"))
    except explain.Bad as bad:
        said = f"{given.trace}:{bad.place}: {bad}"
    except OSError as error:
        said = f"{error.filename or given.trace}: {error.strerror or error}"
    except (Failed, show.Failed) as failed:
        said = str(failed)
    except KeyboardInterrupt:
        return 130
    print(said, file=sys.stderr)
    return 1


if __name__ == "__main__":
    sys.exit(main())
