#!/usr/bin/env python3
"""Tries tools/wave.py: its VCD is parsed back and held to recorded answers and to flags and degrees worked out by hand. Needs the library, as
examples/run.sh does. The last line is 'N passed, M failed'.
"""
import os
import pty
import re
import shutil
import subprocess
import sys
import tempfile
from pathlib import Path

from checks import check, differs, end

ROOT = Path(__file__).resolve().parent.parent
TRACES = ROOT / "tests" / "traces"

FLAGS = ["local_high", "local_low", "remote_high", "remote_low", "open"]
DEGREES = [f"{channel}_{part}" for channel in ("local", "remote") for part in ("value", "high_limit", "low_limit", "therm_limit")]


def run(*words, **more):
    """Exit code, standard output and standard error."""
    done = subprocess.run([sys.executable, ROOT / "tools" / "wave.py", *words], stdin=subprocess.DEVNULL, capture_output=True, **more)
    return done.returncode, done.stdout.decode(), done.stderr.decode()


def parsed(path):
    """A VCD's signals with sort and width, and each signal's value at each time up to the last one."""
    head, _, body = path.read_text().partition("$enddefinitions $end\n")
    names = {sign: (name, sort, int(width)) for sort, width, sign, name in re.findall(r"\$var (\w+) (\d+) (\S+) (\S+) \$end", head)}
    now, found = {}, []
    for line in body.splitlines():
        if line.startswith("#"):
            while len(found) < int(line[1:]):
                found.append(dict(now))
        elif not line.startswith("$"):
            value, sign = line.split() if line[0] in "br" else (line[0], line[1:])
            name = names[sign][0]
            number = value[1:] if line[0] in "br" else value
            now[name] = None if number in "xz" else float(number) if line[0] == "r" else int(number, 2)
    return {name: (sort, width) for name, sort, width in names.values()}, found, head


def answers(path):
    numbers = [int(number) for number in re.findall(r"=(\d+)", path.read_text())]
    return [tuple(numbers[at:at + 4]) for at in range(0, len(numbers), 4)]


def answered(times):
    return [(one["code"], one["reply"], one["pin_6"], one["THERM"]) for one in times[1:]]


def set_flags(times):
    return [" ".join(name for name in [*FLAGS, "busy"] if one[name]) for one in times]


def is_png(path):
    data = path.read_bytes()
    return data.startswith(b"\x89PNG\r\n\x1a\n") and data.endswith(b"IEND\xaeB`\x82")


# Trace, address, and the flags at power-on and after each event.
RECORDED = [
    ("k11", 76, ["", "busy", "remote_high", "remote_high", "remote_high", "remote_high busy", "remote_high", "", "", "", ""]),
    ("pin6-kind5", 76, ["", "", "busy", *["remote_high"] * 3, "remote_high busy", *["remote_high"] * 2, *[""] * 5]),
    ("standby-high-limit", 76, ["", "busy", "", "", "local_high", "local_high", "local_high", "", "", ""]),
]


def standby(room):
    trace = room / "standby.trace"
    subprocess.run([sys.executable, ROOT / "tools" / "trace.py", ROOT / "examples" / "standby.txt", "-o", trace], check=True)
    done = run(trace)
    drawn = bool(shutil.which("gnuplot"))
    check("the standby case is done, and in a pipe nothing is said", differs(done, (0, "", "")) if drawn else differs(done[0], 3))
    signals, times, head = parsed(room / "standby.vcd")
    wanted = {name: ("wire", 1) for name in ["pin_6", "ALERT", "THERM2", "THERM", *FLAGS, "busy"]} | {name: ("real", 64) for name in [*DEGREES, "hysteresis"]}
    check("its signals", differs(signals, wanted | {"code": ("wire", 8), "reply": ("wire", 8)}))
    check("its head says what it is", [part for part in ("$comment", "standby.trace", "$timescale 1 ns $end", "One unit of time is one event")
                                       if part not in head])
    check("its answers", differs(answered(times), [(0, 0, 1, 1), (0, 0, 1, 1), (0, 0, 1, 1), (0, 0, 0, 1), (0, 16, 0, 1)]))
    check("power-on answers nothing, pin 6 is ALERT, and both lines are high", differs([times[0][name] for name in ("code", "reply", "pin_6", "ALERT", "THERM2", "THERM")], [None, None, 1, 1, None, 1]))
    check("its flags", differs(set_flags(times), ["", "busy", "", "", "remote_high", "remote_high"]))
    check("its degrees", differs([(one["local_value"], one["remote_value"], one["remote_high_limit"]) for one in times],
                                 [(0, 0, 85), (0, 0, 85), (20, 50, 85), (20, 50, 85), (20, 50, 40), (20, 50, 40)]))
    if drawn:
        check("its picture", [] if is_png(room / "standby.png") else ["no PNG"])
        check("nothing else is left", differs(sorted(one.name for one in room.iterdir()), ["standby.png", "standby.trace", "standby.vcd"]))
    shown = ROOT / "docs" / "standby.png"
    check("the picture in docs is a PNG under 100 KB", [] if is_png(shown) and shown.stat().st_size < 100000 else ["it is not"])


def recorded(room):
    for name, address, flags in RECORDED:
        run(TRACES / f"{name}.trace", "--address", str(address), "-o", room / name)
        _, times, _ = parsed(room / f"{name}.vcd")
        check(f"{name}: the recorded answers", differs(answered(times), answers(TRACES / f"{name}.answers")))
        check(f"{name}: flags by hand", differs(set_flags(times), flags))


def notation(room, text, *words):
    """The VCD's times of a notation."""
    source = room / "one.txt"
    source.write_text(text)
    code, _, said = run(source, *words)
    if code not in (0, 3):
        raise RuntimeError(said)
    return parsed(room / "one.vcd")[1]


def by_hand(room):
    # 85 is 21 in the extended range; a value goes on standing as it was stored, and is read 64 lower until the next conversion.
    times = notation(room, "convert 20 50.25\nwrite configuration 4\nconvert -10 -20.5\nwrite remote-high-limit 80\n"
                           "write remote-high-limit-low-byte 0xc0\nwrite configuration 0\nreset")
    have = [(one["local_value"], one["remote_value"], one["local_high_limit"], one["remote_low_limit"], one["local_therm_limit"]) for one in times]
    check("degrees in both ranges", differs(have, [(0, 0, 85, 0, 85)] * 2 + [(20, 50.25, 85, 0, 85)] + [(-44, -13.75, 21, -64, 21)] * 2
                                            + [(-10, -20.5, 21, -64, 21)] * 3 + [(54, 43.5, 85, 0, 85), (0, 0, 85, 0, 85)]))
    check("a remote limit has quarters", differs([one["remote_high_limit"] for one in times], [85] * 3 + [21] * 3 + [16, 16.75, 80.75, 85]))
    # 52, 48 and so on differ from one another, so no limit stands in another's place.
    lines = [("local-high-limit", 52), ("local-low-limit", 3), ("local-therm-limit", 60), ("remote-high-limit", 53), ("remote-low-limit", 4),
             ("remote-therm-limit", 61), ("hysteresis", 7)]
    times = notation(room, "".join(f"write {name} {number}\n" for name, number in lines) + "write remote-low-limit-low-byte 0x40", "--address", "77")
    check("each limit at address 77", differs({name: times[-1][name.replace("-", "_")] for name, _ in lines}, dict(lines) | {"remote-low-limit": 4.25}))
    times = notation(room, "convert -5 -5.0\nconvert -5 -5.0 open\nconvert 100 100.0\nstatus\nconvert 20 20.0\nstatus")
    check("all five flags", differs(set_flags(times), ["", "busy", "local_low remote_low", "local_low remote_low busy", "local_low remote_low open", "local_low remote_low open busy", " ".join(FLAGS),
                                                       "local_high remote_high", "local_high remote_high busy", "local_high remote_high", ""]))
    # 341 is over the high limit: ALERT, then the mark; at 300 the mark is released, and the latch shows again at bit 5 back to 0.
    times = notation(room, "convert 20 85.25\nwrite configuration 0x20\nconvert 20 75.0\nwrite configuration 0\nwrite configuration 0xa0\nreset")
    check("pin 6 has its role's name, and the other is z", differs([(one["pin_6"], one["ALERT"], one["THERM2"]) for one in times],
                                                                    [(1, 1, None), (1, 1, None), (0, 0, None), (0, None, 0), (0, None, 0), (1, None, 1), (0, 0, None), (1, None, 1), (1, 1, None)]))
    check("an empty trace has the power-on state", differs(len(notation(room, "")), 1))


RECORD = "kind=6\na=0\nb=0\nc=0\n"
# Text of a trace, and the message behind the file's name.
BAD = [
    (RECORD + "kind=03\na=76\nb=2\nc=0\n", ":5: kind=NUMBER wanted, 'kind=03' found"),
    (RECORD + "kind=3\na=76\n", ":6: cut short: b=NUMBER wanted behind this line"),
    (RECORD + "kind=3", ":5: the last line has no end"),
    ("start\nconvert 20 85.3\n", ":2: 85.3: no whole number of quarters"),
    (RECORD * 2001, ": 2001 records, at most 2000 are taken: each event replays all before it"),
]


def bad(room):
    for text, wanted in BAD:
        trace = room / "bad.trace"
        trace.write_text(text)
        have = run(trace), sorted(one.name for one in room.iterdir())
        check(f"refused: {wanted}", differs(have, ((1, "", f"{trace}{wanted}\n"), ["bad.trace"])))
    missing = room / "none.trace"
    check("refused: no such file", differs(run(missing), (1, "", f"{missing}: No such file or directory\n")))
    path = room / "none" / "k11"
    check("refused: no such folder", differs(run(TRACES / "k11.trace", "-o", path), (1, "", f"{path}.vcd: No such file or directory\n")))
    folder = room / "taken"
    (folder / "k11.png").mkdir(parents=True)
    have = run(TRACES / "k11.trace", "-o", folder / "k11"), sorted(one.name for one in folder.iterdir())
    if shutil.which("gnuplot"):
        check("where one file cannot be written, neither is", differs(have, ((1, "", f"{folder / 'k11'}.png: not a plain file\n"), ["k11.png"])))
    shutil.rmtree(folder)
    check("refused: a folder for a name", differs(run(TRACES / "k11.trace", "-o", f"{room}/"), (1, "", f"{room}/.vcd: a name is wanted, not a folder\n")))
    check("refused: standard input without a name", differs(run("-")[0], 2))
    check("refused: address 78", differs(run(TRACES / "k11.trace", "--address", "78", "-o", room / "k11")[0], 2))
    check("none of them left a file", differs(sorted(one.name for one in room.iterdir()), ["bad.trace"]))
    # Old files stay as they are where the new ones are not made.
    for ending in "vcd", "png":
        (room / f"bad.{ending}").write_text("old")
    run(room / "bad.trace")
    (room / "own.vcd").write_text(RECORD)
    have = run(room / "own.vcd", "-o", room / "own"), (room / "own.vcd").read_text()
    check("refused: over the trace itself", differs(have, ((1, "", f"{room / 'own.vcd'}: this is the trace itself\n"), RECORD)))
    check("old files stay", differs([(room / f"bad.{ending}").read_text() for ending in ("vcd", "png")], ["old", "old"]))


def without_gnuplot(room):
    """A PATH with all but gnuplot."""
    path = room / "bin"
    path.mkdir()
    for folder in os.environ["PATH"].split(":")[::-1]:
        for one in Path(folder).glob("*") if Path(folder).is_dir() else []:
            if not one.name.startswith("gnuplot"):
                (path / one.name).unlink(missing_ok=True)
                (path / one.name).symlink_to(one)
    code, _, said = run(TRACES / "k11.trace", "-o", room / "k11", env=os.environ | {"PATH": str(path)})
    check("without gnuplot its package is named", [] if code == 3 and "gnuplot-nox" in said else [f"{code} {said}"])
    _, times, _ = parsed(room / "k11.vcd")
    check("without gnuplot the VCD is whole and no picture is left", differs((answered(times), (room / "k11.png").exists()),
                                                                             (answers(TRACES / "k11.answers"), False)))


def told(room, text):
    """What gnuplot is told, by name of the block, and all of it."""
    stub = room / "stub"
    stub.mkdir(exist_ok=True)
    (stub / "gnuplot").write_text(f"#!/bin/sh\ncat >{room}/told\nprintf '\\211PNG'\n")
    (stub / "gnuplot").chmod(0o755)
    source, trace = room / "one.txt", room / "one.trace"
    source.write_text(text)
    subprocess.run([sys.executable, ROOT / "tools" / "trace.py", source, "-o", trace], check=True)
    run(trace, env=os.environ | {"PATH": f"{stub}:{os.environ['PATH']}"})
    script = (room / "told").read_text()
    return {name: [row.split() for row in rows.splitlines()] for name, rows in re.findall(r"\$(\w+) << EOD\n(.*?)EOD\n", script, re.DOTALL)}, script


# Rows of the picture, from the top; a row's place is its number below 0.
ENDED, OPENED, LIMIT, CONFIGURATION, STATUS, RESPONSE, RESET, REFUSED = range(0, -8, -1)


def drawn(room):
    # A read of another register, a write that is no limit and a start have no mark; a receive has one where the status is read.
    text = ("convert 20 85.25\nstatus\nreceive\nread configuration\nreceive\nrespond\nwrite configuration 0x40\nwrite remote-high-limit 90\n"
            "write hysteresis 9\nwrite offset 0\nstart\nend 1 1\nsend status\nreceive\nrespond\nrespond\nreset\nreceive\n")
    blocks, script = told(room, text)
    check("the marks", differs([(int(time), int(row)) for time, row in blocks["marks"]],
                               [(2, ENDED), (3, STATUS), (4, STATUS), (7, RESPONSE), (8, CONFIGURATION), (9, LIMIT), (10, LIMIT), (12, REFUSED), (13, REFUSED),
                                (15, STATUS), (16, RESPONSE), (17, REFUSED), (18, RESET)]))
    # Remote high from event 2 until the status read at 15, ALERT until the response at 16; THERM until the reset, as 85.25 is over 85 - 9.
    spans = {(int(row[1]), float(row[2]), float(row[3])) for row in blocks["bars"]}
    check("the bars", differs(spans, {(0, 2, 16), (-1, 2, 18), (-4, 2, 15), (-7, 1, 2)}))
    check("a value is drawn from the first conversion to the reset", differs([(row[0], row[1]) for row in blocks["degrees"]],
                                                                             [(str(n), "85.25" if 2 <= n <= 18 else "NaN") for n in range(19)] + [(str(n), "NaN") for n in (18, 19, 20)]))
    names = [*"ALERT THERM".split(), "local high", "local low", "remote high", "remote low", "open", "busy"]
    rows = [f"'{name}{' low' if name.isupper() else ''}' {-row}" for row, name in enumerate(names)]
    words = ["'9 write remote-high-limit 90 = 0x5a' 9", "'12 code 4: start' 12", "'power-on' 0"]
    check("rows and events have their names", [text for text in [", ".join(rows), *words, "one.trace, 19 events"] if text not in script])
    # Remote, local, and the remote value that is kept, which begins where the other ends and goes on to the event that stores the next.
    check("no line of a kept value where none is", ["it is there"] if "kept" in script else [])
    blocks, script = told(room, "convert 21 50.0 open\nconvert 22 51.0\nconvert 23 52.0 open\nstart\nend 24 53.0\nreset\nconvert 25 54.0\nconvert 26 55.0 open\n")
    check("an open diode draws the local value, and apart the remote one as it was", differs([" ".join(row[at] for row in blocks["degrees"]) for at in (1, 5, 9)], [
        "NaN NaN NaN NaN 51 51 51 NaN 53 53 NaN NaN 54 54 54 NaN",
        "NaN NaN 21 21 22 22 23 23 24 24 NaN NaN 25 25 26 26",
        "NaN NaN NaN NaN 51 NaN 51 51 53 NaN NaN NaN NaN NaN 54 54",
    ]))
    check("and has a name for it", [] if "title 'kept, diode open'" in script else ["it has none"])
    cut, _ = told(room, "convert 20 50.0\nconvert 21 51.0 open\nreset\n")
    check("a kept value goes on to a reset", differs([(row[0], row[1], row[9]) for row in cut["degrees"]],
                                                    [("0", "NaN", "NaN"), ("1", "NaN", "NaN"), ("2", "50", "NaN"), ("3", "50", "NaN"), ("4", "50", "50"), ("5", "NaN", "50"), ("5", "NaN", "NaN"), ("6", "NaN", "NaN")]))
    check("a conversion that an open diode ended has a mark of its own", differs([(int(time), int(row)) for time, row in blocks["marks"]],
                                                                                 [(2, OPENED), (4, ENDED), (6, OPENED), (8, ENDED), (9, RESET), (11, ENDED), (13, OPENED)]))
    blocks, _ = told(room, "convert 20 85.25")
    spans = {(int(row[1]), float(row[2]), float(row[3])) for row in blocks["bars"]}
    check("bars that hold at the end", differs(spans, {(0, 2, 3), (-1, 2, 3), (-4, 2, 3), (-7, 1, 2)}))
    check("no row for THERM2 where pin 6 is never so", ["it is there"] if "THERM2" in script else [])
    blocks, script = told(room, "convert 20 85.25\nwrite configuration 0x20\nconvert 20 75.0\nwrite configuration 0\n")
    # ALERT from 2 to 3 and at 6; THERM2 from 3 to 5, its role from 3 to 6; THERM from 2 to 5, as 75 is 85 - 10.
    spans = {(int(row[1]), float(row[2]), float(row[3])) for row in blocks["bars"]}
    check("pin 6 has a row for each role", differs(spans, {(0, 2, 3), (0, 6, 7), (-1, 3, 5), (-2, 3, 6), (-3, 2, 5), (-6, 2, 7), (-9, 1, 2), (-9, 4, 5)}))
    # 75 is 85 - 10; of the extended range with a hysteresis over the limit, code 0.
    check("where THERM2 is released", differs([(row[10], row[11]) for row in blocks["degrees"]], [("75", "75")] * 8) or ([] if "title 'THERM2 released at'" in script else ["it has no name"]))
    low, _ = told(room, "write configuration 0x24\nwrite hysteresis 90\nwrite remote-high-limit 91\n")
    check("not under code 0", differs([(row[10], row[11]) for row in low["degrees"]], [("75", "75"), ("11", "11"), ("-64", "-64"), ("-63", "-64"), ("-63", "-64")]))
    check("and their names", [text for text in ("'ALERT low' 0, 'THERM2 low' -1, 'pin 6 is THERM2' -2, 'THERM low' -3", "title 'role of pin 6'") if text not in script])
    blocks, script = told(room, "status\n" * 41)
    check("a longer trace has numbers", differs(("read status" in script, "set xlabel 'event'" in script, len(blocks["marks"])), (False, True, 41)))


def names(room):
    """A trace's name is shown, and is no command to gnuplot and no end of the VCD's comment."""
    trace = room / "it's `touch x` $end \"$(touch y)\".trace"
    trace.write_text(RECORD)
    code, _, said = run(trace, cwd=room)
    _, times, _ = parsed(room / f"{trace.stem}.vcd")
    left = [one.name for one in room.iterdir() if one.name in "xy"]
    check("a strange name", [] if code in (0, 3) and len(times) == 2 and not left and "$end" not in (room / f"{trace.stem}.vcd").read_text().split("\n")[1]
          else [f"{code} {said} {left}"])


def terminal(room):
    trace = room / "long.trace"
    trace.write_text(RECORD * 120)
    ours, theirs = pty.openpty()
    done = subprocess.run([sys.executable, ROOT / "tools" / "wave.py", trace], stdin=subprocess.DEVNULL, stdout=subprocess.PIPE, stderr=theirs)
    os.close(theirs)
    try:
        said = os.read(ours, 65536).decode()
    except OSError:    # nothing was said
        said = ""
    os.close(ours)
    check("a terminal is told how far it is", [] if done.stdout == b"" and "50 of 120 events" in said and "100 of 120 events" in said else [repr(said)])
    check("and a pipe is not", differs(run(trace)[2], "") if shutil.which("gnuplot") else [])


def main():
    for part in standby, recorded, by_hand, bad, without_gnuplot, drawn, names, terminal:
        with tempfile.TemporaryDirectory() as room:
            try:
                part(Path(room))
            except Exception as error:    # the other parts still tell what they find
                check(f"'{part.__name__}' ends", [repr(error)])
    end()


main()
