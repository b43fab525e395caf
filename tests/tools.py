#!/usr/bin/env python3
"""Tries tools/trace.py and tools/explain.py, on bad input too. The last line is 'N passed, M failed'.

Records, answers and words that are wanted stand here as plain text, not made from the tools' table.
"""
import ast
import re
import subprocess
import sys
import tempfile
from pathlib import Path

from checks import check, differs, end

ROOT = Path(__file__).resolve().parent.parent
TRACES = ROOT / "tests" / "traces"


def run(tool, *words, given=b""):
    """Exit code, standard output and standard error."""
    done = subprocess.run([sys.executable, ROOT / "tools" / tool, *words], input=given, capture_output=True)
    return done.returncode, done.stdout.decode(), done.stderr.decode()


def record(*numbers):
    return "kind=%d\na=%d\nb=%d\nc=%d\n" % numbers


def answer(*numbers):
    return "code=%d\nreply=%d\nalert=%d\ntherm=%d\n" % numbers


# ---- notation to records

# Lines, and the records they must give.
WRITTEN = [
    ("reset", [(0, 0, 0, 0)]),
    ("send status", [(1, 76, 2, 0)]),
    ("send 0xff", [(1, 76, 255, 0)]),
    ("write configuration 0x40", [(2, 76, 9, 64)]),
    ("write 255 0", [(2, 76, 255, 0)]),
    ("read configuration", [(3, 76, 3, 0)]),
    ("read 16", [(3, 76, 16, 0)]),
    ("receive", [(4, 76, 0, 0)]),
    ("respond", [(5, 0, 0, 0)]),
    ("start", [(6, 0, 0, 0)]),
    ("end 20 341", [(7, 20, 341, 0)]),
    ("end 20 85.25 open", [(7, 20, 341, 1)]),
    ("end -8192 -8192.0", [(7, -8192, -32768, 0)]),
    ("end 8191 8191.75", [(7, 8191, 32767, 0)]),
    ("end -1 -0.25", [(7, -1, -1, 0)]),
    ("end -0 -0.0", [(7, 0, 0, 0)]),
    ("convert 20 50.0", [(6, 0, 0, 0), (7, 20, 200, 0)]),
    ("convert 20 50.500 open", [(6, 0, 0, 0), (7, 20, 202, 1)]),
    ("status", [(3, 76, 2, 0)]),
    ("raw -99999 99999 256 -0x1", [(-99999, 99999, 256, -1)]),
    ("address 77\nreceive\naddress 76\nreceive", [(4, 77, 0, 0), (4, 76, 0, 0)]),
    ("address 0\nstatus\nstart\naddress 127\nwrite one-shot 0", [(3, 0, 2, 0), (6, 0, 0, 0), (2, 127, 15, 0)]),
    ("# nothing\n\n   \t\nstart# here\r\n#", [(6, 0, 0, 0)]),
    ("", []),
]

# Document 01's registers, and what the table must call them.
READ = {0x00: "local-value", 0x01: "remote-value", 0x02: "status", 0x03: "configuration", 0x04: "conversion-rate", 0x05: "local-high-limit",
        0x06: "local-low-limit", 0x07: "remote-high-limit", 0x08: "remote-low-limit", 0x10: "remote-value-low-byte", 0xFE: "maker", 0xFF: "revision"}
WRITE = {0x09: "configuration", 0x0A: "conversion-rate", 0x0B: "local-high-limit", 0x0C: "local-low-limit", 0x0D: "remote-high-limit",
         0x0E: "remote-low-limit", 0x0F: "one-shot"}
BOTH = {0x11: "offset", 0x12: "offset-low-byte", 0x13: "remote-high-limit-low-byte", 0x14: "remote-low-limit-low-byte",
        0x19: "remote-therm-limit", 0x20: "local-therm-limit", 0x21: "hysteresis", 0x22: "consecutive-alert"}

# Lines that are refused, and a part of the message.
REFUSED = [
    ("frobnicate", "frobnicate: no such word"),
    ("Reset", "Reset: no such word"),
    ("raw 0 0 0 100000", "100000: too large"),
    ("raw 0 0 0 -100000", "-100000: too large"),
    ("raw 0 0 0 0x186a0", "0x186a0: too large"),
    ("raw 0 0 0 " + "9" * 5000, "too large"),
    ("raw 0 0 0", "4 behind 'raw' wanted, 3 found"),
    ("raw 0 0 0 0 0", "4 behind 'raw' wanted, 5 found"),
    ("raw 0 0 0 1.0", "1.0: no number"),
    ("write configuration", "1 behind 'write' found"),
    ("write", "0 behind 'write' found"),
    ("write configuration 256", "256: data is 0 to 255"),
    ("write configuration -1", "-1: data is 0 to 255"),
    ("write configuration +1", "+1: no number"),
    ("write status 0", "status: no register to write"),
    ("write 09 0", "09: no number"),
    ("read one-shot", "one-shot: no register to read"),
    ("read 256", "256: command is 0 to 255"),
    ("read 0D", "0D: no number"),
    ("read", "0 behind 'read' found"),
    ("send one-shot", "one-shot: no register to read"),
    ("receive 2", "1 behind 'receive' found"),
    ("reset 0", "1 behind 'reset' found"),
    ("status 2", "'status' wanted, 1 behind 'status' found"),
    ("end 20", "1 behind 'end' found"),
    ("end 20 20 shut", "shut: only 'open'"),
    ("end 20 20 1", "1: only 'open'"),
    ("end 20 20 open open", "'end LOCAL REMOTE [open]' wanted, 4 behind 'end' found"),
    ("convert 20 20 open open", "'convert LOCAL REMOTE [open]' wanted, 4 behind 'convert' found"),
    ("end 20.0 20", "20.0: local is in whole degrees"),
    ("end 20 open", "open: no temperature (degrees with a point"),
    ("end 20 nan open", "nan: no temperature"),
    ("end 20 50,0", "50,0: no temperature"),
    ("end 20 07", "07: no number"),
    ("end 8192 20", "8192: local is"),
    ("end -8193 20", "-8193: local is"),
    ("end 20 32768", "32768: remote is"),
    ("end 20 8192.0", "8192.0: remote is -32768 to 32767 quarters, -8192.00 to 8191.75 degrees, only"),
    ("end 20 -8192.25", "-8192.25: remote is"),
    ("end 20 20.3", "20.3: no whole number of quarters"),
    ("end 20 .25", ".25: no temperature"),
    ("end 20 1." + "0" * 5000, "no temperature"),
    ("convert 20", "1 behind 'convert' found"),
    ("address 128", "128: address is 0 to 127"),
    ("address", "1 behind 'address' wanted, 0 found"),
    ("read \xff", "no number"),
]


def notation(room):
    wrong = []
    for text, want in WRITTEN:
        wrong += differs((text, *run("trace.py", given=text.encode())), (text, 0, "".join(record(*r) for r in want), ""))
    check("lines give their records", wrong)

    text = "".join(f"read {name}\nsend {name}\n" for name in (READ | BOTH).values()) + "".join(f"write {name} 1\n" for name in (WRITE | BOTH).values())
    want = "".join(record(3, 76, n, 0) + record(1, 76, n, 0) for n in READ | BOTH) + "".join(record(2, 76, n, 1) for n in WRITE | BOTH)
    check("each register has its name", differs(run("trace.py", given=text.encode()), (0, want, "")))

    want = record(4, 77, 0, 0)
    check("--address is taken", differs(run("trace.py", "--address", "77", given=b"receive"), (0, want, "")))
    code, out, said = run("trace.py", "--address", "128", given=b"receive")
    check("a bad --address is refused", differs((code, out, "128: address is 0 to 127" in said), (1, "", True)))

    wrong, source, target = [], room / "bad.txt", room / "bad.trace"
    for line, part in REFUSED:
        source.write_text(f"start\n# next is bad\n{line}\nstart\n", encoding="latin-1")
        code, out, said = run("trace.py", source, "-o", target)
        if (code, out) != (1, "") or not said.startswith(f"{source}:3: ") or part not in said or said.count("\n") != 1:
            wrong.append(f"{line[:60]}: {code} {out!r} {said[:200]!r}")
        if [path.name for path in room.iterdir()] != ["bad.txt"]:
            wrong.append(f"{line[:60]}: it leaves {sorted(path.name for path in room.iterdir())}")
    check(f"{len(REFUSED)} bad lines are refused by file and line, and no file appears", wrong)

    code, out, said = run("trace.py", given=b"start\nfrobnicate\n")
    check("records in the notation's place", differs(run("trace.py", TRACES / "k11.trace"),
                                                     (1, "", f"{TRACES / 'k11.trace'}:1: these are records, not the notation; tools/show.py takes both\n")))
    check("nothing of a bad notation reaches standard output", differs((code, out, said), (1, "", "standard input:2: frobnicate: no such word\n")))

    target.write_text("as it was")
    run("trace.py", source, "-o", target)
    check("a bad notation leaves an older file as it was", differs(target.read_text(), "as it was"))
    source.write_text("start\n")
    done = run("trace.py", source, "-o", target)
    check("-o writes the records, and nothing beside them",
          differs((done, target.read_text(), len(list(room.iterdir()))), ((0, "", ""), record(6, 0, 0, 0), 2)))
    code, out, said = run("trace.py", source, "-o", source)
    check("a notation is not written over by its records", differs((code, out, source.read_text()), (1, "", "start\n")))
    wrong = []
    for words in [source, "-o", room], [source, "-o", room / "none" / "x"], [room / "none"]:
        code, out, said = run("trace.py", *words)
        if (code, out) != (1, "") or said.count("\n") != 1:
            wrong.append(f"{words}: {code} {out!r} {said!r}")
    check("files that cannot be read or written are refused in one line", wrong)


# ---- records and answers to words

# The standby case of document 01 (K12), worked out by hand: remote 200 quarters is over 4 * 40.
STANDBY = """\
1  start -> done; ALERT high, THERM high
2  end local 20, remote 50.00 (200 quarters) -> done; ALERT high, THERM high
3  write configuration (09) 64 = 0x40: standby -> done; ALERT high, THERM high
4  write remote-high-limit (0d) 40 = 0x28 -> done; ALERT low, THERM high
5  read status (02) -> 16 = 0x10: remote high; ALERT low, THERM high
"""
STANDBY_ANSWERS = [(0, 0, 1, 1), (0, 0, 1, 1), (0, 0, 1, 1), (0, 0, 0, 1), (0, 16, 0, 1)]

# A line of notation, its answer, and the words wanted, in one sequence.
EXPLAINED = [
    ("receive", (0, 0, 1, 1), "receive [local-value (00)] -> 0 = 0x00; ALERT high, THERM high"),
    ("send status", (0, 0, 1, 1), "send status (02) -> done; ALERT high, THERM high"),
    ("receive", (0, 255, 0, 0), "receive [status (02)] -> 255 = 0xff: busy, local high, local low, remote high, remote low, open, remote THERM, local THERM;"
                                " ALERT low, THERM low"),
    ("read 0x30", (0, 0, 1, 0), "read 0x30 (no register) -> 0 = 0x00; ALERT high, THERM low"),
    ("write 0x30 7", (0, 0, 1, 1), "write 0x30 (no register) 7 = 0x07 -> done; ALERT high, THERM high"),
    ("raw 3 77 2 0", (3, 0, 1, 1), "read at 77 status (02) -> refused, code 3: not acknowledged; ALERT high, THERM high"),
    ("receive", (0, 0, 1, 1), "receive [0x30 (no register)] -> 0 = 0x00; ALERT high, THERM high"),
    ("write configuration 0xff", (0, 0, 1, 1), "write configuration (09) 255 = 0xff: ALERT masked, standby, THERM2, bit 4, bit 3, extended range, bit 1, bit 0"
                                               " -> done; THERM2 high, THERM high"),
    ("read configuration", (0, 228, 0, 1), "read configuration (03) -> 228 = 0xe4: ALERT masked, standby, THERM2, extended range; THERM2 low, THERM high"),
    ("start", (4, 0, 1, 0), "start -> refused, code 4: no start now; THERM2 high, THERM low"),
    ("raw 2 77 9 0", (3, 0, 0, 1), "write at 77 configuration (09) 0 = 0x00: no bit set -> refused, code 3: not acknowledged; THERM2 low, THERM high"),
    ("write configuration 0x5f", (0, 0, 0, 1), "write configuration (09) 95 = 0x5f: standby, bit 4, bit 3, extended range, bit 1, bit 0 -> done; ALERT low, THERM high"),
    ("end -3 -0.25 open", (5, 0, 1, 1), "end local -3, remote open (-0.25 not stored) -> refused, code 5: nothing to end; ALERT high, THERM high"),
    ("write offset 0x20", (0, 0, 1, 1), "write offset (11) 32 = 0x20 -> done; ALERT high, THERM high"),
    ("write configuration 0x20", (0, 0, 1, 1), "write configuration (09) 32 = 0x20: THERM2 -> done; THERM2 high, THERM high"),
    ("raw 8 1 2 3", (1, 0, 1, 1), "kind=8 a=1 b=2 c=3 -> refused, code 1: no such kind; THERM2 high, THERM high"),
    ("raw 3 76 256 0", (2, 0, 1, 1), "kind=3 a=76 b=256 c=0 -> refused, code 2: a field out of range; THERM2 high, THERM high"),
    ("raw 6 0 0 1", (2, 0, 1, 1), "kind=6 a=0 b=0 c=1 -> refused, code 2: a field out of range; THERM2 high, THERM high"),
    ("respond", (0, 155, 1, 1), "respond -> 155 = 0x9b: address 77; THERM2 high, THERM high"),
    ("reset", (0, 0, 1, 1), "reset -> done; ALERT high, THERM high"),
    ("receive", (0, 0, 1, 1), "receive [local-value (00)] -> 0 = 0x00; ALERT high, THERM high"),
    ("start", (0, 9, 1, 1), "start -> done, reply 9; ALERT high, THERM high"),
]


def notation_of(words):
    """An explained line taken back into notation."""
    told = words.split("  ", 1)[1].split(" -> ")[0]
    if told.startswith("kind="):
        return "raw " + re.sub(r"\w+=", "", told)
    told = re.sub(r"remote open \((\S+) not stored\)", r"\1 open", told)
    told = re.sub(r" = 0x.*| [(\[].*?[)\]]+|,|\b(local|remote)(?= -?[0-9])", "", told)
    at = re.search(r" at ([0-9]+)", told)
    return f"address {at[1] if at else 76}\n" + (told.replace(at[0], "") if at else told)


def words(room):
    trace, answers = room / "x.trace", room / "x.answers"

    def explain(records, said, ending=""):
        trace.write_text(records)
        answers.write_text("".join(answer(*one) for one in said) + ending)
        return run("explain.py", trace, answers)

    code, records, _ = run("trace.py", ROOT / "examples" / "standby.txt")
    check("the standby case in words", differs(explain(records, STANDBY_ANSWERS), (0, STANDBY, "")))
    check("the ending may stand behind the answers", differs(explain(records, STANDBY_ANSWERS, "end=0\n"), (0, STANDBY, "")))
    done = run("explain.py", trace, "-", given=answers.read_bytes())
    check("answers are taken from standard input", differs(done, (0, STANDBY, "")))

    _, records, _ = run("trace.py", given="\n".join(line for line, _, _ in EXPLAINED).encode())
    want = "".join(f"{place:2}  {text}\n" for place, (_, _, text) in enumerate(EXPLAINED, 1))
    check("events, registers, bits and refusals in words", differs(explain(records, [said for _, said, _ in EXPLAINED]), (0, want, "")))
    check("an empty trace has nothing to explain", differs((explain("", []), explain("", [], "end=0\n")), ((0, "", ""), (0, "", ""))))

    records = record(6, 0, 0, 0) * 3
    first = " start -> done; ALERT high, THERM high\n"
    for ending, why in ("", ""), ("end=8\n", "; end=8: no room for the answer"):
        want = f"1 {first}2 {first}stopped at record 3 of 3, {trace}:9{why}\n"
        check(f"a replay that stopped {'and says why' if ending else 'before the trace ended'}",
              differs(explain(records, [(0, 0, 1, 1)] * 2, ending), (0, want, "")))
    want = f"stopped at record 1 of 3, {trace}:1; end=2: a bad address or length\n"
    check("a replay that answered nothing", differs(explain(records, [], "end=2\n"), (0, want, "")))


def bad_words(room):
    trace, answers = room / "x.trace", room / "x.answers"
    good, said = record(6, 0, 0, 0) * 2, answer(0, 0, 1, 1) * 2
    # What is wrong, the trace, the answers, which of them is named, and at which line.
    bad = [
        ("a trace cut in the middle", good + "kind=7\na=20\n", said, trace, 10),
        ("a trace whose last line has no end", good[:-1], said, trace, 8),
        ("lines of a record out of order", good + "kind=7\nb=0\na=0\nc=0\n", said, trace, 10),
        ("a leading zero", good + "kind=07\na=0\nb=0\nc=0\n", said, trace, 9),
        ("a minus zero", good + "kind=7\na=-0\nb=0\nc=0\n", said, trace, 10),
        ("a sixth digit", good + "kind=7\na=100000\nb=0\nc=0\n", said, trace, 10),
        ("a space", good + "kind=7\na= 1\nb=0\nc=0\n", said, trace, 10),
        ("lines ended by two bytes", good.replace("\n", "\r\n"), said, trace, 1),
        ("an empty line", good + "\n", said, trace, 9),
        ("a digit of another script", good.replace("a=0", "a=\u0663"), said, trace, 2),
        ("an answer line out of order", good, "code=0\nreply=0\ntherm=1\nalert=1\n" + answer(0, 0, 1, 1), answers, 3),
        ("an answer cut in the middle", good, said + "code=0\n", answers, 9),
        ("answers whose last line has no end", good, said[:-1], answers, 8),
        ("a code that is none", good, answer(7, 0, 1, 1) + answer(0, 0, 1, 1), answers, 1),
        ("a reply that is no byte", good, answer(0, 0, 1, 1) + answer(0, 256, 1, 1), answers, 6),
        ("a line neither high nor low", good, answer(0, 0, 1, 1) + answer(0, 0, 2, 1), answers, 7),
        ("the other line neither", good, answer(0, 0, 1, 1) + answer(0, 0, 1, -1), answers, 8),
        ("more answers than records", good, said + answer(0, 0, 1, 1), answers, 9),
        ("an ending that is no code", good, said + "end=5\n", answers, 9),
        ("an ending before the last answer", good, answer(0, 0, 1, 1) + "end=0\n" + answer(0, 0, 1, 1), answers, 5),
        ("an ending that says all, and not all answered", good, answer(0, 0, 1, 1) + "end=0\n", answers, 5),
        ("an ending that says stopped, and all answered", good, said + "end=7\n", answers, 9),
    ]
    for name, records, replies, at, line in bad:
        trace.write_bytes(records.encode())
        answers.write_bytes(replies.encode())
        code, out, why = run("explain.py", trace, answers)
        wrong = differs((code, out, why.count("\n")), (1, "", 1))
        check(f"refused: {name}", wrong if why.startswith(f"{at}:{line}: ") else wrong + [f"{at.name}:{line} wanted, {why!r} found"])
    code, out, why = run("explain.py", room / "none", answers)
    check("a missing file is refused in one line", differs((code, out, why), (1, "", f"{room / 'none'}: No such file or directory\n")))


# ---- one table


def literals(source, names):
    """The strings in a source that are names of the table."""
    return sorted(node.value for node in ast.walk(ast.parse(source)) if isinstance(node, ast.Constant) and node.value in names)


def one_table(room):
    names = set(READ.values()) | set(WRITE.values()) | set(BOTH.values())
    names |= set("kind a b c code reply alert therm reset send write read receive respond start end convert".split())
    names |= set("address command data local remote open busy standby THERM2 done".split())
    names |= {"local high", "local low", "remote high", "remote low", "remote THERM", "local THERM", "ALERT masked", "extended range", "not acknowledged"}
    found = []
    for path in sorted((ROOT / "tools").glob("*.py")):
        if path.name != "table.py":    # it has the table's sorts, and two of them are line names as well
            state = {"address"} if path.name == "cases.py" else set()    # a field of the chip's state
            found += [f"{path.name}: {name}" for name in literals(path.read_text(), names - state)]
    check("names stand in the table alone", found)
    check("a name outside the table would be found", differs(literals("x = ['busy', 'b', 'c d']", names), ["b", "busy"]))
    wrong = []
    for line in "nonsense 1", "kind 8 again none nowhere", "code 0 twice", "register read 0x02 status", "field x 0 y whole", "bit status", "role code status 7", "role alert none 5", "role therm status 9":
        for name in "table.py", "output.py", "trace.py", "names.txt":
            (room / name).write_text((ROOT / "tools" / name).read_text() + (line + "\n" if name == "names.txt" else ""))
        done = subprocess.run([sys.executable, room / "trace.py"], input=b"", capture_output=True)
        place = len((room / "names.txt").read_text().splitlines())
        if done.returncode != 1 or done.stdout or not done.stderr.decode().startswith(f"{room / 'names.txt'}:{place}: "):
            wrong.append(f"{line}: {done}")
    check("a bad entry of the table is refused by its line", wrong)


# ---- the recorded traces


def recorded(room):
    """Every recorded trace: explained with its answers, and its words taken back to the very same records."""
    wrong, seen, lines, taken, wanted_back = [], 0, 0, [], []
    levels, roles = ["low", "high"], set()
    for row in (TRACES / "INDEX.txt").read_text().splitlines():
        if row.startswith("#"):
            continue
        name, _, end, *_ = row.split()
        trace, answers = TRACES / f"{name}.trace", TRACES / f"{name}.answers"
        code, out, said = run("explain.py", trace, answers)
        if end == "7" or name == "code8-before-7":    # a record in them is malformed
            if (code, out) != (1, "") or not said.startswith(f"{trace}:"):
                wrong.append(f"{name}: {code} {out!r} {said!r}")
            continue
        seen += 1
        found = out.splitlines()
        if end == "8" and (not found or not found.pop().startswith("stopped at record ")):
            wrong.append(f"{name}: it does not say where the replay stopped")
        numbers = [int(n) for n in re.findall(r"=(\d+)", answers.read_text())]
        wanted = [numbers[at:at + 4] for at in range(0, len(numbers), 4)]
        if code or said or len(found) != len(wanted):
            wrong.append(f"{name}: {code} {said!r}, {len(found)} lines of {len(wanted)}")
        therm2 = 0    # pin 6's role: configuration bit 5 as it was last written, which a reset takes back
        events = [int(n) for n in re.findall(r"=(-?\d+)", trace.read_text())]
        for at, (text, (refused, reply, alert, therm)) in enumerate(zip(found, wanted)):
            lines += 1
            kind, _, command, data = events[4 * at:4 * at + 4]
            if not refused and (kind == 0 or kind == 2 and command == 9):
                therm2 = data >> 5 & 1
            roles.add(therm2)
            want = f" -> refused, code {refused}: " if refused else f" -> {reply} = 0x{reply:02x}" if " = 0x" in text.split(" -> ")[1] else " -> done; "
            if want not in text or not text.endswith(f"; {'THERM2' if therm2 else 'ALERT'} {levels[alert]}, THERM {levels[therm]}"):
                wrong.append(f"{name}: {text}: {refused} {reply} {alert} {therm}")
        taken += [notation_of(text) for text in found]
        wanted_back += [(name, line) for line in trace.read_text().splitlines(True)[:4 * len(found)]]
    check(f"{seen} recorded traces are explained, {lines} lines", wrong or ([] if seen > 88 and len(roles) == 2 else ["so few"]))
    source = room / "back.txt"
    source.write_text("\n".join(taken))
    code, out, said = run("trace.py", source)
    have = out.splitlines(True)
    back = [f"{name}: {line!r} wanted, {got!r} found" for (name, line), got in zip(wanted_back, have) if line != got]
    check("their words lead back to their records", back or differs((code, said, len(have)), (0, "", len(wanted_back))))


def unwritable(room):
    """Standard output that is full or closed: a message and no trace of the tool's inside."""
    trace, answers = TRACES / "k11.trace", TRACES / "k11.answers"
    for tool, *words in [("trace.py", ROOT / "examples" / "standby.txt"), ("explain.py", trace, answers)]:
        command = [sys.executable, ROOT / "tools" / tool, *words]
        for shell, why in [('exec "$@" >/dev/full', "No space left on device"), ('exec "$@" >&-', "Bad file descriptor")]:
            done = subprocess.run(["bash", "-c", shell, "bash", *command], capture_output=True, text=True)
            check(f"{tool}: {why}", differs((done.returncode, done.stderr), (1, f"standard output: {why}\n")))


def main():
    for part in notation, words, bad_words, one_table, recorded, unwritable:
        with tempfile.TemporaryDirectory() as room:
            part(Path(room))
    end()


main()
