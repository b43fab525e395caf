#!/usr/bin/env python3
"""Tries tools/answer.sh and tools/show.py, on slow pipes, bad input, files and devices too, and what the scripts tell a terminal. Needs the
library, as examples/run.sh does. The last line is 'N passed, M failed'.
"""
import fcntl
import os
import pty
import random
import re
import resource
import select
import shutil
import signal
import subprocess
import tempfile
import termios
import time
from pathlib import Path

from checks import check, differs, end

ROOT = Path(__file__).resolve().parent.parent
TOOLS = ROOT / "tools"
TRACES = ROOT / "tests" / "traces"
MOST = 16 * 1024 * 1024    # bytes of a trace
NUMBER = ": 1 to 5 digits, a minus before them where negative, no plus, no leading zero, no -0, no space"


def run(tool, *words, given=b"", **more):
    """Exit code, standard output and standard error."""
    done = subprocess.run([TOOLS / tool, *words], input=given, capture_output=True, **more)
    return done.returncode, done.stdout.decode(), done.stderr.decode()


def record(*numbers):
    return "kind=%d\na=%d\nb=%d\nc=%d\n" % numbers


def answer(*numbers):
    return "code=%d\nreply=%d\nalert=%d\ntherm=%d\n" % numbers


START = record(6, 0, 0, 0)
FIRST, LATER = answer(0, 0, 1, 1), answer(4, 0, 1, 1)    # to a first start, and to one while a conversion runs


def held(room):
    """The files of a folder, with what is in them."""
    return {one.name: one.read_text() for one in room.iterdir() if one.is_file()}


# ---- answers


def recorded(room):
    """Every recorded trace, but those that are for an output with little room."""
    wrong, seen, addresses = [], 0, set()
    for row in (TRACES / "INDEX.txt").read_text().splitlines():
        name, address, code, space, *_ = row.split()
        if row.startswith("#") or code != "0" and space != "-":
            continue
        trace, answers = TRACES / f"{name}.trace", (TRACES / f"{name}.answers").read_text()
        have = run("answer.sh", "--address", address, trace)
        seen += 1
        addresses.add(address)
        if code == "0":
            wrong += differs((name, *have), (name, 0, answers, ""))
            continue
        lines = answers.count("\n")    # a record has as many
        used = len(b"".join(trace.read_bytes().splitlines(True)[:lines]))
        place = f"{trace}:{lines + 1}: no record begins here (record {lines // 4 + 1}, behind {used} bytes): "
        if have[:2] != (1, answers) or not have[2].startswith(place) or have[2].count("\n") != 1:
            wrong.append(f"{name}: {place!r} wanted, {have} found")
    check(f"{seen} recorded traces are answered as recorded, and those that stop say where", wrong or ([] if seen >= 100 else ["so few"]))
    check("both addresses are among them", differs(addresses, {"76", "77"}))


def streams(room):
    trace, answers = TRACES / "address-77.trace", (TRACES / "address-77.answers").read_text()
    data = trace.read_bytes()
    good = 0, answers, ""
    check("standard input", differs(run("answer.sh", "--address", "77", given=data), good))
    check("standard input as -, and the option behind it", differs(run("answer.sh", "-", "--address=77", given=data), good))
    check("the other address answers otherwise", differs(run("answer.sh", trace)[1] == answers, False))
    check("an empty trace has no answers", differs(run("answer.sh"), (0, "", "")))
    check("standard output as -", differs(run("answer.sh", "--address", "77", "-o", "-", trace, cwd=room), good))
    check("and no file of that name", differs(held(room), {}))
    (room / "a b").mkdir()
    (room / "a b" / "the trace").write_bytes(data)
    done = run("answer.sh", "--address", "77", "-o", "a b/the answers", "a b/the trace", cwd=room)
    check("-o, names with spaces, from another folder", differs((done, held(room / "a b")), ((0, "", ""), {"the trace": data.decode(), "the answers": answers})))
    hungry = record(6, 0, 0, 0) + record(7, 0, 0, 1) + 20000 * record(5, 0, 0, 0)
    wanted = answer(0, 0, 1, 1) + answer(0, 0, 0, 1) + 20000 * answer(0, 153, 0, 1)
    (room / "a b" / "hungry").write_text(hungry)
    done = run("answer.sh", room / "a b" / "hungry")
    check("the longest answers to the shortest records, more than are read at once", differs((done[0], done[1] == wanted, done[2]), (0, True, "")))
    umask = os.umask(0)
    os.umask(umask)
    check("a new file has the usual rights", differs((room / "a b" / "the answers").stat().st_mode & 0o777, 0o666 & ~umask))
    old, link = room / "old", room / "link"
    old.write_text("as it was")
    old.chmod(0o640)
    link.symlink_to("old")
    done = run("answer.sh", "--address", "77", "-o", link, trace)
    check("behind a link, an older file is replaced and keeps its rights",
          differs((done, link.is_symlink(), held(room), old.stat().st_mode & 0o777), ((0, "", ""), True, {"old": answers, "link": answers}, 0o640)))
    done = run("answer.sh", "-o", room / "none", "/dev/null")
    check("an empty trace makes an empty file", differs((done, (room / "none").read_text()), ((0, "", ""), "")))


# ---- a trace as it arrives

WAIT = 30    # seconds; only a tool that is wrong takes so long


def begun(*words, **more):
    """The tool, to be given its trace through a pipe."""
    return subprocess.Popen([TOOLS / "answer.sh", *words], **{"stdin": subprocess.PIPE, "stdout": subprocess.PIPE, "stderr": subprocess.PIPE, "bufsize": 0} | more)


def taken(program):
    """Waits until the tool has read all that it was given."""
    since = time.monotonic()
    while int.from_bytes(fcntl.ioctl(program.stdin, termios.FIONREAD, b"\0" * 4), "little") and program.poll() is None and time.monotonic() < since + WAIT:
        time.sleep(0.0005)


def give(program, text):
    """Hands over a portion, which is read before the next comes."""
    program.stdin.write(text.encode())
    taken(program)


def come(program, length, seconds=WAIT):
    """So many bytes of the answers, or what has come of them after so long."""
    found, until = b"", time.monotonic() + seconds
    while len(found) < length and select.select([program.stdout], [], [], max(0, until - time.monotonic()))[0]:
        if not (part := os.read(program.stdout.fileno(), length - len(found))):
            break
        found += part
    return found.decode()


def over(program):
    """Exit code, the rest of the answers and what was said, of a tool that ends by itself."""
    try:
        out, said = program.communicate(timeout=WAIT)
    except subprocess.TimeoutExpired:
        program.kill()
        return "it does not end"
    return program.returncode, (out or b"").decode(), said.decode()


def arriving(room):
    case, answers = (TRACES / "k11.trace").read_text(), (TRACES / "k11.answers").read_text()
    each = re.findall(r"(?:.*\n){4}", answers)
    tool = begun()
    wrong = []
    for text, count in zip(re.findall(r"(?:.*\n){4}", case), each, strict=True):
        for byte in text[:-1]:
            give(tool, byte)
        wrong += differs(come(tool, 1, 0.02), "")
        give(tool, text[-1])
        wrong += differs(come(tool, len(count)), count)
    check("byte by byte: an answer comes with the last byte of its record, before the pipe is closed", wrong + differs(over(tool), (0, "", "")))

    tool = begun("-o", room / "out", stdout=subprocess.DEVNULL)
    give(tool, START + "kind=7\na=2")
    until = time.monotonic() + WAIT
    while (not (room / "out").exists() or len((room / "out").read_text()) < len(FIRST)) and time.monotonic() < until:
        time.sleep(0.001)
    have = (room / "out").read_text()
    give(tool, "0\nb=34")
    give(tool, "1\nc=0\nkind=3\na=76\nb=2\nc=0\n")
    tool.stdin.close()
    done = tool.wait(WAIT), tool.stderr.read(), (room / "out").read_text()
    check("a file has each answer as it comes too, of a trace cut inside its numbers",
          differs((have, done), (FIRST, (0, b"", FIRST + answer(0, 0, 0, 0) + answer(0, 18, 0, 0)))))

    trace, answers = [(TRACES / f"address-77.{end}").read_text() for end in ("trace", "answers")]
    tool, some, at = begun("--address", "77"), random.Random(7), 0
    while at < len(trace):
        size = some.randrange(60)
        give(tool, trace[at:at + size])
        at += size
    check("the other address, in portions of any size", differs(over(tool), (0, answers, "")))

    tool = begun()
    give(tool, START + "kind=6\na=0")
    have = come(tool, len(FIRST))
    for sent in signal.SIGSTOP, signal.SIGCONT, signal.SIGWINCH:
        tool.send_signal(sent)
    give(tool, "0\n")
    where = "standard input:5: no record begins here (record 2, behind 19 bytes): line 6 is 'a=00"
    done = tool.wait(WAIT), tool.stdout.read(), tool.stderr.read().decode()
    check("a malformed record ends it at once, while the pipe is open", differs((have, done[:2], done[2].startswith(where)), (FIRST, (1, b""), True)))
    tool.stdin.close()

    tool = begun()
    give(tool, START + "kind=6\na=0\nb=0\nc=0")
    have = come(tool, len(FIRST)) + come(tool, 1, 0.3), tool.poll()
    said = "standard input:5: no record begins here (record 2, behind 19 bytes): line 8, the last, is 'c=0', and no byte 10 ends it\n"
    check("a partial record is one only at the end", differs((have, over(tool)), ((FIRST, None), (1, "", said))))

    tool = begun()
    give(tool, START)
    have = come(tool, len(FIRST))
    tool.stdout.close()
    give(tool, START)
    done = tool.wait(WAIT), tool.stderr.read()
    check("a reader that leaves", differs((have, done), (FIRST, (1, b"standard output: Broken pipe\n"))))
    tool.stdin.close()

    ours, theirs = os.pipe()
    os.set_blocking(ours, False)    # as another program that shares it may
    tool = begun(stdin=ours)
    for part in START, START[:9], START[9:]:
        time.sleep(0.05)
        os.write(theirs, part.encode())
    have = come(tool, len(FIRST + LATER))
    os.close(theirs)
    os.close(ours)
    check("a pipe that does not wait", differs((have, over(tool)), (FIRST + LATER, (0, "", ""))))

    grows = room / "grows.trace"
    grows.write_text(START)
    tail = subprocess.Popen(["tail", "-n", "+1", "-f", grows], stdout=subprocess.PIPE)
    tool = begun(stdin=tail.stdout)
    tail.stdout.close()
    have = come(tool, len(FIRST))
    with grows.open("a") as file:
        file.write(START)
    have += come(tool, len(LATER))
    tail.terminate()
    tail.wait()
    check("a file that grows, through tail -f", differs((have, over(tool)), (FIRST + LATER, (0, "", ""))))


def bounded(room):
    """What the tool has in memory at its most, after a little and after 16 MiB."""
    def most():
        taken(tool)
        return int(re.search(r"^VmHWM:\s*(\d+) kB$", Path(f"/proc/{tool.pid}/status").read_text(), re.M)[1])

    tool = begun(stdout=subprocess.DEVNULL)
    part, given, measured = START * 4096, 0, []
    while given + len(part) <= MOST:
        give(tool, part)
        given += len(part)
        if not measured and given > 1 << 20:
            measured.append(most())
    measured.append(most())
    check("16 MiB take no more memory than 1", differs(over(tool), (0, "", "")) + ([] if measured[1] < measured[0] + 512 else [f"{measured} KiB"]))


# ---- messages

# What stands behind two good records; the line that is wrong, and what is said of it.
BAD = [
    ("kind=03\na=76\nb=2\nc=0\n", "line 9 is 'kind=03', and kind=NUMBER is wanted" + NUMBER),
    ("kind=3\na=-0\nb=2\nc=0\n", "line 10 is 'a=-0', and a=NUMBER is wanted" + NUMBER),
    ("kind=3\na=76\nb=+2\nc=0\n", "line 11 is 'b=+2', and b=NUMBER is wanted" + NUMBER),
    ("kind=3\na=76\nb=2\nc= 0\n", "line 12 is 'c= 0', and c=NUMBER is wanted" + NUMBER),
    ("kind=-100000\na=76\nb=2\nc=0\n", "line 9 is 'kind=-100000', and kind=NUMBER is wanted" + NUMBER),
    ("kind=3\na=7 6\nb=2\nc=0\n", "line 10 is 'a=7 6', and a=NUMBER is wanted" + NUMBER),
    ("kind=3\na=\nb=2\nc=0\n", "line 10 is 'a=', and a=NUMBER is wanted" + NUMBER),
    ("kind=3\na=-\nb=2\nc=0\n", "line 10 is 'a=-', and a=NUMBER is wanted" + NUMBER),
    ("kind=3\nb=2\na=76\nc=0\n", "line 10 is 'b=2', and a=NUMBER is wanted"),
    ("kind=3\na=76\n" + START, "line 11 is 'kind=6', and b=NUMBER is wanted"),
    ("\n" + START, "line 9 is '', and kind=NUMBER is wanted"),
    ("status\n", "line 9 is 'status', and kind=NUMBER is wanted"),
    ("kind=3\r\na=76\r\nb=2\r\nc=0\r\n", "line 9 ends with byte 13 (carriage return), and byte 10 alone must end a line"),
    ("kind=3\na=76\r\nb=2\nc=0\n", "line 10 ends with byte 13 (carriage return), and byte 10 alone must end a line"),
    ("kind=03\r\n", r"line 9 is 'kind=03\x0d', and kind=NUMBER is wanted" + NUMBER),
    ("\x1b[31m\0it's\\\xff\n", r"line 9 is '\x1b[31m\x00it\x27s\x5c\xff', and kind=NUMBER is wanted"),
    ("x" * 300000 + "\n", f"line 9 is '{'x' * 40}'.., and kind=NUMBER is wanted"),
    ("kind=" + "1" * 300000, f"line 9 is 'kind={'1' * 35}'.., and kind=NUMBER is wanted" + NUMBER),
    ("kind=" + "1" * 30, f"line 9, the last, is 'kind={'1' * 30}', and kind=NUMBER is wanted" + NUMBER),
    ("kind=3\n", "the trace ends where line 10, a=NUMBER, is wanted"),
    ("kind=3\na=76\nb=2\n", "the trace ends where line 12, c=NUMBER, is wanted"),
    ("kind=3\na=76\nb=2\nc=0", "line 12, the last, is 'c=0', and no byte 10 ends it"),
    ("kind=3\na=7", "line 10, the last, is 'a=7', and no byte 10 ends it"),
    ("ki", "line 9, the last, is 'ki', and kind=NUMBER is wanted"),
]


def longer(more):
    """A record of so many bytes more than the shortest, at most 16."""
    return "kind=%s\na=%s\nb=%s\nc=%s\n" % tuple("1" * (1 + max(0, min(4, more - 4 * line))) for line in range(4))


def malformed(room):
    trace, out = room / "bad.trace", room / "x.answers"
    place = "9: no record begins here (record 3, behind 38 bytes): "
    wrong = []
    for text, what in BAD:
        data = (START * 2 + text).encode("latin-1")
        trace.write_bytes(data)
        out.write_text("as it was")
        wrong += differs(run("answer.sh", trace, "-o", out), (1, "", f"{trace}:{place}{what}\n"))
        wrong += differs((sorted(one.name for one in room.iterdir()), out.read_text()), (["bad.trace", "x.answers"], FIRST + LATER))
    check(f"{len(BAD)} malformed records are refused by their place, and the file has the answers before them", wrong)
    check("and so has standard output", differs(run("answer.sh", given=data), (1, FIRST + LATER, f"standard input:{place}{BAD[-1][1]}\n")))
    wrong, portion = [], 65536
    for at in range(portion - 20, portion + 2):    # the tool reads so much at once
        count, more = divmod(at, len(START))
        trace.write_text(longer(more // 2) + longer(more - more // 2) + START * (count - 2) + "kind=3\na=76\nb=+2\nc=0\n")
        place = f"{4 * count + 1}: no record begins here (record {count + 1}, behind {at} bytes): line {4 * count + 3}"
        wrong += differs(run("answer.sh", trace)[::2], (1, f"{trace}:{place} is 'b=+2', and b=NUMBER is wanted{NUMBER}\n"))
    check("a malformed record on the border of two portions is told of as any other", wrong)


def too_much(room):
    trace, out = room / "big.trace", room / "x.answers"
    # 430184 of the longest record and two of 20 bytes are 16 MiB; each is refused with code 1.
    whole = record(-99999, -99999, -99999, -99999) * 430184 + record(10, 0, 0, 0) * 2
    trace.write_text(whole)
    done = run("answer.sh", trace)
    check("a trace of 16 MiB is answered", differs((trace.stat().st_size, done[0], done[1] == answer(1, 0, 1, 1) * 430186, done[2]), (MOST, 0, True, "")))
    said = "too long, a trace has at most 16777216 bytes (16 MiB): its first %d records are answered\n"
    count, wanted = 430186, answer(1, 0, 1, 1) * 430186
    for what, text in [("one byte more", whole + "x"), ("a record more", whole + START), ("a record over the border", "kind=-9999" + whole[11:] + START)]:
        trace.write_text(text)
        done = run("answer.sh", trace, "-o", out), run("answer.sh", given=text.encode())
        check(f"{what} is too long, and what is whole within 16 MiB is answered",
              differs((done[0], out.read_text() == wanted, done[1][0], done[1][1] == wanted, done[1][2]),
                      ((1, "", f"{trace}: {said % count}"), True, 1, True, f"standard input: {said % count}")))
    trace.write_text(whole[:-1] + "x" + START)
    place = "1720741: no record begins here (record 430186, behind 16777196 bytes): line 1720744 is 'c=0xkind=6', and c=NUMBER is wanted"
    done = run("answer.sh", trace)
    check("a record that is malformed before that is told of",
          differs((done[0], done[1] == answer(1, 0, 1, 1) * 430185, done[2]), (1, True, f"{trace}:{place}{NUMBER}\n")))
    endless = subprocess.Popen(["yes", START[:-1]], stdout=subprocess.PIPE)
    done = subprocess.run([TOOLS / "answer.sh"], stdin=endless.stdout, capture_output=True, timeout=60)
    endless.stdout.close()
    endless.wait()
    check("an input without end", differs((done.returncode, done.stdout.decode() == FIRST + LATER * 883010, done.stderr.decode()),
                                          (1, True, f"standard input: {said % 883011}")))
    trace.write_text(START * 883011)
    done = run("answer.sh", trace)
    check("answers of 27 MB", differs((done[0], done[1] == FIRST + LATER * 883010, done[2]), (0, True, "")))


def files(room):
    trace, loop, out = room / "k.trace", room / "loop", room / "x.answers"
    shutil.copy(TRACES / "k11.trace", trace)
    loop.symlink_to("loop")
    out.write_text("as it was")
    before = held(room)
    shut = room / "shut"
    shut.mkdir()
    shut.chmod(0)
    denied = [] if os.geteuid() == 0 else [    # root may do all
        ([shut / "x"], 1, f"{shut}/x: Permission denied"),
        ([trace, "-o", shut / "x"], 1, f"{shut}/x: Permission denied"),
    ]
    for words, code, said in [
        ([room / "none"], 1, f"{room}/none: No such file or directory"),
        ([room], 1, f"{room}: Is a directory"),
        ([room, "-o", out], 1, f"{room}: Is a directory"),
        ([room / "none", "-o", out], 1, f"{room}/none: No such file or directory"),
        ([""], 1, ": No such file or directory"),
        ([loop], 1, f"{loop}: Too many levels of symbolic links"),
        (["/proc/self/mem"], 1, "/proc/self/mem: Input/output error"),
        *denied,
        ([trace, "-o", room / "none" / "x"], 1, f"{room}/none/x: No such file or directory"),
        ([trace, "-o", room], 1, f"{room}: not a plain file"),
        ([trace, "-o", "/dev/full"], 1, "/dev/full: not a plain file"),
        ([trace, "-o", trace / "x"], 1, f"{trace}/x: Not a directory"),
        ([trace, "-o", room / ("x" * 256)], 1, f"{room}/{'x' * 256}: File name too long"),
        ([trace, "-o", ""], 1, ": No such file or directory"),
        ([trace, "-o", trace], 1, f"{trace}: this is the trace itself"),
        ([trace, out], 2, "tools/answer.sh: one trace wanted, 2 found"),
        ([trace, "-o"], 2, "tools/answer.sh: option requires an argument -- 'o'"),
        ([trace, "--address"], 2, "tools/answer.sh: option '--address' requires an argument"),
        ([trace, "--address", "78"], 2, "tools/answer.sh: --address is 76 or 77"),
        ([trace, "--address", "076"], 2, "tools/answer.sh: --address is 76 or 77"),
        ([trace, "--frob"], 2, "tools/answer.sh: unrecognized option '--frob'"),
    ]:
        done = run("answer.sh", *words, cwd=room)
        check(f"refused: {said.replace(str(room), '..')[:80]}", differs((done, held(room)), ((code, "", said + "\n"), before)))


def devices(room):
    trace, out = room / "long.trace", room / "x.answers"
    trace.write_text(START * 20000)
    with open("/dev/full", "w") as full:
        done = subprocess.run([TOOLS / "answer.sh", trace], stdout=full, stderr=subprocess.PIPE, text=True)
    check("a full device", differs((done.returncode, done.stderr), (1, "standard output: No space left on device\n")))
    limit = 100 * 1024    # of the answers' 600 KB
    answers = (FIRST + LATER * 19999)[:limit]
    done = run("answer.sh", trace, "-o", out, preexec_fn=lambda: resource.setrlimit(resource.RLIMIT_FSIZE, (limit, limit)))
    check("a file that may not grow so far", differs((done, out.read_text() == answers), ((1, "", f"{out}: File too large\n"), True)))
    with out.open("w") as file:
        done = subprocess.run([TOOLS / "answer.sh", trace], stdout=file, stderr=subprocess.PIPE, text=True,
                              preexec_fn=lambda: resource.setrlimit(resource.RLIMIT_FSIZE, (limit, limit)))
    check("nor may standard output", differs((done.returncode, done.stderr, out.read_text() == answers), (1, "standard output: File too large\n", True)))
    ours, theirs = os.pipe()
    os.close(ours)
    done = subprocess.run([TOOLS / "answer.sh", trace], stdout=theirs, stderr=subprocess.PIPE, text=True)
    os.close(theirs)
    check("a reader that is gone", differs((done.returncode, done.stderr), (1, "standard output: Broken pipe\n")))
    for number, named in (0, "input"), (1, "output"):
        done = run("answer.sh", *[trace] * number, preexec_fn=lambda: os.close(number))
        check(f"standard {named} is closed", differs(done, (1, "", f"standard {named}: Bad file descriptor\n")))


# ---- what a terminal is told


def at_terminal(words, slowed=False, both=False, **more):
    """Runs a command whose standard error is a terminal, both where standard output is too, and gives exit code, standard output and what the
    terminal saw. Slowed, its answers are taken little by little, so that it lasts: the library needs less than half a second for any trace. It waits
    for this test, and does not run on while a busy machine lets the test wait: what it has time to tell is no matter of luck.
    """
    ours, theirs = pty.openpty()
    os.set_blocking(ours, False)
    said, over = b"", False
    with tempfile.TemporaryFile() as wrote:
        answers, into = os.pipe() if slowed else (None, os.dup(wrote.fileno()))
        program = subprocess.Popen(words, stdout=theirs if both else into, **{"stdin": subprocess.DEVNULL, "stderr": theirs} | more)
        os.close(theirs)
        os.close(into)
        while not over:
            over = program.poll() is not None
            if slowed and select.select([answers], [], [], 0)[0]:
                part = os.read(answers, 65536)    # what a pipe holds at most; nothing at its end
                wrote.write(part)
                over = not part
                time.sleep(0.01)
            time.sleep(0.001)
            try:
                while part := os.read(ours, 65536):
                    said += part
            except OSError:    # nothing now, or no more
                pass
        os.close(ours)
        if slowed:
            os.close(answers)
        wrote.seek(0)
        return program.wait(), wrote.read().decode(), said.decode()


def progress(room):
    trace = room / "long.trace"
    # A conversion over the limit, and a status read: 61 bytes, 94 of answers.
    trace.write_text((START + record(7, 20, 341, 0) + record(3, 76, 2, 0)) * 170000)
    code, out, said = at_terminal([TOOLS / "answer.sh", trace], slowed=True)
    last = answer(0, 0, 0, 0) * 2 + answer(0, 18, 0, 0)
    check("a trace of 10 MB whose answers are taken slowly", differs((code, out == answer(0, 0, 1, 1) + answer(0, 0, 0, 0) + answer(0, 18, 0, 0) + last * 169999), (0, True)))
    shown = re.fullmatch(r"((?:\r[ \d]{3} % of the trace is answered)+)\r\x1b\[K", said)
    numbers = [int(number) for number in re.findall(r"(\d+) %", said)]
    check("a terminal is told how far it is, and the line is wiped", [] if shown and numbers == sorted(numbers) and len(set(numbers)) > 2 and 50 < numbers[-1] <= 100
          else [repr(said)])
    short = room / "short.trace"
    short.write_text(START * 25000)
    code, out, said = at_terminal([TOOLS / "answer.sh", short])
    check("nothing of a trace that is answered at once", differs((code, out.count("code="), said), (0, 25000, "")))
    short.write_text(START * 150000)
    with (room / "said").open("w") as file:
        code, out, _ = at_terminal([TOOLS / "answer.sh", short], slowed=True, stderr=file)
    check("nor is anything told where there is no terminal", differs((code, out.count("code="), (room / "said").read_text()), (0, 150000, "")))
    with subprocess.Popen(["sh", "-c", f"cat {short}; sleep 1; head -n 4 {short}; sleep 1"], stdout=subprocess.PIPE) as slow:
        code, out, said = at_terminal([TOOLS / "answer.sh"], stdin=slow.stdout)
    told = re.fullmatch(r"(\rrecords answered: \d+)*\rrecords answered: 150000\rrecords answered: 150001\r\x1b\[K", said)
    check("of a pipe the records are counted, while it waits too", [] if told and (code, out.count("code=")) == (0, 150001) else [repr(said)])
    with subprocess.Popen(["sh", "-c", f"head -n 4 {short}; sleep 1"], stdout=subprocess.PIPE) as slow:
        done = at_terminal([TOOLS / "answer.sh"], both=True, stdin=slow.stdout)
    check("and nothing is told among answers on the terminal", differs(done, (0, "", FIRST.replace("\n", "\r\n"))))
    with trace.open("a") as file:
        file.write("kind=3\n")
    code, out, said = at_terminal([TOOLS / "answer.sh", trace])
    message = f"{trace}:2040001: no record begins here (record 510001, behind 10370000 bytes): the trace ends where line 2040002, a=NUMBER, is wanted\r\n"
    check("a message stands on a line of its own",
          [] if (code, out.count("code=")) == (1, 510000) and re.sub(r"\r[^\r]*answered|\r\x1b\[K", "", said) == message else [repr(said)])


def built_first(room):
    """With a stand-in for rt, which makes what it is asked for at once."""
    for name in "bin", "tools", "crates/dlaveth/src", "crates/console/src", "crates/console/out":
        (room / name).mkdir(parents=True)
    (room / "crates.txt").touch()
    for name in "x86.sh", "need.sh", "crates.sh", "replay.sh":
        shutil.copy(TOOLS / name, room / "tools")
    for name, text in ("rt", 'case $1:${PWD##*/} in lib:dlaveth) file=libdlaveth.a ;; run:console) file=console ;; *) exit 1 ;; esac\n'
                       'echo a word of rt\nmkdir -p out\nprintf "#!/bin/sh\\ncat\\n" >out/$file\nchmod +x out/$file\n'), ("qemu-x86_64", 'shift 2\nexec "$@"\n'):
        path = room / "bin" / name
        path.write_text("#!/bin/sh\n" + text)
        path.chmod(0o755)
    more = {"cwd": room, "env": os.environ | {"PATH": f"{room / 'bin'}:{os.environ['PATH']}"}}
    for what, made, words in [("library", "staticlib/libdlaveth.a", ["bash", "-c", "set -euo pipefail; . tools/x86.sh"]),
                              ("small program", "bin/console", [room / "tools" / "replay.sh"])]:
        line = f"proving and building the {what}: some five minutes at the first run\r\n"
        have = at_terminal(words, **more), at_terminal(words, **more)
        check(f"the {what} is built first: a terminal is told so, and told once", differs(have, ((0, "", line), (0, "", ""))))
        hence = time.time() + 60
        for folder, told in ("out", ""), ("src", line):
            (room / "crates" / "console" / folder / "new").touch()
            os.utime(room / "crates" / "console" / folder / "new", (hence, hence))
            check(f"the {what} is {'built again behind a change' if told else 'not built again behind what rt left'}", differs(at_terminal(words, **more), (0, "", told)))
        (room / "crates" / "console" / "src" / "new").unlink()
        (room / "target" / made).unlink()
        done = subprocess.run(words, capture_output=True, stdin=subprocess.DEVNULL, **more)
        check(f"the {what} is built first: a pipe is not told", differs((done.returncode, done.stdout, done.stderr), (0, b"", b"")))


def installed_first(room):
    """With a stand-in for apt-get, which says what it likes on both streams and installs a command, or fails."""
    for name in "bin", "tools":
        (room / name).mkdir()
    shutil.copy(TOOLS / "need.sh", room / "tools")
    command, apt = room / "bin" / "no-such-command", room / "bin" / "apt-get"
    apt.write_text(f'#!/bin/sh\necho "$@"\necho "debconf: a word of $1" >&2\ncase $1 in install) ln -s /bin/true {command} ;; esac\n')
    apt.chmod(0o755)
    more = {"cwd": room, "env": os.environ | {"PATH": f"{room / 'bin'}:{os.environ['PATH']}"}}
    words = ["bash", "-c", "set -euo pipefail; . tools/need.sh; need no-such-command one another; no-such-command"]
    have = at_terminal(words, **more), at_terminal(words, **more)
    check("what is missing is installed first: a terminal is told so, and told once", differs(have, ((0, "", "installing one another\r\n"), (0, "", ""))))
    command.unlink()
    done = subprocess.run(words, capture_output=True, stdin=subprocess.DEVNULL, **more)
    check("what is missing is installed first: a pipe is told nothing, not apt's words either", differs((done.returncode, done.stdout, done.stderr), (0, b"", b"")))
    command.unlink()
    apt.write_text("#!/bin/sh\necho 'no right to' >&2\nexit 100\n")
    done = subprocess.run(words, capture_output=True, stdin=subprocess.DEVNULL, **more)
    want = b"no-such-command is missing, and Debian's packages for it (one another) could not be installed:\nno right to\n"
    check("what cannot be installed is named, with apt's words", differs((done.returncode, done.stdout, done.stderr), (1, b"", want)))


# ---- records and answers in one go

# The standby case of document 01 (K12), worked out by hand: remote 200 quarters is over 4 * 40.
STANDBY = """\
1  start -> done; ALERT high, THERM high
2  end local 20, remote 50.00 (200 quarters) -> done; ALERT high, THERM high
3  write configuration (09) 64 = 0x40: standby -> done; ALERT high, THERM high
4  write remote-high-limit (0d) 40 = 0x28 -> done; ALERT low, THERM high
5  read status (02) -> 16 = 0x10: remote high; ALERT low, THERM high
"""
STANDBY_TRACE = START + record(7, 20, 200, 0) + record(2, 76, 9, 64) + record(2, 76, 13, 40) + record(3, 76, 2, 0)
RESPONSE = """\
1  receive at 77 [local-value (00)] -> 0 = 0x00; ALERT high, THERM high
2  start -> done; ALERT high, THERM high
3  end local 20, remote 0.00 (0 quarters) -> done; ALERT low, THERM high
4  respond -> 155 = 0x9b: address 77; ALERT low, THERM high
"""


def shown(room):
    done = run("show.py", "examples/standby.txt", cwd=ROOT)
    check("the standby case in notation", differs(done, (0, STANDBY, "")))
    file = room / "the records"
    file.write_text(STANDBY_TRACE)
    check("the standby case in records", differs(run("show.py", "the records", cwd=room), (0, STANDBY, "")))
    check("records on standard input", differs(run("show.py", "-", given=STANDBY_TRACE.encode()), (0, STANDBY, "")))
    text = "receive\nconvert 20 0\nrespond"
    check("notation on standard input, for the other chip", differs(run("show.py", "--address", "77", "-", given=text.encode()), (0, RESPONSE, "")))
    text = record(4, 77, 0, 0) + START + record(7, 20, 0, 0) + record(5, 0, 0, 0)
    check("records for the other chip", differs(run("show.py", "-", "--address", "77", given=text.encode()), (0, RESPONSE, "")))
    text = "address 77\nreceive"
    want = "1  receive at 77 -> refused, code 3: not acknowledged; ALERT high, THERM high\n"
    check("a notation's own address is the bus address alone", differs(run("show.py", "-", given=text.encode()), (0, want, "")))
    check("nothing to show", differs((run("show.py", "-"), run("show.py", "-", given=b"# nothing\n")), ((0, "", ""), (0, "", ""))))
    for text, said in [
        ("start\nfrobnicate\nread 256\n", "{0}:2: frobnicate: no such word\n{0}:3: 256: command is 0 to 255, only 'raw' goes beyond\n"),
        ("\x1b[31m\n", "{0}:1: ?[31m: no such word\n"),
        (START + "kind=03\n", "{0}:5: kind=NUMBER wanted, 'kind=03' found\n"),
        (START + "kind=3\na=76\n", "{0}:6: cut short: b=NUMBER wanted behind this line\n"),
        (START + "kind=3", "{0}:5: the last line has no end\n"),
        ("kind=6\r\na=0\r\n", "{0}:1: kind=NUMBER wanted, 'kind=6\\r' found, a line that ends with byte 13 (carriage return) before byte 10\n"),
        ("kind=6\n" + "x" * MOST, "{0}: 16777223 bytes of records, at most 16777216 (16 MiB) are replayed\n"),
    ]:
        file.write_text(text, newline="")
        want = said.format(file)
        check(f"refused: {want.replace(str(room), '..')[:80]!r}", differs(run("show.py", file), (1, "", want)))
    none = room / "none"
    check("a missing file and a folder", differs((run("show.py", none), run("show.py", room)),
                                                 ((1, "", f"{none}: No such file or directory\n"), (1, "", f"{room}: Is a directory\n"))))
    file.write_text(STANDBY_TRACE)
    with open("/dev/full", "w") as full:
        done = subprocess.run([TOOLS / "show.py", file], stdout=full, stderr=subprocess.PIPE, text=True)
    check("a full device", differs((done.returncode, done.stderr), (1, "standard output: No space left on device\n")))
    check("no other address", differs((run("show.py", file, "--address", "78")[:2]), (2, "")))
    for name in "show.py", "explain.py", "trace.py", "output.py", "table.py", "names.txt":
        shutil.copy(TOOLS / name, room)
    (room / "answer.sh").write_text("#!/bin/sh\necho a message >&2\nexit 5\n")
    (room / "answer.sh").chmod(0o755)
    done = subprocess.run([room / "show.py", file], input=b"", capture_output=True)
    want = f"a message\n{file}: its records on the standard input of tools/answer.sh, which ended with code 5\n"
    check("no answers", differs((done.returncode, done.stdout, done.stderr.decode()), (1, b"", want)))


def helps(room):
    names = ["answer.sh", "cases.py", "cases.sh", "explain.py", "replay.sh", "show.py", "trace.py", "wave.py"]
    wrong = []
    for name in names:
        code, out, said = run(name, "--help", cwd=room)
        if code or said or name not in out:
            wrong.append(f"{name}: {code} {out!r} {said!r}")
    check(f"{len(names)} tools say how they are called", wrong)
    code, out, said = run("replay.sh", TRACES / "k11.trace")
    check("the small program takes no file", differs((code, out, said.startswith("usage: tools/replay.sh < TRACE ")), (2, "", True)))


def main():
    for part in recorded, streams, arriving, bounded, malformed, too_much, files, devices, progress, built_first, installed_first, shown, helps:
        with tempfile.TemporaryDirectory() as room:
            try:
                part(Path(room))
            except Exception as error:    # the other parts still tell what they find
                check(f"'{part.__name__}' ends", [repr(error)])
    end()


main()
