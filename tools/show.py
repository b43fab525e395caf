#!/usr/bin/env python3
"""Prints each record of a file beside the chip's answer, in words: what tools/trace.py, tools/answer.sh and tools/explain.py do, in one go.

The file is in the short notation or has the records of a trace; which one, its first bytes tell. With bad input nothing is printed on standard output.
"""
import argparse
import signal
import subprocess
import sys
from pathlib import Path

import explain
import trace
from output import say
from table import USUAL_ADDRESS

BEGINS = explain.TABLE.lines["record"][0].encode() + b"="    # no line of the notation does
MOST = 1 << 24    # bytes of records; answer.sh takes no more, and would name them standard input


class Failed(Exception):
    """Why nothing is shown."""


def trace_of(data, address, named):
    """The text of the records, of either form."""
    if not data.startswith(BEGINS):
        found, wrong = trace.records(data.decode(errors="replace"), address)
        if wrong:
            raise Failed("\n".join(f"{named}:{place}: {what}" for place, what in wrong))
        data = trace.written(found).encode()
    if len(data) > MOST:
        raise Failed(f"{named}: {len(data)} bytes of records, at most {MOST} (16 MiB) are replayed")
    return data


def answers_of(data, address, named):
    """Asked of the library; what it says meanwhile, and why it has no answers, goes to standard error as it comes."""
    words = [Path(__file__).with_name("answer.sh"), "--address", str(address)]
    done = subprocess.run(words, input=data, stdout=subprocess.PIPE)
    if done.returncode:
        raise Failed(f"{named}: its records on the standard input of tools/answer.sh, which ended with code {done.returncode}")
    return explain.answers_of(done.stdout)[0]


def show(path, address, named):
    data = trace_of(explain.read(path), address, named)
    records = explain.records_of(data)
    return explain.whole(records, answers_of(data, address, named), None, named)


def main():
    parser = argparse.ArgumentParser(description=__doc__, formatter_class=argparse.RawDescriptionHelpFormatter)
    parser.add_argument("file", help="- is standard input; tools/trace.py --help has the notation")
    parser.add_argument("--address", type=int, choices=[76, 77], default=USUAL_ADDRESS,
                        help=f"the chip's bus address, and the one that the notation's lines go to; {USUAL_ADDRESS} where none is given")
    given = parser.parse_args()
    named = "standard input" if given.file == "-" else given.file
    try:
        text = show(given.file, given.address, named)
        signal.signal(signal.SIGPIPE, signal.SIG_DFL)    # a reader that stops early is no error
        say(text)
        return 0
    except explain.Bad as bad:
        said = f"{named}:{bad.place}: {bad}"
    except Failed as failed:
        said = str(failed)
    except OSError as error:
        said = f"{named}: {error.strerror}"
    except KeyboardInterrupt:
        return 130
    print(said, file=sys.stderr)
    return 1


if __name__ == "__main__":
    sys.exit(main())
