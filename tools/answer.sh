#!/usr/bin/env bash
# Builds tools/answer.c, and the library, where they are missing or old, and runs it.
set -euo pipefail

for word; do
    if [[ $word == -h || $word == --help ]]; then
        cat <<'END'
usage: tools/answer.sh [--address 76|77] [-o FILE] [TRACE]

Replays a trace on a chip that was just powered on, and writes the answers as its records arrive.

  TRACE            the records; - or none is standard input, which may be a pipe that is still written to
  --address 76|77  the chip's bus address, 76 where none is given
  -o FILE          where the answers go, instead of standard output; emptied first

Each answer is written as soon as its record is there, to a FILE too, and stays written whatever follows. The end of TRACE is its end, so
a file that still grows goes through a pipe: tail -n +1 -f TRACE | tools/answer.sh. A record that is malformed or cut short by the end, a
trace of more than 16 MiB, whose first 16 MiB are answered, or a file that cannot be read or written: one message with the place, and exit
code 1. On a terminal a replay that lasts shows how far it is, where the answers go elsewhere. tools/show.py shows records and answers in
words.
END
        exit
    fi
done

here=$PWD
CDPATH='' cd "$(dirname "$0")/.."    # with one, cd may print
{
    . tools/x86.sh
    x86_tool answer
} </dev/null    # a trace on standard input is for the program
program=$PWD/target/tools/answer
cd "$here"    # the files are named from there
exec "${x86_run[@]}" "$program" "$@"
