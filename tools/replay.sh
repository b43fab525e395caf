#!/usr/bin/env bash
# The small program: a trace on standard input, its answers on standard output. Builds it where it is missing or old, then runs it. It is an x86-64
# program; on another machine Debian's emulator and C library stand in, and are installed where they are missing.
set -euo pipefail
usage="usage: tools/replay.sh < TRACE    (for address 76, at most 24 KiB; tools/answer.sh takes 16 MiB, files and address 77)"
case ${1-} in
    '') ;;
    -h | --help) echo "$usage"; exit ;;
    *) echo "$usage" >&2; exit 2 ;;
esac
cd "$(dirname "$0")/.."
. tools/crates.sh
program=target/bin/console
from_crate "$program" console run console "small program" </dev/null    # rt runs what it built: here on no input
run=()
if [[ $(uname -m) != x86_64 ]]; then
    . tools/need.sh
    need qemu-x86_64 qemu-user </dev/null
    [[ -e /usr/x86_64-linux-gnu/lib/libc.so.6 ]] || need x86_64-linux-gnu-gcc gcc-x86-64-linux-gnu libc6-dev-amd64-cross </dev/null
    run=(qemu-x86_64 -L /usr/x86_64-linux-gnu)
fi
exec "${run[@]}" "$program"
