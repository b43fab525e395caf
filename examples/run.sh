#!/usr/bin/env bash
# Builds a C program of this folder with the headers and the library alone, and runs it: examples/run.sh [NAME [FILE..]], whole_case where none
# is given; the files are built with it.
set -euo pipefail
cd "$(dirname "$0")/.."
. tools/x86.sh

name=${1:-whole_case}
if [[ ! -e examples/$name.c ]]; then
    echo "examples/$name.c: no such program; there are: $(cd examples && echo *.c | sed 's/\.c\b//g')" >&2
    exit 2
fi
mkdir -p target/examples
part=$(mktemp -d "target/examples/$name.XXXXXX")    # two runs at once build aside and each moves a whole program in
trap 'rm -rf "$part"' EXIT
"${x86_cc[@]}" -std=c99 -Wall -Wextra -Wpedantic -Wconversion -Iinclude "examples/$name.c" "${@:2}" "$x86_library" -o "$part/$name"
mv "$part/$name" "target/examples/$name"
"${x86_run[@]}" "target/examples/$name"
