#!/usr/bin/env bash
# tests/quick.c: wrong bytes where records are read quickly, beside the second model. The last line is 'N passed, 0 failed'.
set -euo pipefail
cd "$(dirname "$0")/.."
. tools/x86.sh

mkdir -p target/tests
"${x86_cc[@]}" -std=c11 -Wall -Wextra -Wpedantic -Wconversion -O1 -Iinclude -Isecond tests/quick.c second/second.c second/second_replay.c "$x86_library" -o target/tests/quick
"${x86_run[@]}" target/tests/quick
