#!/usr/bin/env bash
# The C entry as a C program meets it: two examples with header and library alone, the header in C++, and tests/entry.c. The last line is 'N passed, 0 failed'.
set -euo pipefail
cd "$(dirname "$0")/.."
. tools/x86.sh
need g++ g++

wanted='code=0
reply=0
alert=1
therm=1
code=0
reply=0
alert=0
therm=0
code=0
reply=18
alert=0
therm=0
code 0: 3 records, 61 bytes of trace, 94 bytes of answers'
# four at once, since other tests and users build it too: each must run a whole program
room=$(mktemp -d)
trap 'rm -rf "$room"' EXIT
for n in 1 2 3 4; do examples/run.sh whole_case >"$room/$n" 2>&1 && touch "$room/$n.ended" & done
wait
for n in 1 2 3 4; do
    got=$(<"$room/$n")
    [[ -e $room/$n.ended && $got == "$wanted" ]] || { echo "FAILED: the example wrote"; echo "$got"; exit 1; }
done

wanted='380 bytes of trace, room 660: code 0, 20 records, 656 bytes of answers
16777209 bytes of trace, room 29139363: code 0, 883011 records, 29139359 bytes of answers'
got=$(examples/run.sh room) || { echo "FAILED: the example of room: $got"; exit 1; }
[[ $got == "$wanted" ]] || { echo "FAILED: the example of room wrote"; echo "$got"; exit 1; }

g++ -Wall -Wextra -Wpedantic -Werror -fsyntax-only -x c++ include/dlaveth.h

mkdir -p target/tests
"${x86_cc[@]}" -std=c11 -Wall -Wextra -Wpedantic -Wconversion -Werror -O1 -Iinclude tests/entry.c "$x86_library" -pthread -o target/tests/entry
got=$("${x86_run[@]}" target/tests/entry) || { echo "$got"; exit 1; }
[[ $got =~ ([0-9]+)\ passed,\ 0\ failed$ ]]
echo "$((BASH_REMATCH[1] + 3)) passed, 0 failed"
