#!/usr/bin/env bash
# Runs the small program on traces that are made here, and compares all that it writes with what document 01 says, worked out here from the
# format of records and answers. The last line is 'N passed, M failed'.
set -euo pipefail
cd "$(dirname "$0")/.."

program=(tools/replay.sh)

room=$(mktemp -d)
trap 'rm -rf "$room"' EXIT
passed=0
failed=0

record() { printf 'kind=%s\na=%s\nb=%s\nc=%s\n' "$@"; }
answer() { printf 'code=%s\nreply=%s\nalert=%s\ntherm=%s\n' "$@"; }
ended() { printf 'end=%s\n' "$1"; }
# A command's output, so many times.
times() {
    local n=$1 one
    shift
    one=$("$@"; echo .)
    for ((; n > 0; n--)); do printf '%s' "${one%.}"; done
}

passes() { echo "ok $1"; passed=$((passed + 1)); }
fails() { echo "FAILED $1"; failed=$((failed + 1)); }
# Whether the program ends well, says nothing else, and writes the file `wanted` of the file `trace`.
writes() {
    "${program[@]}" <"$room/trace" >"$room/wrote" 2>"$room/said" && [[ ! -s $room/said ]] && cmp -s "$room/wrote" "$room/wanted"
}
case_of() { if writes; then passes "$1"; else fails "$1"; fi; }
# Whether a file has so many bytes.
size_of() { if [[ $(wc -c <"$room/$2") -eq $3 ]]; then passes "$1"; else fails "$1"; fi; }

# The whole case of document 01.
{ record 6 0 0 0; record 7 20 341 0; record 3 76 2 0; } >"$room/trace"
{ answer 0 0 1 1; answer 0 0 0 0; answer 0 18 0 0; ended 0; } >"$room/wanted"
case_of "the whole case"
{ answer 0 0 1 1; answer 0 0 0 0; answer 0 18 0 1; ended 0; } >"$room/wanted"
if writes; then fails "a wrong answer is found"; else passes "a wrong answer is found"; fi

: >"$room/trace"
ended 0 >"$room/wanted"
case_of "an empty trace"

# Codes 1 to 5 are answered and replay goes on; the program's chip is the one at address 76.
{ record 8 0 0 0; record 1 128 0 0; record 3 77 2 0; record 7 0 0 0; record 3 76 254 0; } >"$room/trace"
{ answer 1 0 1 1; answer 2 0 1 1; answer 3 0 1 1; answer 5 0 1 1; answer 0 65 1 1; ended 0; } >"$room/wanted"
case_of "refused records are answered"

# What yields no record: a leading zero, a record cut short, a last line with no end. The answers before it stay, those behind are not given.
{ record 6 0 0 0; record 7 20 341 0; record 3 076 2 0; record 5 0 0 0; } >"$room/trace"
{ answer 0 0 1 1; answer 0 0 0 0; ended 7; } >"$room/wanted"
case_of "a malformed record"
{ record 6 0 0 0; printf 'kind=7\na=20\n'; } >"$room/trace"
{ answer 0 0 1 1; ended 7; } >"$room/wanted"
case_of "a record cut short"
printf 'kind=6\na=0\nb=0\nc=0' >"$room/trace"
ended 7 >"$room/wanted"
case_of "a last line with no end"

# 24 KiB, of as many records as that can hold: 1293 of 19 bytes leave 9, so three are longer by 3. The remote high flag stands, so ALERT
# stays low and each alert response is answered with three digits, 2 * 76 + 1: 33 bytes, the most that an answer has.
{ record 6 0 0 0; record 7 20 341 0; record 3 76 254 0; record 3 76 255 0; times 1289 record 5 0 0 0; } >"$room/trace"
{ answer 0 0 1 1; answer 0 0 0 0; answer 0 65 0 0; answer 0 81 0 0; times 1289 answer 0 153 0 0; ended 0; } >"$room/wanted"
cp "$room/trace" "$room/full"
size_of "the longest trace has 24576 bytes" trace 24576
size_of "its answers and its end have 42669" wanted $((31 + 31 + 32 + 32 + 1289 * 33 + 6))
if [[ $(grep -c '^code=' "$room/wanted") -eq $((24576 / 19)) ]]; then passes "they are 1293"; else fails "they are 1293"; fi
case_of "the longest trace"
# The same in pieces, as a pipe may bring it.
pieces() {
    head -c 7 "$room/full"
    sleep 0.2
    head -c 5007 "$room/full" | tail -c 5000
    sleep 0.2
    tail -c +5008 "$room/full"
}
if pieces | "${program[@]}" | cmp -s - "$room/wanted"; then passes "the longest trace in pieces"; else fails "the longest trace in pieces"; fi

# Longer ones: code 2, and no answer.
ended 2 >"$room/wanted"
{ cat "$room/full"; echo; } >"$room/trace"
size_of "one byte more has 24577" trace 24577
case_of "one byte more"
{ cat "$room/full"; record 5 0 0 0; } >"$room/trace"
case_of "one record more"
{ times 42 cat "$room/full"; head -c 16384 "$room/full"; } >"$room/trace"
size_of "a trace of 1 MiB" trace 1048576
case_of "1 MiB"

echo "$passed passed, $failed failed"
[[ $failed -eq 0 ]]
