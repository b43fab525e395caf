#!/usr/bin/env bash
# The checks of a release, which docs/RELEASE.md describes; the last line comes only if all passed.
set -euo pipefail
cd "$(dirname "$0")/.."

said=()
# Runs one part, shows what it prints, and keeps its last line.
part() {
    local out good=true
    out=$(mktemp)
    "$@" 2>&1 | tee "$out" || good=false
    said+=("$*: $(tail -n 1 "$out")")
    rm -f "$out"
    $good || { echo "FAILED: $*"; exit 1; }
}

part .ci/run
part tests/compare/run.sh --seed 7 --count 300000
part tests/face.sh 5000000 7
part tests/session.sh 200000 7
part tests/fuzz/run.sh --minutes 10
part tests/fuzz/run.sh --portions --minutes 10
part tests/mutation/run.py
printf '%s\n' "${said[@]}"
echo "release check passed"
