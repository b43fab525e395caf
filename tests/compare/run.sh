#!/usr/bin/env bash
# Compares the proved model with the second one, on the recorded traces, on generated ones and on large ones.
#   tests/compare/run.sh                             the gate's run
#   tests/compare/run.sh --seed 7 --count 1000000    other traces, and more of them; too few leave something uncovered, which fails
# The model is x86-64 code; on another machine it runs in an emulator. The driver and the second model run on the machine itself.
set -euo pipefail
cd "$(dirname "$0")/../.."

built=target/compare
warnings=(-std=c11 -Wall -Wextra -Wpedantic -Wconversion)
sanitizers=(-g -O1 -fsanitize=address,undefined -fno-sanitize-recover=undefined)

. tools/x86.sh
mkdir -p "$built"
at=tests/compare
"${x86_cc[@]}" "${warnings[@]}" -O2 -o "$built/model" "$at"/{model,call}.c "$x86_library"
gcc "${warnings[@]}" "${sanitizers[@]}" -Isecond -o "$built/driver" \
    "$at"/{driver,recorded,large,generated,generate,damage,counts,compare,alarms,call,pipes,trace}.c \
    second/{second,second_replay,second_history}.c
"$built/driver" "$@" tests/traces "${x86_run[@]}" "$built/model"
