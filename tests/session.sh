#!/usr/bin/env bash
# A trace in portions from C: call by call beside the second model, with sanitizers where the machine runs the library itself. The last line is
# 'N passed, 0 failed'.
#   tests/session.sh [TRACES [SEED]]
set -euo pipefail
cd "$(dirname "$0")/.."
. tools/x86.sh

mkdir -p target/tests
sanitizers=(-g -O2)
if ((${#x86_run[@]} == 0)); then
    sanitizers+=(-fsanitize=address,undefined -fno-sanitize-recover=undefined)
fi
"${x86_cc[@]}" -std=c11 -Wall -Wextra -Wpedantic -Wconversion -Werror "${sanitizers[@]}" -Iinclude -Isecond \
    tests/session{,_bytes,_call,_play,_second}.c tests/chip_bytes.c tests/sessions/recorded.c tests/compare/{generate,damage,trace,call}.c \
    second/{second,second_replay,second_session}.c "$x86_library" -o target/tests/session
exec "${x86_run[@]}" target/tests/session tests "$@"
