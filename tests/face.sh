#!/usr/bin/env bash
# A chip in bytes from C: event by event beside the second model, with sanitizers where the machine runs the library itself; the driver's calls
# one by one; and the driver's example as a user builds it, in one file elsewhere. The last line is 'N passed, 0 failed'.
#   tests/face.sh [EVENTS [SEED]]
set -euo pipefail
cd "$(dirname "$0")/.."
. tools/x86.sh
need g++ g++

mkdir -p target/tests
room=$(mktemp -d)
trap 'rm -rf "$room"' EXIT
warnings=(-Wall -Wextra -Wpedantic -Wconversion -Werror)
sanitizers=(-g -O1)
if ((${#x86_run[@]} == 0)); then
    sanitizers+=(-fsanitize=address,undefined,float-cast-overflow -fno-sanitize-recover=undefined,float-cast-overflow)
fi
sum=0

# Runs one program and adds the count on its last line.
counted() {
    local got
    got=$("${x86_run[@]}" "$@") || { echo "$got"; echo "FAILED: $1"; exit 1; }
    echo "$got" | tail -n 2
    [[ ${got##*$'\n'} =~ ^([0-9]+)\ passed,\ 0\ failed$ ]] || { echo "FAILED: $1: its last line is '${got##*$'\n'}'"; exit 1; }
    sum=$((sum + BASH_REMATCH[1]))
}

"${x86_cc[@]}" -std=c11 "${warnings[@]}" "${sanitizers[@]}" -Iinclude -Isecond tests/{face,chip_bytes}.c second/second.c "$x86_library" -o target/tests/face
counted target/tests/face "$@"
"${x86_cc[@]}" -std=c99 "${warnings[@]}" "${sanitizers[@]}" -Iinclude tests/driver.c "$x86_library" -o target/tests/driver
counted target/tests/driver

cp examples/driver_test.c "$room/mine.c"
for standard in c99 gnu17; do
    "${x86_cc[@]}" "-std=$standard" "${warnings[@]}" "-I$PWD/include" "$room/mine.c" "$PWD/$x86_library" -o "$room/mine"
    got=$("${x86_run[@]}" "$room/mine") || { echo "$got"; echo "FAILED: the example at $standard"; exit 1; }
    [[ ${got##*$'\n'} == "the driver is right" ]] || { echo "FAILED: the example wrote '${got##*$'\n'}'"; exit 1; }
    sum=$((sum + 1))
done
# The example notices a wrong driver: one that forgets the alert response.
sed 's/int who = i2c_smbus_read_byte(&everyone);/int who = 2 * client->addr + 1; (void)everyone;/' examples/driver_test.c >"$room/wrong.c"
! cmp -s examples/driver_test.c "$room/wrong.c"
"${x86_cc[@]}" -std=c99 "${warnings[@]}" "-I$PWD/include" "$room/wrong.c" "$x86_library" -o "$room/wrong"
if "${x86_run[@]}" "$room/wrong" >"$room/said"; then
    echo "FAILED: a wrong driver passes the example's test"
    exit 1
fi
g++ -Wall -Wextra -Wpedantic -Werror -fsyntax-only -x c++ include/dlaveth_driver.h
echo "$((sum + 2)) passed, 0 failed"
