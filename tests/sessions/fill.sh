#!/usr/bin/env bash
# Writes into the recorded sessions what the second model gives; recorded.h has their form. A new one needs its calls up to the room, and a line in INDEX.txt.
set -euo pipefail
cd "$(dirname "$0")/../.."
mkdir -p target/tests
gcc -std=c11 -Wall -Wextra -Wpedantic -Wconversion -Werror -g -O1 -fsanitize=address,undefined -Isecond tests/sessions/{fill,recorded}.c \
    second/{second,second_replay,second_session}.c -o target/tests/fill
target/tests/fill tests
