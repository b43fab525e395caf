#!/usr/bin/env bash
# Replays what a fuzzer makes in both models and compares every byte; docs/FUZZING.md explains it. With --portions first, each of these feeds a
# session call by call instead, from a corpus of its own.
#   tests/fuzz/run.sh                         each input of the corpus once: the gate's run
#   tests/fuzz/run.sh FILE..                  these inputs, each once
#   tests/fuzz/run.sh --coverage [FILE..]     the same, and how much of the second model they reach; each place in target/fuzz/coverage
#   tests/fuzz/run.sh --minutes 10 [--keep]   fuzzes for so long, from the corpus; --keep brings what was reached back into it
# The model is x86-64 code; on another machine it runs in an emulator. The second model and the fuzzer run on the machine itself.
set -euo pipefail
cd "$(dirname "$0")/../.."

at=tests/fuzz
warnings=(-std=c11 -Wall -Wextra -Wpedantic -Wconversion)
sanitizers=(-g -O1 -fsanitize=address,undefined -fno-sanitize-recover=undefined)
others=("$at"/events.c tests/compare/{compare,alarms,call,pipes,trace}.c second/second_history.c)

if [[ ${1-} == --portions ]]; then
    shift
    built=target/fuzz_portions corpus=$at/portions_corpus
    compared=(second/{second,second_replay,second_session}.c)
    others+=("$at"/portions.c tests/session_{bytes,call,second}.c tests/chip_bytes.c)
    modelled=("$at"/portions_model.c tests/session_call.c)
    # two bytes at a time with room enough; then portions and rooms of every sort; the end with the last byte
    heads=('\0\0\0\0\202\0\202\0\202\0\202\0\202\0\202\0' '\0\0\0\0\007\004\077\004\012\003\224\007\100\006\277\074')
else
    built=target/fuzz corpus=$at/corpus
    compared=(second/{second,second_replay}.c)
    others+=("$at"/input.c)
    modelled=(tests/compare/model.c)
    heads=('\0\0\0\0')    # address 76 and room enough
fi
minutes=0 keep=false coverage=false files=()
while (($#)); do
    case $1 in
    --minutes) minutes=${2:?how many}; shift ;;
    --keep) keep=true ;;
    --coverage) coverage=true ;;
    *) files+=("$1") ;;
    esac
    shift
done
[[ $minutes =~ ^(0|[1-9][0-9]*)$ ]] || { echo "--minutes: a whole number is wanted" >&2; exit 2; }

. tools/x86.sh
mkdir -p "$built"
"${x86_cc[@]}" "${warnings[@]}" -O2 -Itests -Itests/compare -o "$built/model" "${modelled[@]}" tests/compare/call.c "$x86_library"
printf -v words '"%s", ' "${x86_run[@]}" "$built/model"
flags=("${warnings[@]}" "${sanitizers[@]}" -Iinclude -Isecond -Itests -Itests/compare "-DMODEL=${words%, }")

((${#files[@]})) || files=("$corpus"/*)
if ((minutes == 0)) && ! $coverage; then
    gcc "${flags[@]}" -o "$built/files" "$at/files.c" "${others[@]}" "${compared[@]}"
    exec "$built/files" "${files[@]}"
fi

need clang clang libclang-rt-dev
if $coverage; then
    need llvm-cov llvm
    clang "${flags[@]}" -fprofile-instr-generate -fcoverage-mapping -o "$built/covered" "$at/files.c" "${others[@]}" "${compared[@]}"
    LLVM_PROFILE_FILE=$built/profile.raw "$built/covered" "${files[@]}"
    llvm-profdata merge "$built/profile.raw" -o "$built/profile"
    llvm-cov show "$built/covered" -instr-profile="$built/profile" -show-branches=count "${compared[@]}" >"$built/coverage"
    llvm-cov report "$built/covered" -instr-profile="$built/profile" -show-region-summary=false "${compared[@]}"
    exit
fi
# Only the second model is watched: what the fuzzer's own code does is nothing to look for. It is not optimised, so that each of its tests is
# seen as a jump.
objects=()
compile() {
    objects+=("$built/$(basename "$1").o")
    clang "${flags[@]}" "${@:2}" -c "$1" -o "${objects[-1]}"
}
for file in "${compared[@]}"; do compile "$file" -O0 -fsanitize=fuzzer-no-link; done
for file in "$at/fuzzer.c" "${others[@]}"; do compile "$file"; done
clang "${sanitizers[@]}" -fsanitize=fuzzer -o "$built/fuzzer" "${objects[@]}"

# Beside the corpus: the recorded traces behind each head; and, of a replay, an output as long as may be, and longer.
most=1024
scratch=$built/scratch found=$built/found log=$built/log
rm -rf "$scratch" "$found"
mkdir -p "$scratch" "$found" "$corpus"
for i in "${!heads[@]}"; do
    for file in tests/traces/*.trace; do
        cat <(printf "${heads[i]}") "$file" >"$scratch/$i-$(basename "$file")"
    done
done
printf '\0\377\0\0' >"$scratch/most"
printf '\0\377\1\0' >"$scratch/more"
before=$(find "$corpus" -type f | wc -l)
bad=0
"$built/fuzzer" -max_total_time=$((60 * minutes)) -max_len=$most -timeout=60 -dict="$at/words.dict" -print_final_stats=1 \
    -artifact_prefix="$found/" "$scratch" "$corpus" >"$log" 2>&1 || bad=$?
input=$(find "$found" -type f | head -n 1)
if ((bad != 0)) || [[ -n $input ]]; then
    tail -n 60 "$log"
    echo "FOUND: ${input:-no input; the fuzzer ended with $bad}"
    exit 1
fi
if $keep; then
    rm -rf "$built/merged"
    mkdir "$built/merged"
    "$built/fuzzer" -set_cover_merge=1 -use_counters=0 -max_len=$most "$built/merged" "$corpus" "$scratch" >"$built/merge.log" 2>&1
    rm -rf "$corpus"
    mv "$built/merged" "$corpus"
fi
value() { sed -nE "s/$1/\1/p" "$log" | tail -n 1; }
echo "executions   $(value '^stat::number_of_executed_units: *([0-9]+)'), $(value '^stat::average_exec_per_sec: *([0-9]+)') per second"
echo "coverage     $(value '^#[0-9]+\s+DONE +cov: ([0-9]+).*') of $(value '.*Loaded 1 modules +\(([0-9]+).*') edges, $(value '^#[0-9]+\s+DONE.* ft: ([0-9]+).*') features"
echo "corpus       $before before, $(find "$corpus" -type f | wc -l) now, of $(cat "$corpus"/* | wc -c) bytes; $(find "$scratch" -type f | wc -l) in $scratch"
echo "nothing found"
