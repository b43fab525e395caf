#!/usr/bin/env bash
# The project's replay beside the second model's: bytes per second, instructions per byte, and where the instructions go. Some five minutes
# under emulation. It is no test: it fails where the answers differ or a program does, and never on a figure. docs/BENCHMARK.md explains it.
set -euo pipefail
cd "$(dirname "$0")/.."
. tools/x86.sh

out=target/bench
program=$out/bench
mkdir -p "$out"

# ---- build

warn=(-std=c11 -Wall -Wextra -Wpedantic -Wconversion)
objects=()
for level in 2 3; do
    own=()
    for name in replay step fresh room seen_counts well_formed answer_fits write_answer write_word; do    # every global name of the second model, so that it can stand twice in one program
        own+=("-Dsecond_$name=o${level}_$name")
    done
    for file in second second_replay; do             # -g changes no instruction, and tells which function each one comes from
        "${x86_cc[@]}" "${warn[@]}" "-O$level" -g -DSECOND_COUNTING=0 "${own[@]}" -c "second/$file.c" -o "$out/o${level}_$file.o"
        objects+=("$out/o${level}_$file.o")
    done
done
# Static and at fixed addresses, so that what is counted at an address is found in the listing, and the same on every machine.
"${x86_cc[@]}" "${warn[@]}" -O2 -static -no-pie -Iinclude bench/bench.c "${objects[@]}" "$x86_library" -o "$program"

# ---- bytes per second

echo "== Bytes of trace per second, best of several rounds"
if ((${#x86_run[@]})); then
    echo "Under emulation (${x86_run[*]} on $(uname -m)): these say nothing of x86-64 hardware."
fi
"${x86_run[@]}" "$program"

# ---- instructions

# Debian's valgrind for x86-64, unpacked beside the build. The package lists are in a folder of their own, so that the machine's package
# manager does not learn of a second architecture.
fetch_counter() {
    local home=$PWD/$out/amd64 apt
    [[ ! -x $home/tree/usr/libexec/valgrind/callgrind-amd64-linux ]] || return 0
    mkdir -p "$home"/{lists/partial,cache/archives/partial,tree}
    touch "$home/status"
    apt=(apt-get -qq -o APT::Architecture=amd64 -o APT::Architectures=amd64 -o "Dir::State=$home" -o "Dir::State::status=$home/status"
        -o "Dir::Cache=$home/cache" -o APT::Sandbox::User=root)
    "${apt[@]}" update
    (cd "$home" && "${apt[@]}" download valgrind)
    dpkg -x "$home"/valgrind_*_amd64.deb "$home/tree"
}

binutils=
if ((${#x86_run[@]})); then
    fetch_counter
    binutils=x86_64-linux-gnu-
    tree=$PWD/$out/amd64/tree
    counter=(env "VALGRIND_LIB=$tree/usr/libexec/valgrind" "VALGRIND_LAUNCHER=$tree/usr/bin/valgrind"
        "${x86_run[@]}" "$tree/usr/libexec/valgrind/callgrind-amd64-linux")
else
    need valgrind valgrind
    counter=(valgrind)
fi

declare -A entry=([project]=replay [o2]=o2_replay [o3]=o3_replay [events]=dlaveth_event [pages]=dlaveth_feed [bytes]=dlaveth_feed)

# Counts one replay: who, trace, bytes at most. Sets bytes, records, total; $out/WHO-TRACE-BYTES.out has the count of each address.
count() {
    local file=$out/$1-$2-$3
    "${counter[@]}" --tool=callgrind --dump-instr=yes --dump-line=no --compress-strings=no --compress-pos=no \
        --toggle-collect="${entry[$1]}" --callgrind-out-file="$file.out" "$program" --count "$1" "$2" "$3" >"$file.size" 2>"$file.err" ||
        { cat "$file.err" >&2; exit 1; }
    read -r bytes records <"$file.size"
    total=$(awk '/^totals:/ { print $2 }' "$file.out")
    [[ $total -gt 0 ]] || { echo "nothing was counted: $file.out" >&2; exit 1; }
}

per() {
    awk -v n="$1" -v d="$2" 'BEGIN { printf "%.2f", n / d }'
}

echo
echo "== Instructions in one replay, counted by callgrind"
printf '%-8s %-8s %10s %9s %12s %10s %10s\n' trace who bytes records total per_byte per_record
declare -A small
"${x86_run[@]}" "$program" --sizes >"$out/sizes"
while read -r trace longest sixteenth <&3; do
    if [[ $trace == short ]]; then sixteenth=$longest; fi
    for who in project o2 o3; do
        count "$who" "$trace" "$sixteenth"
        small[$who-$trace]=$total
        printf '%-8s %-8s %10s %9s %12s %10s %10s\n' "$trace" "$who" "$bytes" "$records" "$total" "$(per "$total" "$bytes")" "$(per "$total" "$records")"
    done
done 3<"$out/sizes"

echo
echo "== Instructions in one dlaveth_event, the trace's records one by one on a chip in bytes"
while read -r trace longest sixteenth <&3; do
    if [[ $trace == short ]]; then sixteenth=$longest; fi
    count events "$trace" "$sixteenth"
    printf '%-8s %9s %12s %10s\n' "$trace" "$records" "$total" "$(per "$total" "$records")"
done 3<"$out/sizes"

echo
echo "== Instructions in dlaveth_feed, the trace in portions (wanted: in portions of 4 KiB at most 1.1 times one replay)"
while read -r trace longest sixteenth <&3; do
    if [[ $trace == short ]]; then continue; fi
    count pages "$trace" "$sixteenth"
    pages=$total
    count bytes "$trace" "$((sixteenth / 64))"
    part=$total part_len=$bytes
    count bytes "$trace" "$((sixteenth / 16))"
    printf '%-8s 4 KiB: %s times one replay; 1 byte: %s instructions for each byte, %s of four times the trace\n' "$trace" \
        "$(per "$pages" "${small[project-$trace]}")" "$(per "$part" "$part_len")" "$(per "$total" "$bytes")"
done 3<"$out/sizes"

echo
echo "== Sixteen times the trace (wanted: at most 16.5 times the instructions)"
while read -r trace longest sixteenth <&3; do
    if [[ $trace == short ]]; then continue; fi
    count project "$trace" "$longest"
    ratio=$(per "$total" "${small[project-$trace]}")
    awk -v r="$ratio" -v t="$trace" -v n="$total" -v m="${small[project-$trace]}" -v b="$bytes" \
        'BEGIN { printf "%-8s %s bytes: %s / %s = %s, %s\n", t, b, n, m, r, r <= 16.5 ? "at most 16.5" : "MORE THAN 16.5" }'
done 3<"$out/sizes"

# ---- where they go

"${binutils}objdump" -d --no-show-raw-insn "$program" >"$out/listing"
names=$(grep -n 'memcmp(rest, name' second/second_replay.c | cut -d: -f1)
echo
echo "== Where the instructions go"
while read -r trace longest sixteenth <&3; do
    if [[ $trace == short ]]; then continue; fi
    for who in project o3; do
        file=$out/$who-$trace-$sixteenth
        read -r bytes records <"$file.size"
        echo "$trace, $who:"
        awk -f bench/addresses.awk "$file.out" >"$file.addresses"
        if [[ $who == project ]]; then
            python3 bench/project.py "$file.addresses" "$out/listing"
        else
            cut -d' ' -f1 "$file.addresses" | "${binutils}addr2line" -f -e "$program" | paste -d' ' - - |
                paste -d' ' "$file.addresses" - | awk -v names="$names" -f bench/second.awk
        fi | awk -F'\t' -v bytes="$bytes" -v records="$records" '
            function show(part, n) { printf "  %-46s %9.2f per byte %9.1f per record\n", part, n / bytes, n / records }
            { show($1, $2); sum += $2 }
            END { show("all", sum) }'
    done
done 3<"$out/sizes"
