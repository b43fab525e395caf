#!/bin/sh
# Proves the chip, runs the hand-worked cases through the compiled code, and shows each line with what it was answered. If the program fails
# after it wrote, the lines are shown all the same; the exit status is then its own. What it writes is held to tests/cases.txt and to what is stored.
case ${1-} in
    '') ;;
    -h | --help) echo "usage: tools/cases.sh    (proves the chip, runs tests/cases.txt and shows each line with its answer)"; exit ;;
    *) echo "usage: tools/cases.sh" >&2; exit 2 ;;
esac
cd "$(dirname "$0")/.." || exit 1
wrote=$(mktemp) said=$(mktemp)    # two runs at once write apart
trap 'rm -f "$wrote" "$said"' EXIT
status=0
if [ -t 2 ]; then
    echo "proving the chip and building the cases' program: some minutes at the first run" >&2
fi
(cd crates/cases && rt run <stdin >"$wrote") 2>"$said" || { status=$?; cat "$said" >&2; }    # rt speaks on standard error
if [ "$status" -eq 0 ]; then
    python3 tools/cases.py show <"$wrote" || status=$?
    cmp "$wrote" crates/cases/stdout || status=1
elif [ -s "$wrote" ]; then
    python3 tools/cases.py show <"$wrote"
fi
exit "$status"
