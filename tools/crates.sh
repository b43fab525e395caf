# For bash scripts to source, and to use from the repository's root: what rt makes of the crates.
#   from_crate FILE CRATE COMMAND MADE WHAT    has rt's COMMAND prove and build a crate, and copies what it left in the crate's out/ to FILE, where FILE is
#                                              missing or older than the crates' text. What rt says is shown only where it fails; a terminal is told
# FILE lies outside out/: `rt ci` clears that, and links there what it proved itself.
from_crate() {
    local file=$1 crate=$2 command=$3 made=$4 what=$5 part
    # rt makes and moves crates/NAME/out, which says nothing of the text, nor does the time of crates/NAME then
    if [[ -e $file && -z $(find crates.txt crates -path 'crates/*/out' -prune -o '(' -path 'crates/*/*' -o -path crates.txt ')' -newer "$file" -print -quit) ]]; then
        return
    fi
    command -v rt >/dev/null || { echo "the $what is missing or older than crates, and rt, which proves and builds it, is not on the PATH" >&2; return 1; }
    mkdir -p "$(dirname "$file")"
    if [[ -t 2 ]]; then
        echo "proving and building the $what: some five minutes at the first run" >&2
    fi
    (cd "crates/$crate" && rt "$command") >"target/$crate.out" 2>&1 </dev/null || { cat "target/$crate.out" >&2; return 1; }
    part=$(mktemp -d "$file.XXXXXX")    # two runs at once copy aside and each moves a whole file in
    cp "crates/$crate/out/$made" "$part/$made"
    mv "$part/$made" "$file"
    rmdir "$part"
}
