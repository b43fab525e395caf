# For bash scripts to source from the repository's root: how a C program that links the library is built and run. The library is x86-64
# code; on another machine Debian's cross compiler and emulator stand in, and are installed where they are missing.
#   "${x86_cc[@]}" FILES "$x86_library" -o PROGRAM    builds
#   "${x86_run[@]}" PROGRAM                           runs; empty on x86-64
#   x86_tool NAME                                     builds target/tools/NAME of tools/NAME.c, where it is missing or old

. tools/need.sh
. tools/crates.sh
need_x86
if [[ $(uname -m) == x86_64 ]]; then
    x86_cc=(gcc)
    x86_run=()
else
    x86_cc=(x86_64-linux-gnu-gcc -static)    # the emulator has no x86-64 libraries to load
    x86_run=(qemu-x86_64)
fi

x86_library=target/staticlib/libdlaveth.a
from_crate "$x86_library" dlaveth lib libdlaveth.a library || exit 1

x86_tool() {
    local program=target/tools/$1 part
    if [[ ! -e $program || -n $(find "tools/$1.c" tools/names.txt tools/x86.sh include "$x86_library" -newer "$program" -print -quit) ]]; then
        mkdir -p target/tools
        part=$(mktemp -d "$program.XXXXXX")    # two runs at once build aside and each moves a whole program in
        # the names of a record's and an answer's lines, from the one table
        awk '$1 == "record" || $1 == "answer" {
                 printf "#define %s_LINES", toupper($1)
                 for (i = 2; i <= NF; i++) printf "%s\"%s=\"", (i > 2 ? ", " : " "), $i
                 print ""
             }' tools/names.txt >"$part/names.h"
        "${x86_cc[@]}" -std=c99 -O1 -Wall -Wextra -Wpedantic -Wconversion -Iinclude "-I$part" "tools/$1.c" "$x86_library" -o "$part/$1" ||
            { rm -rf "$part"; return 1; }
        mv "$part/$1" "$program"
        rm -rf "$part"
    fi
}
