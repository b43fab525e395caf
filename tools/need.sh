# For bash scripts to source: installs Debian's packages where a command is missing. A terminal is told so; what apt says is shown only where it
# fails, since a tool's standard error is its own.
#   need COMMAND PACKAGE..
#   need_x86                  what builds x86-64 programs, and runs them on another machine
need() {
    local command=$1 said
    shift
    command -v "$command" >/dev/null && return
    if [[ -t 2 ]]; then
        echo "installing $*" >&2
    fi
    said=$(export DEBIAN_FRONTEND=noninteractive && apt-get update -qq 2>&1 && apt-get install -y -qq "$@" 2>&1) || {
        echo "$command is missing, and Debian's packages for it ($*) could not be installed:" >&2
        echo "$said" >&2
        return 1
    }
}

need_x86() {
    need gcc gcc libc6-dev
    if [[ $(uname -m) != x86_64 ]]; then
        need x86_64-linux-gnu-gcc gcc-x86-64-linux-gnu libc6-dev-amd64-cross
        need qemu-x86_64 qemu-user
    fi
}
