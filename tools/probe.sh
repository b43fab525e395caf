#!/usr/bin/env bash
# tools/probe.sh ADDRESS COMMAND.. < TRACE: builds tools/probe.c, and the library, where they are missing or old, and runs it.
set -euo pipefail
cd "$(dirname "$0")/.."
{
    . tools/x86.sh
    x86_tool probe
} </dev/null    # the trace on standard input is for the program
exec "${x86_run[@]}" target/tools/probe "$@"
