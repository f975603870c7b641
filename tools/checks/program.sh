#!/bin/sh
# Proves a program over libraries that stand, compiles it and runs it once: tools/checks/program.sh NAME BACKEND WORD ..
# What the toolchain says is shown where it fails.
set -eu
name="$1" backend="$2"
shift 2
said="$(mktemp)"
trap 'rm -f "$said"' EXIT
cd "$(dirname "$0")/../../crates/$name"
echo "$(date +%H:%M:%S) $name: the program itself is proved and compiled"
../../tools/checks/libraries.py rt run --backend "$backend" -- "$@" >"$said" 2>&1 || {
    cat "$said"
    echo "$name is not built" >&2
    exit 1
}
echo "$(date +%H:%M:%S) $name: proved, and built at crates/$name/out/$name"
