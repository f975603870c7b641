#!/usr/bin/env bash
# Tests the Python module: with runs that tools/traces reckons, and with both programs where they are built, or where
# MICROSYS and MICROSYS_TOOL name them; and installs it by pip into a folder. Usage: tools/python/run.sh [--cheap], which
# reckons and does no more.
set -eu
here="$(cd "$(dirname "$0")" && pwd)"
root="$(cd "$here/../.." && pwd)"
room="$(mktemp -d)"
trap 'rm -rf "$room"' EXIT

# Runs the tests with what runs images and texts; what they say is shown where they fail.
tested() {
    local what="$1"
    MICROSYS="$2" MICROSYS_TOOL="$3" python3 -B -m unittest discover -s "$here/tests" >"$room/said" 2>&1 ||
        { cat "$room/said" && echo "FAILED: $what" && exit 1; }
    echo "as expected: $what, $(sed -n 's/^Ran \([0-9]* tests\) .*/\1/p' "$room/said")"
}

# The folder, installed, is the module.
installed() {
    cp -r "$here" "$room/folder"
    python3 -m pip install -q --no-index --target "$room/to" "$room/folder" >"$room/said" 2>&1 ||
        { cat "$room/said" && echo "FAILED: pip install" && exit 1; }
    diff -r -x '*.pyc' -x __pycache__ "$here/microsys" "$room/to/microsys"
    echo "as expected: pip install"
}

tested "reckoned runs" "$root/tools/traces/live.py" "$root/tools/traces/live.py"
[ "${1:-}" != --cheap ] || exit 0
program="${MICROSYS:-$root/crates/microsys/out/microsys}"
tool="${MICROSYS_TOOL:-$root/crates/microsys_tool/out/microsys_tool}"
if [ -x "$program" ] && [ -x "$tool" ]; then
    tested "both programs" "$program" "$tool"
else
    echo "skipped: tests with both programs: they are not built"
fi
if python3 -m pip --version >"$room/said" 2>&1; then
    installed
else
    echo "skipped: pip install: pip is not there"
fi
