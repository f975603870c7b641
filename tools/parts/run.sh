#!/usr/bin/env bash
# Parts of systems: what each takes from others, and whether what it does in the whole is what it does alone, by the definitions and by
# `microsys_tool`. The small systems of rows/, with which wrong definitions they show; N random systems, or 1,000; each part of each sample
# alone; and how long `parts` takes beside `verify`. Usage: tools/parts/run.sh [N]
set -u
cd "$(dirname "$0")/../.." || exit 1
tool="${MICROSYS_TOOL:-crates/microsys_tool/out/microsys_tool}"
bad=0

check() {
    "$@" || bad=$((bad + 1))
}

check python3 tools/parts/rows.py reckon
check python3 tools/parts/rows.py wrong
check python3 tools/parts/rows.py compare "$tool"
check python3 tools/parts/systems.py compare "$tool" "${1:-1000}"
check python3 tools/parts/samples.py "$tool"
check python3 tools/parts/large.py times "$tool"
[ "$bad" = 0 ] && echo "parts: all as expected"
[ "$bad" = 0 ]
