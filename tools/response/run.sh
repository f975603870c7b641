#!/usr/bin/env bash
# How soon systems rest, as `microsys_tool response` says: rows whose longest runs are known; all
# lists of events that keep the rates, for small systems; `within` at the numbers that are said and below;
# and 500 random systems, or N, over interrupts as dense as their rates allow. Usage: tools/response/run.sh [N]
set -u
cd "$(dirname "$0")/../.." || exit 1
tool="${MICROSYS_TOOL:-crates/microsys_tool/out/microsys_tool}"
program="${MICROSYS:-crates/microsys/out/microsys}"
bad=0

check() {
    "$@" || bad=$((bad + 1))
}

check python3 tools/response/rows.py "$tool" "$program"
check python3 tools/response/all_lists.py "$tool" "$program"
check python3 tools/response/within.py "$tool"
check python3 tools/response/systems.py "$program" "$tool" "${1:-500}"
[ "$bad" = 0 ] && echo "response: all as expected"
[ "$bad" = 0 ]
