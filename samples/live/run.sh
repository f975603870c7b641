#!/usr/bin/env bash
# Makes the live systems and runs them as their scripts say, and runs the examples of docs/PYTHON.md. The programs are
# those of MICROSYS and MICROSYS_TOOL, or are built. Usage: samples/live/run.sh [--brief | --whole]
set -eu
here="$(cd "$(dirname "$0")" && pwd)"
root="$(cd "$here/../.." && pwd)"
case "${1:-}" in
--brief) rooms=1 bytes=5000 requests=20 ;;
--whole) rooms=100 bytes=1048576 requests=2000 ;;
*) rooms=3 bytes=65536 requests=100 ;;
esac
export MICROSYS="${MICROSYS:-$root/crates/microsys/out/microsys}"
export MICROSYS_TOOL="${MICROSYS_TOOL:-$root/crates/microsys_tool/out/microsys_tool}"
tool="$root/tools/make_system/microsys_tool"
for needed in "$MICROSYS" "$MICROSYS_TOOL" riscv64-unknown-elf-gcc python3; do
    command -v "$needed" >/dev/null || { echo "skipped: samples/live: $needed is not there" && exit 0; }
done
room="$(mktemp -d)"
trap 'rm -rf "$room"' EXIT

# A text with its instructions and certificates, as the description says it, whose run needs no compiler.
made() {
    "$tool" expand "$here/$1/$1.sys" "$room/$1.expanded" >"$room/notes"
    "$tool" certify "$room/$1.expanded" "$room/$1.txt" >"$room/budgets"
    echo "$1: $(paste -sd' ' "$room/budgets")"
}

for name in thermostat gateway key_store; do
    made "$name"
done
python3 -B "$here/thermostat/thermostat.py" "$room/thermostat.txt" "$rooms"
python3 -B "$here/thermostat/thermostat.py" "$room/thermostat.txt" --trace "$room/thermostat.trace"
"$tool" chart "$room/thermostat.trace" "$room/thermostat.txt" >"$room/thermostat.svg"
for word in "sensor 0" "heater 0"; do
    grep -q ">$word" "$room/thermostat.svg" || { echo "FAILED: the chart has no curve of $word" && exit 1; }
done
python3 -B "$here/gateway/gateway.py" "$room/gateway.txt" "$bytes"
python3 -B "$here/key_store/key_store.py" "$room/key_store.txt" "$requests"
[ "${1:-}" = --brief ] || python3 -B "$root/tools/python/examples.py" "$room"
echo "all as expected"
