#!/usr/bin/env bash
# Outside the gate: texts of kinds.py, each of which has to get a certificate, or none where the rules bear none; 200 random
# programs of loops, of which 95 per cent have to get certificates; and a text of 65,536 instructions, which has to get one
# within 20 seconds. What is written is built and verified once more by `microsys`. At the end large.py takes time and memory of
# large texts of three kinds. Asks for `make build tool` before.
# With a number as its word other programs are made: each number gives its own.
set -euo pipefail
here="$(cd "$(dirname "$0")" && pwd)"
root="$(cd "$here/../.." && pwd)"
tool="$root/crates/microsys_tool/out/microsys_tool"
program="$root/crates/microsys/out/microsys"
room="$(mktemp -d)"
trap 'rm -rf "$room"' EXIT

# Whether a text gets a certificate; what it gets is verified once more.
is_certified() {
    "$tool" certify "$1" "$1.out" >"$room/said" 2>"$room/errors" || return 1
    if ! "$program" build "$1.out" "$room/img" || [ "$("$program" verify "$room/img")" != accepted ]; then
        echo "$(basename "$1"): certified, and not accepted"
        exit 1
    fi
}

"$here/kinds.py" "$room"
for text in "$room"/found/*.txt; do
    if ! is_certified "$text"; then
        echo "$(basename "$text"): $(cat "$room/errors")"
        exit 1
    fi
done
for text in "$room"/none/*.txt; do
    if is_certified "$text" || ! grep -q ' NoMeasure: ' "$room/errors"; then
        echo "$(basename "$text"): $(cat "$room/said" "$room/errors")"
        exit 1
    fi
done
echo "all kinds as expected"
"$here/loops.py" "$room" 200 "${1:-1}"
accepted=0
for text in "$room"/loop*.txt; do
    if is_certified "$text"; then
        accepted=$((accepted + 1))
    else
        echo "$(basename "$text"): $(cat "$room/errors")"
    fi
done
echo "$accepted of 200 programs have certificates"
"$here/loops.py" "$room/long.txt" long 65536
began=$(date +%s%N)
"$tool" certify "$room/long.txt" "$room/long.out"
took=$((($(date +%s%N) - began) / 1000000))
"$program" build "$room/long.out" "$room/img"
"$program" verify "$room/img"
echo "65,536 instructions in $took ms"
[ "$accepted" -ge 190 ] && [ "$took" -le 20000 ] && "$here/large.py" "$tool" "$program"
