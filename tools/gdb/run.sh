#!/usr/bin/env bash
# `microsys_tool gdb`: a real gdb over samples/c, forwards and backwards; sessions at random beside runs from the beginning; a million
# events forwards and one backwards; a session of noise; and coverage beside counts. It says what is missing, and what was skipped.
# With --cheap few sessions. The program is that of MICROSYS_TOOL, or of `make tool`. Usage: tools/gdb/run.sh [--cheap]
set -u
here="$(cd "$(dirname "$0")" && pwd)"
root="$(cd "$here/../.." && pwd)"
sessions=300 packets=100000
[ "${1:-}" = --cheap ] && sessions=6 packets=2000
bad=0

"$root/tools/needs.sh" python3 || exit 1

# A part that needs programs of Debian.
with() {
    local needed="$1" program
    shift
    for program in $needed; do
        command -v "$program" >/dev/null 2>&1 || {
            echo "skipped: $program is not there: apt-get install gdb-multiarch gcc-riscv64-unknown-elf"
            return
        }
    done
    "$@" || bad=$((bad + 1))
}

with "gdb-multiarch riscv64-unknown-elf-gcc" python3 -B "$here/over_c.py"
for sample in "client_server 1 3" "bell 8 3" "worker 1 3"; do
    read -r name lines share <<<"$sample"
    with "" python3 -B "$here/walks.py" "$root/samples/$name.txt" "$lines" $((sessions / share))
done
with "" python3 -B "$here/far.py" "$root/samples/client_server.txt"
with "" python3 -B "$here/noise.py" "$root/samples/bell.txt" "$packets"
with riscv64-unknown-elf-gcc python3 -B "$root/tools/make_system/coverage_beside.py"
[ "$bad" = 0 ] && echo "all as expected"
exit "$((bad > 0))"
