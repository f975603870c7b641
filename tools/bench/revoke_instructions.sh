#!/usr/bin/env bash
# Reports how many million instructions the Revoke of the program `revoke_bench` takes, by valgrind's callgrind: those of the
# whole run, less those of a run that only makes the copies. What else the machine does makes no difference.
# The one word is the built program, as tools/bench/run.sh leaves it.
set -e
program=$1

instructions() {
    valgrind --tool=callgrind --callgrind-out-file=/dev/null "$program" "$@" 2>&1 >/dev/null |
        sed -n 's/.*I *refs: *\([0-9,]*\).*/\1/p' | tr -d ,
}

for bits in 19 20 22 24; do
    for shape in chains fan; do
        whole=$(instructions "$shape" "$bits")
        making=$(instructions "$shape" "$bits" stay)
        echo "Revoke, $shape, memory of 2^$bits bytes: $(((whole - making) / 1000000)) million instructions"
    done
done
