#!/usr/bin/env bash
# Reports how many instructions a step of the program `crowd_bench` takes beside other threads, by valgrind's callgrind: a run of
# 120,000 steps, less one of 20,000. What else the machine does makes no difference.
# The one word is the built program, as tools/bench/run.sh leaves it.
set -e
program=$1

instructions() {
    valgrind --tool=callgrind --callgrind-out-file=/dev/null "$program" "$@" 2>&1 >/dev/null |
        sed -n 's/.*I *refs: *\([0-9,]*\).*/\1/p' | tr -d ,
}

# How many instructions a step of a case takes beside other threads, in memory of so many bits, one a call or all in one, with one root
# table or two.
step() {
    long=$(instructions $1 $2 120 $3 ${4:-step} ${5:-one})
    short=$(instructions $1 $2 20 $3 ${4:-step} ${5:-one})
    echo $(((long - short) / 100000))
}

for case in count memory yield calls; do
    for others in "0 ready" "64 ready" "1024 ready" "1024 blocked"; do
        for bits in 22 24; do
            echo "$case beside $others, memory of 2^$bits bytes: $(step $case "$others" $bits) instructions a step"
        done
    done
done

# Of seven steps two are a Call and its reply.
for case in words buffers; do
    echo "$case: $(step $case "0 ready" 24) instructions a step"
done

for case in count memory yield turns calls; do
    for root in one own; do
        echo "$case, all in one call, root tables: $root: $(step $case "0 ready" 24 run $root) instructions a step"
    done
done
