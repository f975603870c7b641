#!/usr/bin/env bash
# Runs 400 calls and 20,000 events of the kernel by written numbers, and compares what they answer with
# samples/kernel_run.txt, which is the same for every representation of slots and objects. Then 10,000 random systems go
# through 300 events each, by steps and in parts, which has to be the same. Then counts allocations: the calls and the events of
# the first run ask for none. The program is proved and built in a copy of the repository, so that the gate knows
# nothing of it. Needs a C compiler. `run.sh record` writes the sample anew.
set -euo pipefail
here="$(cd "$(dirname "$0")" && pwd)"
root="$here/../.."
copy="$(mktemp -d)"
trap 'rm -rf "$copy"' EXIT
cp -r --reflink=auto "$root/." "$copy"
rm -rf "$copy/.git" "$copy/tools"
git -C "$copy" init -q
mkdir -p "$copy/crates/kernel_run/src"
for file in "$here"/*.rt.in; do
    cp "$file" "$copy/crates/kernel_run/src/$(basename "$file" .in)"
done
echo "kernel_run: model kernel kernel_machine trace capwords arrayvec" >>"$copy/crates.txt"
(cd "$copy/crates/kernel_run" && rt run -- 0 0 >"$copy/kernel_run.log" 2>&1) || {
    cat "$copy/kernel_run.log"
    exit 1
}
program="$copy/crates/kernel_run/out/kernel_run"
"$program" 400 20000 >"$copy/answers.txt"
if [ "${1:-}" = record ]; then
    cp "$copy/answers.txt" "$root/samples/kernel_run.txt"
fi
cmp "$copy/answers.txt" "$root/samples/kernel_run.txt"
echo "400 calls and 20,000 events answer as they did"
"$program" parted 10000 300

cc -O1 -shared -fPIC -o "$copy/count.so" "$root/tools/memory/refuse_nth.c" -ldl
# How many allocations so many calls and events ask for, with all that is set up before.
asked() {
    LD_PRELOAD="$copy/count.so" COUNT="$copy/count" "$program" "$1" "$2" quiet >/dev/null
    cat "$copy/count"
}
before="$(asked 1 0)"
calls="$(asked 400 0)"
events="$(asked 400 20000)"
echo "allocations with 1 call: $before, with 400 calls: $calls, with 20,000 events behind these: $events"
[ "$before" = "$calls" ] && [ "$calls" = "$events" ]
