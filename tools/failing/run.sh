#!/usr/bin/env bash
# Files that are missing, unreadable, folders or too large, an input that cannot be read, and outputs that take nothing: what
# the program prints, and its status. Usage: tools/failing/run.sh [PROGRAM], after `make build`. It is no part of the gate: it
# needs files and devices of the system, and limits on memory.
set -u
root="$(cd "$(dirname "$0")/../.." && pwd)"
program="$(realpath "${1:-$root/crates/microsys/out/microsys}")"
room="$(mktemp -d)"
trap 'rm -rf "$room"' EXIT
cp "$root"/samples/bell.{img,events,txt} "$room"
chmod 755 "$room"
cd "$room" || exit 1
mkdir folder
cp bell.img locked
chmod 000 locked
truncate -s 4G large
echo "step 100000" >long.events
# Where this runs as root, who may read all files, the program runs as nobody.
run=()
[ "$(id -u)" != 0 ] || run=(setpriv --reuid=65534 --regid=65534 --clear-groups)
bad=0

# Asserts what a command answers: its status, and what stands in the files of its output and of its errors.
answers() {
    local title="$1" status="$2" output="$3" errors="$4" found=0
    shift 4
    "$@" 2>"$room/errors" || found=$?
    if [ "$found" != "$status" ] || [ "$(cat output)" != "$output" ] || [ "$(cat errors)" != "$errors" ]; then
        echo "$title: status $found, '$(head -c 100 output)', '$(head -c 100 errors)'"
        bad=$((bad + 1))
    fi
    : >output
}

# The program with its output in a file.
into_file() {
    "${run[@]}" "$program" "$@" >output
}

# .. with at most 1 GiB of memory.
within_a_gibibyte() (
    ulimit -v 1048576
    into_file "$@"
)

# .. on a full device, closed, and in a pipe that nobody reads.
on_full_device() {
    "${run[@]}" "$program" "$@" >/dev/full
}
closed() {
    "${run[@]}" "$program" "$@" >&-
}
in_closed_pipe() {
    python3 -c 'import os, subprocess, sys
read, write = os.pipe()
os.close(read)
sys.exit(subprocess.run(sys.argv[1:], stdout=write).returncode % 256)' "${run[@]}" "$program" "$@"
}

: >output
answers "a folder to verify" 3 "" "file ." into_file verify .
for name in missing locked folder; do
    answers "$name as image" 3 "" "file $name" into_file verify "$name"
    answers "$name as image of a run" 3 "" "file $name" into_file run "$name" bell.events
    answers "$name as events" 3 "" "file $name" into_file run bell.img "$name"
    answers "$name as text" 3 "" "file $name" into_file build "$name" out.img
done
answers "4 GiB as image" 3 "" memory within_a_gibibyte verify large
answers "4 GiB as image of a run" 3 "" memory within_a_gibibyte run large bell.events
answers "4 GiB as events" 3 "" memory within_a_gibibyte run bell.img large
answers "4 GiB as text" 3 "" memory within_a_gibibyte build large out.img
answers "a folder that is not there" 3 "" "file nowhere/out.img" into_file build bell.txt nowhere/out.img
answers "a folder as image to write" 3 "" "file folder" into_file build bell.txt folder
answers "a full device as image to write" 3 "" "file /dev/full" into_file build bell.txt /dev/full
answers "a folder as the input of a live run" 3 "" input into_file run bell.img - <folder
answers "a closed input of a live run" 3 "" input into_file run bell.img - <&-
# What a text is that is given as an image, and why its second line is no event, is reported before the output that fails.
text="bell.txt: the text of an image, and no image: \`microsys build\` makes one of it, and \`microsys_tool explain\` says whether it is accepted"
event="bell.txt:2: no event: they are \`step\`, \`step N\`, \`tick\`, \`irq N\`, \`write ADDRESS WORD\` and \`read ADDRESS\`"
for way in on_full_device closed in_closed_pipe; do
    answers "$way, accepted" 3 "" output "$way" verify bell.img
    answers "$way, a trace" 3 "" output "$way" run bell.img bell.events
    answers "$way, a long trace" 3 "" output "$way" run bell.img long.events
    answers "$way, a live run" 3 "" output "$way" run bell.img - <bell.events
    answers "$way, a refusal" 3 "" "$text"$'\n'output "$way" verify bell.txt
    answers "$way, bad events" 3 "" "$event"$'\n'output "$way" run bell.img bell.txt
done
left="$(ls)"
want="$(printf '%s\n' bell.events bell.img bell.txt errors folder large locked long.events output)"
[ "$left" = "$want" ] || { echo "other files are left: $left" && bad=$((bad + 1)); }
[ -z "$(ls folder)" ] || bad=$((bad + 1))
[ "$bad" = 0 ] && echo "all as expected"
