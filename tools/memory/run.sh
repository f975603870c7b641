#!/usr/bin/env bash
# Refuses each allocation of the program in turn, and then that one with all after it. The answer must be `memory` with
# status 3 and nothing on standard output, `source LINE 5` with status 1 for a text, or the whole answer, where the
# program can do without. Then makes each call of the libraries by itself, with each of its allocations refused in turn:
# it has to answer out of memory, and put nothing; a second call has to give the whole answer.
# Usage: tools/memory/run.sh, after `make build`. Needs a C compiler. It is no part of the gate. The second part proves
# and builds its program in a copy of the repository.
set -eu
root="$(cd "$(dirname "$0")/../.." && pwd)"
program="$root/crates/microsys/out/microsys"
room="$(mktemp -d)"
trap 'rm -rf "$room"' EXIT
cc -O1 -shared -fPIC -o "$room/refuse.so" "$root/tools/memory/refuse_nth.c" -ldl
cp "$root/samples/bell.img" "$room/refused.img"
printf '\003' | dd of="$room/refused.img" bs=1 seek=256 conv=notrunc status=none
bell="$root/samples/bell"
bad=0

# The status, standard output and standard error of a program with allocation $1 refused, and those after it if $2
# is `on`. No allocation has the number 0.
answer() {
    local refused="$1" on="$2" status=0
    shift 2
    [ "$on" = on ] && export AFTER=yes || unset AFTER
    REFUSE="$refused" LD_PRELOAD="$room/refuse.so" COUNT="$room/count" \
        "$@" <"$bell.events" >"$room/output" 2>"$room/errors" || status=$?
    echo "status $status"
    cat "$room/output"
    echo "--"
    cat "$room/errors"
}

memory="$(printf 'status 3\n--\nmemory')"
for words in "verify $bell.img" "run $bell.img $bell.events" "run --unverified $bell.img $bell.events" \
    "run $bell.img -" "run --unverified $bell.img -" "verify $room/refused.img" "run $room/refused.img $bell.events" \
    "build $bell.txt $room/built.img"; do
    whole="$(answer 0 off "$program" $words)"
    asked="$(cat "$room/count")"
    told=0
    lines=0
    without=0
    for number in $(seq 1 "$asked"); do
        for on in off on; do
            rm -f "$room/built.img"
            said="$(answer "$number" "$on" "$program" $words)"
            case "$said" in
            "$memory") told=$((told + 1)) ;;
            "status 1"$'\n'"source "*" 5"$'\n'"--") lines=$((lines + 1)) ;;
            "$whole") without=$((without + 1)) ;;
            *)
                bad=$((bad + 1))
                echo "another answer where allocation $number is refused (those behind it: $on): $words"
                ;;
            esac
            if [ "$said" != "$whole" ] && [ -e "$room/built.img" ]; then
                bad=$((bad + 1))
                echo "an image is left where allocation $number is refused (those behind it: $on): $words"
            fi
        done
    done
    [ "$told" != 0 ] && [ "$(answer 0 off "$program" $words)" = "$whole" ] || bad=$((bad + 1))
    echo "$words: $asked allocations; $told times \`memory\`, $lines times a line, $without times the whole answer"
done

copy="$room/copy"
mkdir "$copy"
cp -r --reflink=auto "$root/." "$copy"
rm -rf "$copy/.git" "$copy/tools"
git -C "$copy" init -q
mkdir -p "$copy/crates/calls/src"
cp "$root/tools/memory/calls.rt.in" "$copy/crates/calls/src/main.rt"
echo "calls: model image asm verify loader runner" >>"$copy/crates.txt"
(cd "$copy/crates/calls" && "$root/tools/checks/libraries.py" rt run -- verify "$bell.img" >"$room/log" 2>&1) || {
    cat "$room/log"
    exit 1
}
calls="$copy/crates/calls/out/calls"
for words in "write $bell.txt" "verify $bell.img" "assemble $bell.txt" "boot $bell.img" "boot_unverified $bell.img" \
    "run $bell.img" "run_unverified $bell.img"; do
    answer 0 off "$calls" $words >/dev/null
    whole="$(head -n 1 "$room/output")"
    asked="$(cat "$room/count")"
    before=0
    told=0
    without=0
    for number in $(seq 1 "$asked"); do
        said="$(answer "$number" off "$calls" $words)"
        case "$said" in
        "status 2"$'\n'*) before=$((before + 1)) ;;
        "status 0"$'\n'"memory"$'\n'"$whole"$'\n'"--" | "status 0"$'\n'"source "*" 5"$'\n'"$whole"$'\n'"--")
            told=$((told + 1))
            ;;
        "status 0"$'\n'"$whole"$'\n'"$whole"$'\n'"--") without=$((without + 1)) ;;
        "status 0"$'\n'"$whole"$'\n'"memory"$'\n'"--" | "status 0"$'\n'"$whole"$'\n'"source "*" 5"$'\n'"--") ;;
        *)
            bad=$((bad + 1))
            echo "another answer where allocation $number is refused: $words: $said"
            ;;
        esac
    done
    [ "$told" != 0 ] || bad=$((bad + 1))
    echo "$words: $asked allocations, $before before the call; $told times out of memory, $without times none"
done
[ "$bad" = 0 ] && echo "no other answer"
