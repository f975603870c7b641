#!/usr/bin/env bash
# Times reading and booting at a sixteenth, a quarter and all of the format's limits (make.py says which), verifying images of
# some 100 KiB, 1.5 MiB and 23 MiB, verifying images whose few bytes make, move or map many things, with the memory that it takes
# (GNU time), and a run of a million steps of a thread that counts, all to files. Asks for `make build` before. The reader is proved
# and built in a copy of the crates that it needs, so that the gate knows nothing of it.
set -euo pipefail
here="$(cd "$(dirname "$0")" && pwd)"
root="$(cd "$here/../.." && pwd)"
program="$root/crates/microsys/out/microsys"
copy="$(mktemp -d)"
trap 'rm -rf "$copy"' EXIT
git -C "$copy" init -q
mkdir -p "$copy/crates/read_all/src"
(cd "$root" && tools/checks/below.py image) >"$copy/crates.txt"
for name in $(cut -d: -f1 "$copy/crates.txt"); do
    cp -r "$root/crates/$name" "$copy/crates/"
done
echo "read_all: image" >>"$copy/crates.txt"
cp "$here/read_all.rt.in" "$copy/crates/read_all/src/main.rt"
: >"$copy/none.events"
echo "step 1000000" >"$copy/million.events"
for share in 16 4 1; do
    python3 "$here/make.py" read "$share" "$copy/read$share.img"
    python3 "$here/make.py" boot "$share" "$copy/boot$share.img"
done
python3 "$here/make.py" count 1 "$copy/count.img"
(cd "$copy/crates/read_all" && rt run -- "$copy/read16.img" >"$copy/log" 2>&1) || {
    cat "$copy/log"
    exit 1
}

# The time that the words after the title take.
timed() {
    echo "$1"
    shift
    { time -p "$@" >"$copy/printed"; } 2>&1 | paste -sd' '
}

# Ten runs of the verifier over one image.
ten_times() {
    for _ in 1 2 3 4 5 6 7 8 9 10; do
        "$program" verify "$1"
    done
}

for share in 16 4 1; do
    size="$(stat -c %s "$copy/read$share.img")"
    timed "reading all sections of $size bytes:" "$copy/crates/read_all/out/read_all" "$copy/read$share.img"
done
for share in 16 4 1; do
    size="$(stat -c %s "$copy/boot$share.img")"
    timed "booting $size bytes:" "$program" run --unverified "$copy/boot$share.img" "$copy/none.events"
done
for share in 232 16 1; do
    python3 "$here/make.py" verify "$share" "$copy/verify$share.img"
    size="$(stat -c %s "$copy/verify$share.img")"
    timed "verifying $size bytes ten times:" ten_times "$copy/verify$share.img"
done
for kind in rising falling moves movers noted_slots wide spread; do
    for share in 16 4 1; do
        python3 "$here/make.py" "$kind" "$share" "$copy/many.img"
        echo "verifying $kind, $(stat -c %s "$copy/many.img") bytes:"
        env time -f "user %U, sys %S, %M KB" "$program" verify "$copy/many.img" 2>&1
    done
done
timed "a million steps:" "$program" run --unverified "$copy/count.img" "$copy/million.events"
wc -lc "$copy/printed"
