#!/usr/bin/env bash
# Asks the verifier about each beginning of three samples, and about each of them with a byte changed, and compares
# every answer with the one that reckon.py reckons from the format and the rules. What is accepted runs for 300
# events. Solo has 109,568 answers. The toolchain builds the program in a copy and does not prove it: some twelve
# minutes in all.
set -euo pipefail
here="$(cd "$(dirname "$0")" && pwd)"
root="$here/../.."
copy="$(mktemp -d)"
trap 'rm -rf "$copy"' EXIT
git -C "$copy" init -q
mkdir -p "$copy/crates/damage/src"
for crate in "$root"/crates/*/; do
    mkdir -p "$copy/crates/$(basename "$crate")"
    cp -r "$crate"src "$copy/crates/$(basename "$crate")/"
done
cp "$root/crates.txt" "$root/HANDLES" "$copy"
echo "damage: model verify loader" >>"$copy/crates.txt"
cp "$here/main.rt.in" "$copy/crates/damage/src/main.rt"
bad=0
for sample in "bell few" "worker few" "solo all"; do
    set -- $sample
    echo "$1:"
    (cd "$copy/crates/damage" && rt try --steps 40000000000 --seconds 3600 --data "it.img=$root/samples/$1.img" \
        -- it.img "$2") >"$copy/answers"
    ! grep "accepted fails" "$copy/answers" || bad=1
    python3 "$here/reckon.py" compare "$root/samples/$1.img" "$2" "$copy/answers" || bad=1
done
[ "$bad" = 0 ] && echo "all as reckoned, and no fault and no error in what is accepted"
