#!/usr/bin/env bash
# Records what each event of accepted systems changes of all that is seen of the machine, and judges each change by the
# manual alone (README.md). The toolchain builds the recording program in a copy and does not prove it.
set -euo pipefail
here="$(cd "$(dirname "$0")" && pwd)"
root="$here/../.."
copy="$(mktemp -d)"
trap 'rm -rf "$copy"' EXIT
git -C "$copy" init -q
mkdir -p "$copy/crates/integrity/src"
for crate in "$root"/crates/*/; do
    mkdir -p "$copy/crates/$(basename "$crate")"
    cp -r "$crate"src "$copy/crates/$(basename "$crate")/"
done
for file in "$here"/*.rt.in; do
    cp "$file" "$copy/crates/integrity/src/$(basename "$file" .in)"
done
cp "$root/crates.txt" "$root/HANDLES" "$copy"
echo "integrity: model pmem rv32_exec slots capwords objects cnode_ops verify loader kernel sinks trace" >>"$copy/crates.txt"
python3 "$here/check.py" write "$copy/systems"
data=()
for image in "$copy"/systems/*.img; do
    data+=(--data "$(basename "$image")=$image")
done
status=0
(cd "$copy/crates/integrity" && rt try --seconds 3600 --cases "$copy/systems/cases" "${data[@]}" -- {}) >"$copy/records" 2>&1 || status=$?
if [ "$status" != 0 ]; then
    grep -v '^\(reg\|slot\|bytes\|>\) ' "$copy/records" || true
    echo "rt try: status $status"
    exit 1
fi
python3 "$here/check.py" judge "$copy/records"
