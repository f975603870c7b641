#!/usr/bin/env bash
# Images that come back by their lists: each is listed, the list is built, and the bytes are compared. They are those of the samples, of
# the gallery and of the hostile systems, and of 100 systems each of `tools/promises` and `tools/buffers`.
# Usage: tools/listing/run.sh [TOOL [PROGRAM]], after `make build` and `make tool`.
set -u
root="$(cd "$(dirname "$0")/../.." && pwd)"
tool="$(realpath "${1:-$root/crates/microsys_tool/out/microsys_tool}")"
program="$(realpath "${2:-$root/crates/microsys/out/microsys}")"
room="$(mktemp -d)"
trap 'rm -rf "$room"' EXIT
cd "$root" || exit 1
bad=0 count=0

comes_back() {
    "$tool" list "$1" >"$room/list" && "$program" build "$room/list" "$room/again" && cmp "$1" "$room/again"
}

# Asserts that an image comes back. It is referred to by a name.
checks() {
    count=$((count + 1))
    if ! comes_back "$2" >"$room/said" 2>&1; then
        echo "FAILED: $1"
        cat "$room/said"
        bad=$((bad + 1))
    fi
}

# The same of the image of a text.
checks_text() {
    "$program" build "$1" "$room/image" && checks "$1" "$room/image"
}

for image in samples/*.img samples/gallery/*.img; do
    checks "$image" "$image"
done
for events in samples/hostile/*.events; do
    checks_text "${events%.events}.txt"
done
for kind in promises buffers; do
    mkdir "$room/$kind"
    for seed in $(seq 0 99); do
        python3 "tools/$kind/systems.py" write "$seed" "$room/$kind" && checks_text "$room/$kind/$seed.txt"
    done
done
echo "$count images, of which $bad did not come back"
[ "$bad" = 0 ] && [ "$count" -gt 200 ]
