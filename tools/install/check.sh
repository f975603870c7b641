#!/usr/bin/env bash
# Installs stand-ins of both programs from a copy of the repository, moves the folder, calls them there, packs them,
# compares the sums, and takes all away again. Without the programs nothing is installed or packed.
set -eu
root="$(cd "$(dirname "$0")/../.." && pwd)"
room="$(mktemp -d)"
trap 'rm -rf "$room"' EXIT
mkdir "$room/copy"
cd "$root"
cp -r tools docs samples README.md LICENSE CHANGELOG.md Makefile "$room/copy"
cd "$room/copy"

# What is said where the programs are not built, and that nothing is left.
refuses() {
    local word="$1" built="$2"
    ! make -s "$word" DESTDIR="$room/none" >"$room/said" 2>&1 || { echo "$word without programs" && exit 1; }
    grep -qx "not built yet: \`make $built\` builds what is to be installed" "$room/said" || { cat "$room/said" && exit 1; }
    [ ! -e "$room/none" ] && [ ! -e out ] || { echo "$word leaves something" && exit 1; }
}
refuses install "build tool"
refuses release "build tool"
for name in microsys microsys_tool; do
    mkdir -p "crates/$name/out"
    printf '#!/bin/sh\necho %s "$@"\n' "$name" >"crates/$name/out/$name"
    chmod +x "crates/$name/out/$name"
    [ "$name" = microsys_tool ] || refuses install tool
done

# As it is installed, and as it is unpacked.
calls() {
    for name in microsys microsys_tool; do
        [ "$("$1/bin/$name" verify it.img)" = "$name verify it.img" ] || { echo "$name of $1" && exit 1; }
    done
    [ "$("$1/bin/microsys_tool" draw "$root/samples/gallery/controller.sys")" = \
        "microsys_tool draw $root/samples/gallery/controller.sys" ] || { echo "draw of $1" && exit 1; }
    [ "$(MICROSYS_TOOL="$1/libexec/microsys/microsys_tool" python3 -B "$1/share/microsys/make_system/make_system.py" draw it.img)" = \
        "microsys_tool draw it.img" ] || { echo "the script for parts in C of $1" && exit 1; }
    # The stand-in writes no text of the system, whose part is in C.
    "$1/bin/microsys_tool" make "$root/samples/c/ring/ring.sys" "$room/none" 2>&1 | grep -q '^file .*/ring.text: ' ||
        { echo "make of $1" && exit 1; }
    env -u MICROSYS -u MICROSYS_TOOL PYTHONPATH="$1/share/microsys/python" python3 -B -c '
import os, sys
from microsys.system import _program
for name in "microsys", "microsys_tool":
    assert os.path.samefile(_program(name), f"{sys.argv[1]}/bin/{name}"), _program(name)' "$1" || { echo "module of $1" && exit 1; }
    for name in thermostat gateway key_store; do
        python3 -B "$1/share/microsys/samples/live/$name/$name.py" "$room/none" 2>&1 | grep -q "^FileNotFoundError: .*$room/none" ||
            { echo "$name of $1" && exit 1; }
    done
}
make -s install DESTDIR="$room/to" PREFIX=/opt/one
mv "$room/to/opt/one" "$room/to/opt/two"
calls "$room/to/opt/two"
make -s uninstall DESTDIR="$room/to" PREFIX=/opt/two
[ -z "$(find "$room/to" ! -type d)" ] || { find "$room/to" ! -type d && exit 1; }
archive="$(make -s release)"
(cd out && sha256sum --quiet -c "$(basename "$archive").sha256" && tar -xzf "$(basename "$archive")")
folder="${archive%.tar.gz}"
(cd "$folder" && sha256sum --quiet -c SHA256SUMS)
grep -q '^kit ' "$folder/BUILT"
calls "$folder"
echo "all as expected"
