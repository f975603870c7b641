#!/bin/sh
# Makes out/microsys-VERSION-linux-x86_64.tar.gz of the built programs and what `make install` installs, with the sums of
# its files, and what they were built of. `make release` calls it.
set -eu
cd "$(dirname "$0")/../.."

# The last version of the changelog, or else the commit.
version() {
    found="$(sed -n 's/^## \([0-9][0-9.]*[0-9]\).*/\1/p' CHANGELOG.md | head -n 1)"
    [ -n "$found" ] || found="$(git describe --tags --always --dirty 2>/dev/null || echo unreleased)"
    echo "$found"
}

# A command's first line, or that it is not there.
first_line() {
    "$@" 2>/dev/null | head -n 1 | grep . || echo "unknown"
}

# What the programs were built of. The kit's own compiler is beside its command.
built_of() {
    kit="$(dirname "$(dirname "$(readlink -f "$(command -v rt || echo /unknown/bin/rt)")")")"
    changed="$(git status --porcelain 2>/dev/null | head -n 1)"
    echo "commit   $(first_line git rev-parse HEAD)${changed:+, with changes}"
    echo "kit      $(first_line cat "$kit/KIT-ID")"
    [ ! -f "$kit/WHAT" ] || sed 's/^/         /' "$kit/WHAT"
    echo "clang    $(first_line "$kit/toolchain/bin/clang" --version)"
    echo "programs crates/microsys/out/microsys and crates/microsys_tool/out/microsys_tool, as \`make build tool\` left them"
}

name="microsys-$(version)-linux-x86_64"
room="$(mktemp -d)"
trap 'rm -rf "$room"' EXIT
tools/install/install.sh install "$room/$name"
built_of >"$room/$name/BUILT"
(cd "$room/$name" && find . -type f ! -name SHA256SUMS | LC_ALL=C sort | xargs sha256sum >SHA256SUMS)
mkdir -p out
time="$(git log -1 --format=%ct 2>/dev/null || date +%s)"
tar -C "$room" --sort=name --owner=0 --group=0 --numeric-owner --mtime="@$time" -cf - "$name" | gzip -9n >"out/$name.tar.gz"
(cd out && sha256sum "$name.tar.gz" >"$name.tar.gz.sha256")
echo "out/$name.tar.gz"
