#!/bin/sh
# Copies the built programs, and what makers use beside them, to a folder, or takes them away:
# tools/install/install.sh install|uninstall FOLDER. The folder can be moved as a whole afterwards. `make install` calls it.
set -eu
cd "$(dirname "$0")/../.."
word="$1" to="$2"
program=crates/microsys/out/microsys tool=crates/microsys_tool/out/microsys_tool

# Copies files into a folder, readable for everyone. A program that runs keeps its own file.
copy() {
    rights="$1" folder="$to/$2"
    shift 2
    mkdir -p "$folder"
    for file in "$@"; do
        rm -f "$folder/$(basename "$file")"
        cp "$file" "$folder/"
        chmod "$rights" "$folder/$(basename "$file")"
    done
}

# Copies a folder without what Python leaves.
copy_folder() {
    mkdir -p "$to/$2"
    (cd "$1" && find . -type f ! -name '*.pyc' -print) | while read -r file; do
        copy "$([ -x "$1/$file" ] && echo 755 || echo 644)" "$2/$(dirname "$file")" "$1/$file"
    done
}

case "$word" in
install)
    missing=''
    [ -x "$program" ] || missing=build
    [ -x "$tool" ] || missing="$missing${missing:+ }tool"
    [ -z "$missing" ] || {
        echo "not built yet: \`make $missing\` builds what is to be installed" >&2
        exit 1
    }
    copy 755 bin "$program"
    copy 755 libexec/microsys "$tool"
    for name in make_system cases coverage failed sizes symbols; do
        copy 644 share/microsys/make_system "tools/make_system/$name.py"
    done
    copy 755 share/microsys/make_system tools/make_system/microsys_tool
    ln -sf ../share/microsys/make_system/microsys_tool "$to/bin/microsys_tool"
    copy 644 share/microsys/from_c tools/from_c/*.py tools/from_c/runtime.c tools/from_c/microsys.h
    chmod 755 "$to/share/microsys/from_c/from_c.py"
    copy 644 share/microsys/from_c/include tools/from_c/include/*.h
    copy 644 share/microsys/from_c/host tools/from_c/host/*.h
    copy 644 share/microsys/python tools/python/pyproject.toml tools/python/wheel_of_folder.py
    copy_folder tools/python/microsys share/microsys/python/microsys
    copy_folder samples share/microsys/samples
    rm "$to/share/microsys/samples/demo.sh" "$to/share/microsys/samples/live/run.sh"
    copy_folder tools/editors share/microsys/editors
    rm "$to/share/microsys/editors/check.py"
    copy 644 share/man/man1 docs/man/*.1
    copy 644 share/bash-completion/completions tools/completions/microsys tools/completions/microsys_tool
    copy 644 share/zsh/site-functions tools/completions/_microsys tools/completions/_microsys_tool
    copy 644 share/doc/microsys README.md LICENSE CHANGELOG.md docs/*.md
    ;;
uninstall)
    rm -rf "$to/share/microsys" "$to/libexec/microsys" "$to/share/doc/microsys"
    for file in bin/microsys bin/microsys_tool share/man/man1/microsys.1 share/man/man1/microsys_tool.1 \
        share/bash-completion/completions/microsys share/bash-completion/completions/microsys_tool \
        share/zsh/site-functions/_microsys share/zsh/site-functions/_microsys_tool; do
        rm -f "$to/$file"
    done
    ;;
*)
    echo "usage: tools/install/install.sh install|uninstall FOLDER" >&2
    exit 2
    ;;
esac
