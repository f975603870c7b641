#!/bin/sh
# Says in one line what of these programs is not there, and how to get it: tools/needs.sh PROGRAM ..
for program in "$@"; do
    command -v "$program" >/dev/null 2>&1 && continue
    case "$program" in
    rt) how="the toolchain, whose folder bin has it, is not in PATH: install the kit that README.md names under \"Use\"" ;;
    python3) how="Python 3 is needed: apt-get install python3" ;;
    bash) how="apt-get install bash" ;;
    *) how="put it into PATH" ;;
    esac
    echo "$program is not there: $how" >&2
    exit 1
done
