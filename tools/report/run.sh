#!/usr/bin/env bash
# Reports on systems: the pages and the data of samples, gallery and refused systems, beside `list`, `parts`, `run` and hashlib; how
# long a report takes at the format's limits; and what a browser shows of pages. Usage: tools/report/run.sh
set -u
cd "$(dirname "$0")/../.." || exit 1
tool="${MICROSYS_TOOL:-crates/microsys_tool/out/microsys_tool}"
bad=0

check() {
    "$@" || bad=$((bad + 1))
}

check python3 tools/report/pages.py "$tool"
check python3 tools/report/large.py "$tool"
if command -v chromium >/dev/null; then
    check python3 tools/report/browser.py "$tool"
else
    echo "skipped: pages in a browser: chromium is not there"
fi
[ "$bad" = 0 ] && echo "reports: all as expected"
[ "$bad" = 0 ]
