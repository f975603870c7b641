#!/usr/bin/env python3
"""Prints the rows of `crates/kernel_tests/src/store/manual_rows.rt`, as docs/MANUAL.md has its table of calls: what a
call is on, its name, and the info word. At the top of the repository.

  tools/manual_rows.py
"""
from pathlib import Path

HEADER = "| label | on | words |"
KINDS = {"TCB": "thread", "CNode": "cnode", "page table": "table", "interrupt control": "control"}


def rows():
    """The rows of the manual's table; a line of it may have more than one call."""
    lines = iter(Path("docs/MANUAL.md").read_text(encoding="utf-8").splitlines())
    next(line for line in lines if line.startswith(HEADER))
    next(lines)
    for line in lines:
        if not line.startswith("| "):
            return
        calls, on, _words, _errors, infos, _accepted = line.strip("| ").split(" | ")
        for call, info in zip(calls.split(", "), infos.split(", "), strict=True):
            label, name = call.split(" ")
            if int(info, 16) >> 12 != int(label):
                raise SystemExit(f"docs/MANUAL.md: {call}: the info word {info} has another label")
            yield f'    ("{KINDS.get(on, on)}", "{name}", {info}),'


if __name__ == "__main__":
    print("\n".join(rows()))
