#!/usr/bin/env python3
"""Prints the lines of crates.txt of a crate and of those below it: what a copy of the repository needs to build it.

    tools/checks/below.py NAME     at the top of the repository
"""

import re
import sys
from pathlib import Path


def below(name, lines):
    """The name and those of the crates that it stands on, of lines by name."""
    found, left = set(), [name]
    while left:
        one = left.pop()
        if one in lines and one not in found:
            found.add(one)
            left += re.findall(r"[a-z_0-9]+", lines[one].split(":", 1)[1])
    return found


def main():
    lines = {}
    for line in Path("crates.txt").read_text(encoding="utf-8").splitlines():
        if re.match(r"[a-z_0-9]+:", line):
            lines[line.split(":")[0]] = line
    if sys.argv[1] not in lines:
        sys.exit(f"crates.txt has no crate {sys.argv[1]}")
    wanted = below(sys.argv[1], lines)
    print("\n".join(line for name, line in lines.items() if name in wanted))


if __name__ == "__main__":
    main()
