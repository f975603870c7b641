#!/usr/bin/env python3
"""Whether at most one line in six of a source was rewritten: `rewritten.py BEFORE AFTER`."""

import difflib
import sys
from pathlib import Path

before, after = (Path(name).read_text().splitlines() for name in sys.argv[1:])
changed = sum(
    max(end - start, last - first)
    for word, start, end, first, last in difflib.SequenceMatcher(None, before, after, False).get_opcodes()
    if word != "equal"
)
print(f"{changed} of {len(before)} lines")
sys.exit(6 * changed > len(before))
