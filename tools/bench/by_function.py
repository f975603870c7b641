#!/usr/bin/env python3
"""Reports where the instructions of a step go, by function, of a program whose run can be longer or shorter.

  tools/bench/by_function.py STEPS LONG SHORT PROGRAM WORD ..     STEPS is by how many steps a run is longer

The word `N` stands for how long a run is: LONG, and then SHORT. Each function has what valgrind's callgrind counts in it alone for the
longer run, less that for the shorter one, for each step. Functions with less than a tenth of an instruction are left out. For the
program of crowd_bench.rt.in: `by_function.py 100000 120 20 crowd_bench calls 0 ready N 24 step one`.
"""
import collections
import re
import subprocess
import sys
import tempfile


def counts(words, folder):
    """Instructions by function of one run."""
    out = f"{folder}/callgrind.out"
    run = ["valgrind", "--tool=callgrind", f"--callgrind-out-file={out}", *words]
    subprocess.run(run, stdout=subprocess.DEVNULL, stderr=subprocess.DEVNULL, check=True)
    listed = subprocess.run(["callgrind_annotate", "--threshold=100", out], capture_output=True, text=True, check=True)
    found = collections.Counter()
    for line in listed.stdout.split("\n"):
        row = re.match(r" *([0-9,]+) \([ 0-9.]+%\)  (.*?)(?: \[.*\])?$", line)
        if row and row[2] != "PROGRAM TOTALS":
            found[row[2].split(":", 1)[-1]] += int(row[1].replace(",", ""))
    return found


def main():
    if len(sys.argv) < 5:
        sys.exit(__doc__)
    steps, long, short, *words = sys.argv[1:]
    with tempfile.TemporaryDirectory() as folder:
        more, less = (counts([length if word == "N" else word for word in words], folder) for length in (long, short))
    each = {name: (more[name] - less[name]) / int(steps) for name in more}
    print(f"{sum(each.values()):.1f} instructions a step")
    for name, count in sorted(each.items(), key=lambda it: -it[1]):
        if count >= 0.1:
            print(f"{count:9.1f}  {name}")


if __name__ == "__main__":
    main()
