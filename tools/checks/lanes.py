#!/usr/bin/env python3
"""How many checks run side by side in the gate: one a processor, where memory has 5 GB for each.

  tools/checks/lanes.py      a number for RT_JOBS, or RT_JOBS itself where that is set

By itself the toolchain reckons what a check takes by the lines below it: 14 GB for the program for makers, so that the crates of the tools would
be checked one after another. What a check takes is in docs/TIMES.md.
"""

import os

ROOM = 5_000_000_000


def memory():
    """What is free, in bytes."""
    with open("/proc/meminfo", encoding="ascii") as file:
        return next(1024 * int(line.split()[1]) for line in file if line.startswith("MemAvailable:"))


print(os.environ.get("RT_JOBS") or max(1, min(len(os.sched_getaffinity(0)), (memory() + ROOM // 2) // ROOM)))
