#!/usr/bin/env python3
"""Says which modules of a crate's proof took how long, the longest first, by the last `rt check --jobs 1` of it.

    tools/checks/module_times.py CRATE [COUNT]    at the top of the repository

The prover writes a file for each module that it has checked, and `rt check` keeps them in out/incremental: what passes between
two of them is the later one's. What lies above two minutes is another check's. With more jobs than one the seconds are mixed.
"""
import glob
import os
import sys


def modules(crate):
    """The seconds of each module and its name."""
    written = sorted((os.stat(file).st_mtime, file) for file in glob.glob(f"crates/{crate}/out/incremental/*/*.oantt"))
    for (before, _), (after, file) in zip(written, written[1:]):
        if after - before < 120:
            yield after - before, os.path.basename(file).removesuffix(".oantt").removeprefix(f"Rattle-{crate}-proofs.")


def main():
    found = sorted(modules(sys.argv[1]), reverse=True)
    for seconds, name in found[: int(sys.argv[2]) if len(sys.argv) > 2 else 30]:
        print(f"{seconds:7.1f} {name}")


main()
