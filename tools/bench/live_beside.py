#!/usr/bin/env python3
"""Compares a live run (`microsys run IMG -`) with a plain Rust program that answers each line (live_plain.rs). Asks for `make build` before,
and for `rustc` and `strace`.

  tools/bench/live_beside.py [--program PROGRAM] [--trips N] [--times N]

Printed are the round trips a second over a pipe, a line `step` each (the median of N runs of each program, one after the other), the
system calls of 1,000 round trips, and the memory of a run of ten thousand and of ten million events that come as fast as they are read.
"""
import argparse
import os
import re
import statistics
import subprocess
import tempfile

HERE = os.path.dirname(os.path.realpath(__file__))
ROOT = os.path.dirname(os.path.dirname(HERE))
IMAGE = f"{ROOT}/samples/client_server.img"


def trips(plain, count, words):
    """Round trips a second."""
    return float(subprocess.run([plain, "trips", str(count), *words], check=True, capture_output=True).stdout)


def calls(plain, count, words, folder):
    """How often the program reads and writes over so many round trips."""
    said = f"{folder}/calls"
    counted = ["strace", "-f", "-o", said, "-e", "trace=read,write", *words]
    subprocess.run([plain, "trips", str(count), *counted], check=True, capture_output=True)
    with open(said, encoding="utf-8", errors="replace") as lines:
        found = [re.match(r"\d+ +(read\(0|write\(1)", line) for line in lines]
    return [sum(1 for it in found if it and it[1] == call) for call in ("read(0", "write(1")]


def memory(count, words):
    """The greatest memory in KiB of a run over so many lines."""
    program = subprocess.Popen(words, stdin=subprocess.PIPE, stdout=subprocess.DEVNULL)
    for _ in range(count // 10_000):
        program.stdin.write(b"step\n" * 10_000)
    program.stdin.close()
    _, status, usage = os.wait4(program.pid, 0)
    assert status == 0, f"ended with {status}"
    return usage.ru_maxrss


def main():
    words = argparse.ArgumentParser(description=__doc__, formatter_class=argparse.RawDescriptionHelpFormatter)
    words.add_argument("--program", default=f"{ROOT}/crates/microsys/out/microsys")
    words.add_argument("--trips", default=100_000, type=int)
    words.add_argument("--times", default=5, type=int)
    given = words.parse_args()
    ours = [os.path.abspath(given.program), "run", IMAGE, "-"]
    with tempfile.TemporaryDirectory() as folder:
        plain = f"{folder}/plain"
        subprocess.run(["rustc", "-O", "--edition", "2021", "-o", plain, f"{HERE}/live_plain.rs"], check=True)
        runs = {"live run": ours, "plain Rust": [plain, "echo"]}
        found = {name: [] for name in runs}
        for _ in range(given.times):
            for name, program in runs.items():
                found[name].append(trips(plain, given.trips, program))
        for name, program in runs.items():
            reads, writes = calls(plain, 1000, program, folder)
            print(f"{name}: {statistics.median(found[name]):,.0f} round trips a second; 1,000 take {reads} reads and {writes} writes")
        print(f"memory of a live run: {memory(10_000, ours):,} KiB for 10,000 events, {memory(10_000_000, ours):,} for 10,000,000")


if __name__ == "__main__":
    main()
