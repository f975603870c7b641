#!/usr/bin/env python3
"""Compares the lines of a million steps by the proved program with those of a plain Rust program (lines_plain.rs): a thread that counts
(`addi; jal`), and one that loads and stores (`lw; sw; jal`). Asks for `make build` before, for `rustc`, and for valgrind.

  tools/bench/lines_beside.py [--program PROGRAM] [--times N]

Both write to a file, and the bytes have to be the same. What is reported is the median of N runs of each (9, one program after the
other), and the instructions of the processor for each step by valgrind's callgrind: a run of a million steps, less one of half as many.
The plain program is also taken with a walk for each access, and with lines by `writeln!`. At last the proved program reads its million
events as a million lines `step` in place of one line `step 1000000`.
"""
import argparse
import filecmp
import os
import statistics
import subprocess
import sys
import tempfile
import time

HERE = os.path.dirname(os.path.realpath(__file__))
ROOT = os.path.dirname(os.path.dirname(HERE))
STEPS = 1_000_000
# What each loop's image is made of, and the physical address of its thread.
HEAD = ["memory 16 4", "untyped u 0x8000 15", "object code u frame", "object vs u root", "object pt u table", "object data u frame"]
HEAD += ["object main u tcb", "object cs u cnode 4", "table vs 0 pt", "map vs 0x1000 code 4", "map vs 0x2000 data 3"]
HEAD += ["thread main cs 28 vs 100 24 0 start 0x1000"]
LOOPS = {
    "count": ["start: addi x5 x5 1", "jal x0 start", "end"],
    "memory": ["reg x7 0x2000", "start: lw x6 0(x7)", "sw x6 4(x7)", "jal x0 start", "end"],
}
THREAD = "8000c000"


def run(words, output):
    """Seconds of a run whose output goes to a file."""
    with open(output, "wb") as file:
        began = time.monotonic()
        subprocess.run(words, stdout=file, check=True)
        return time.monotonic() - began


def instructions(words):
    """Instructions of the processor that a run takes."""
    counted = ["valgrind", "--tool=callgrind", "--callgrind-out-file=/dev/null", *words]
    ran = subprocess.run(counted, stdout=subprocess.DEVNULL, stderr=subprocess.PIPE, text=True, check=True)
    return int(next(line.split()[-1] for line in ran.stderr.split("\n") if "Collected" in line))


def each(words_for):
    """Instructions a step, of the words for so many steps."""
    return (instructions(words_for(STEPS)) - instructions(words_for(STEPS // 2))) / (STEPS // 2)


def main():
    words = argparse.ArgumentParser(description=__doc__, formatter_class=argparse.RawDescriptionHelpFormatter)
    words.add_argument("--program", default=f"{ROOT}/crates/microsys/out/microsys")
    words.add_argument("--times", default=9, type=int)
    given = words.parse_args()
    with tempfile.TemporaryDirectory() as folder:
        plain = f"{folder}/lines_plain"
        subprocess.run(["rustc", "-O", "--edition", "2021", "-o", plain, f"{HERE}/lines_plain.rs"], check=True)
        for steps in (STEPS, STEPS // 2):
            with open(f"{folder}/{steps}.events", "w", encoding="utf-8") as file:
                file.write(f"step {steps}\n")
        with open(f"{folder}/many.events", "w", encoding="utf-8") as file:
            file.write("step\n" * STEPS)
        for loop, lines in LOOPS.items():
            compare(given, folder, plain, loop, lines)


def compare(given, folder, plain, loop, lines):
    """Reports on one loop."""
    image, outputs = f"{folder}/{loop}.img", [f"{folder}/proved", f"{folder}/plain"]
    with open(f"{folder}/{loop}.txt", "w", encoding="utf-8") as file:
        file.write("\n".join(HEAD + lines) + "\n")
    subprocess.run([given.program, "build", f"{folder}/{loop}.txt", image], check=True)

    def proved(steps):
        return [given.program, "run", "--unverified", image, f"{folder}/{steps}.events"]

    ways = {
        "proved": proved,
        "plain": lambda steps: [plain, loop, THREAD, str(steps)],
        "plain, walking": lambda steps: [plain, loop, THREAD, str(steps), "walk"],
        "plain, writeln": lambda steps: [plain, loop, THREAD, str(steps), "format"],
        "proved, a million lines `step`": lambda steps: proved("many"),
    }
    seconds = {way: [] for way in ways}
    for _ in range(given.times):
        for way, words_for in ways.items():
            seconds[way].append(run(words_for(STEPS), outputs[way.startswith("plain")]))
            if way.startswith("plain") and not filecmp.cmp(*outputs, shallow=False):
                sys.exit(f"{loop}: the lines of {way} are others")
    medians = {way: statistics.median(seconds[way]) for way in ways}
    for way, words_for in ways.items():
        counted = "" if "million" in way else f", {each(words_for):.1f} instructions a step"
        beside = f"{medians['proved'] / medians[way]:.2f}"
        print(f"{loop}, {way}: median {medians[way]:.3f} s, least {min(seconds[way]):.3f} s{counted}; proved in {beside} of it", flush=True)


if __name__ == "__main__":
    main()
