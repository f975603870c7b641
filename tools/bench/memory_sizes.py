#!/usr/bin/env python3
"""Reports what the size of memory costs, of the proved program. Asks for `make build` before, and for valgrind.

  tools/bench/memory_sizes.py [--program PROGRAM]

The key store of the gallery in memory of 2^18 and 2^24 bytes, 60,000 steps with its events over and over: instructions of the whole run, by
valgrind's callgrind, less those of one step. The smallest sample in memory of 2^16 and 2^24 bytes, one step: instructions, user and system
seconds (the least of ten runs), and the most memory that the process had; that is no less than what the interpreter of this script has.
"""
import argparse
import os
import subprocess
import sys
import tempfile

HERE = os.path.dirname(os.path.realpath(__file__))
ROOT = os.path.dirname(os.path.dirname(HERE))
STEPS = 60_000


def text_in(name, bits):
    """A sample's text with memory of 2^bits bytes."""
    with open(f"{ROOT}/samples/{name}.txt", encoding="utf-8") as text:
        lines = text.read().split("\n")
    return "\n".join(f"memory {bits} {line.split()[2]}" if line.startswith("memory ") else line for line in lines)


def built(program, folder, name, bits):
    """An image of a sample in memory of 2^bits bytes."""
    source, image = f"{folder}/source.txt", f"{folder}/image-{bits}.img"
    with open(source, "w", encoding="utf-8") as file:
        file.write(text_in(name, bits))
    subprocess.run([program, "build", source, image], check=True)
    return image


def events_of(steps):
    """The key store's events over and over, until there are so many steps."""
    with open(f"{ROOT}/samples/gallery/key_store.events", encoding="utf-8") as file:
        once = [line for line in file.read().split("\n") if line and not line.startswith("#")]
    lines, left = [], steps
    while left:
        for line in once:
            words = line.split()
            count = int(words[1]) if words[0] == "step" and len(words) > 1 else 1
            if words[0] == "step":
                count = min(count, left)
                left -= count
                if count:
                    lines.append(f"step {count}")
            else:
                lines.append(line)
    return "\n".join(lines) + "\n"


def instructions(words, folder):
    ran = subprocess.run(
        ["valgrind", "--tool=callgrind", f"--callgrind-out-file={folder}/out", *words],
        stdout=subprocess.DEVNULL,
        stderr=subprocess.PIPE,
        text=True,
        check=True,
    )
    return int(next(line.split()[-1] for line in ran.stderr.splitlines() if "Collected" in line))


def seconds(words):
    """User and system seconds of a run, the least of ten, and the most KiB that it had."""
    script = (
        "import resource, subprocess, sys; subprocess.run(sys.argv[1:], check=True, stdout=subprocess.DEVNULL);"
        "u = resource.getrusage(resource.RUSAGE_CHILDREN); print(u.ru_utime + u.ru_stime, u.ru_maxrss)"
    )
    runs = [
        [float(it) for it in subprocess.run([sys.executable, "-c", script, *words], capture_output=True, text=True, check=True).stdout.split()]
        for _ in range(10)
    ]
    return min(it[0] for it in runs), max(it[1] for it in runs)


def main():
    words = argparse.ArgumentParser(description=__doc__, formatter_class=argparse.RawDescriptionHelpFormatter)
    words.add_argument("--program", default=f"{ROOT}/crates/microsys/out/microsys")
    program = words.parse_args().program
    with tempfile.TemporaryDirectory() as folder:
        lists = {}
        for steps in (1, STEPS):
            lists[steps] = f"{folder}/{steps}.events"
            with open(lists[steps], "w", encoding="utf-8") as file:
                file.write(events_of(steps))
        for bits in (18, 24):
            image = built(program, folder, "gallery/key_store", bits)
            one, all_ = (instructions([program, "run", image, lists[it]], folder) for it in (1, STEPS))
            print(f"key store, memory of 2^{bits} bytes: {(all_ - one) / (STEPS - 1):.0f} instructions a step with its line of the trace")
        for bits in (16, 24):
            image = built(program, folder, "solo", bits)
            run = [program, "run", image, lists[1]]
            time, kib = seconds(run)
            print(f"smallest sample, memory of 2^{bits} bytes, one step: {instructions(run, folder) / 1e6:.2f} million instructions, {time:.3f} s, {kib:,.0f} KiB")


if __name__ == "__main__":
    main()
