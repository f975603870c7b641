#!/usr/bin/env python3
"""Counts what `verify` takes for each kind of image that make.py writes, in instructions, which do not depend on what else the machine
does (valgrind's callgrind). Asks for `make build` before, and for valgrind.

  tools/large_images/instructions.py [--program PROGRAM] [KIND ..]     no kind named: all

A line for each kind: the bytes of its three images, million instructions, instructions a byte, and by how much these differ at most. What the
smallest sample takes, and so what the program takes to start, is taken off, and so are its bytes where instructions a byte are reported.
"""
import argparse
import os
import subprocess
import sys
import tempfile

HERE = os.path.dirname(os.path.realpath(__file__))
ROOT = os.path.dirname(os.path.dirname(HERE))
# Kinds in which one count grows, and the shares of the limits at which each is taken. Of `verify` the whole is left out: it takes minutes.
KINDS = {
    **{kind: (16, 4, 1) for kind in "noted carried jumps threads capabilities objects mappings chain promises".split()},
    **{kind: (16, 4, 1) for kind in "fan descents deletes revokes searches branches retypes maps".split()},
    **{kind: (16, 4, 1) for kind in "rising falling moves movers noted_slots wide spread".split()},
    "verify": (232, 16),
}


def instructions(program, image, folder):
    """How many instructions verifying an image takes."""
    words = ["valgrind", "--tool=callgrind", f"--callgrind-out-file={folder}/out", program, "verify", image]
    ran = subprocess.run(words, capture_output=True, text=True, check=True)
    if ran.stdout != "accepted\n":
        sys.exit(f"{image}: {ran.stdout}")
    return int(next(line.split()[-1] for line in ran.stderr.splitlines() if "Collected" in line))


def main():
    words = argparse.ArgumentParser(description=__doc__, formatter_class=argparse.RawDescriptionHelpFormatter)
    words.add_argument("--program", default=f"{ROOT}/crates/microsys/out/microsys")
    words.add_argument("kinds", nargs="*", choices=[[], *KINDS])
    given = words.parse_args()
    with tempfile.TemporaryDirectory() as folder:
        least = f"{ROOT}/samples/solo.img"
        start = instructions(given.program, least, folder)
        print(f"start: {start / 1e6:.1f} million")
        for kind in given.kinds or KINDS:
            sizes, counts = [], []
            for share in KINDS[kind]:
                image = f"{folder}/{kind}.img"
                subprocess.run([sys.executable, f"{HERE}/make.py", kind, str(share), image], check=True)
                sizes.append(os.path.getsize(image))
                counts.append(instructions(given.program, image, folder) - start)
            each = [count / (size - os.path.getsize(least)) for count, size in zip(counts, sizes)]
            print(
                f"{kind}: {'; '.join(f'{it:,}' for it in sizes)} bytes; {'; '.join(f'{it / 1e6:.1f}' for it in counts)} million;"
                f" {'; '.join(f'{it:,.0f}' for it in each)} a byte; at most {max(each) / max(1, min(each)):.2f} apart",
                flush=True,
            )


if __name__ == "__main__":
    main()
