#!/usr/bin/env python3
"""Compares the symbols of samples of samples/c with their images: each instruction with the word that the image has there, and its
line with the comment of the text that `certify` writes.

  tools/make_system/symbols_beside.py [NAME ..]
"""

import os
import subprocess
import sys
import tempfile

sys.dont_write_bytecode = True
TOP = os.path.dirname(os.path.dirname(os.path.dirname(os.path.realpath(__file__))))
sys.path[:0] = [os.path.join(TOP, "tools", it) for it in ("damage", "traces", "make_system")]
from coverage_beside import TOOL, places  # noqa: E402
from rules import read  # noqa: E402

SAMPLES = ("ring", "counter", "button")
PREFIX = "riscv64-unknown-elf-"


def run(*words):
    return subprocess.run(words, check=True, capture_output=True, text=True).stdout


def other(file, part, base, words, origins, room):
    """What is other in the file of a part."""
    binary = os.path.join(room, "binary")
    run(f"{PREFIX}objcopy", "-O", "binary", "-j", f".text.{part}", file, binary)
    with open(binary, "rb") as held:
        found = held.read()
    if found != b"".join(word.to_bytes(4, "little") for word in words):
        return f"{part}: other instructions"
    addresses = [hex(base + 4 * point) for point in range(len(words))]
    told = run(f"{PREFIX}addr2line", "-e", file, *addresses).split("\n")
    for address, line, origin in zip(addresses, told, origins):
        if os.path.basename(line).split(" ")[0] != origin:
            return f"{part} {address}: {line}, and not {origin}"
    return None


def compare(name, room):
    """Whether the symbols of a sample are right."""
    system = os.path.join(TOP, "samples", "c", name, f"{name}.sys")
    image, text, elf = (os.path.join(room, f"{name}.{it}") for it in ("img", "text", "elf"))
    said = run(TOOL, "make", system, image, "--symbols", elf)
    run(TOOL, "certify", system, text)
    with open(image, "rb") as one, open(text) as two:
        threads, parts = read(one.read()).threads, places(two.read())
    bad = 0
    for (part, base, _, origins), thread in zip(parts, threads):
        file = os.path.join(room, f"{name}.{part}.elf") if " " in said.partition("symbols ")[2].strip() else elf
        if wrong := other(file, part, base, thread.words, origins, room):
            print(f"{name}: {wrong}")
            bad = 1
    if not bad:
        print(f"{name}: {sum(len(it.words) for it in threads)} instructions of {len(parts)} parts with their lines")
    return bad


def main():
    with tempfile.TemporaryDirectory() as room:
        return max(compare(name, room) for name in sys.argv[1:] or SAMPLES)


if __name__ == "__main__":
    sys.exit(main())
