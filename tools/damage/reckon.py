#!/usr/bin/env python3
"""Reckons what the verifier answers for damaged images, from the format and the rules alone (docs/MANUAL.md), apart from the product.

`reckon.py compare IMG all|few ANSWERS` reckons each line of the answers of `tools/damage/run.sh` anew, and names those that differ.
`reckon.py counts IMG all|few FIRST END` counts what becomes of the image with one byte changed, at places from FIRST to END, by the
number of the refusal, as the rows of `crates/program_tests/src/damage` have them. `all` means the 255 other values of each byte, `few` for
its low bit, its high bit and all of its bits.
"""

import collections
import struct
import sys

sys.dont_write_bytecode = True
from programs import broken  # noqa: E402
from rules import Refused, read, well_formed  # noqa: E402

NAMES = dict(enumerate(("Magic Version Truncated Trailing Limit UntypedOverlap NoRoom BadObject BadCap SharedCSpace SharedVSpace BadMapping "
    "WritableCode BadThread IllegalInstruction ComputedJump BadTarget RangeNotKept NotMapped MeasureNotFalling OverBudget CallNotConstant "
    "CapNotThere CallRefused PoolLost").split(), 1)) | {28: "PromiseNotKept", 29: "BadPromise", 30: "BadBuffer"}


def verdict(image):
    """What is said of the bytes: `accepted`, or the line of the refusal."""
    try:
        parts = read(image)
        well_formed(parts)
        broken(parts)
    except Refused as it:
        number, *items = it.args
        return " ".join(map(str, ["refused", number, NAMES[number], *items]))
    return "accepted"


def masks(kind):
    return range(1, 256) if kind == "all" else (0x01, 0x80, 0xFF)


def turned(image, at, mask):
    return image[:at] + bytes([image[at] ^ mask]) + image[at + 1:]


def compare(image, answers):
    """How many of the answers are another than the reckoned one; the first twenty are printed."""
    other = total = 0
    for line in answers:
        kind, *numbers, answer = line.rstrip("\n").split(" ", 2 if line.startswith("cut") else 3)
        numbers = [int(it) for it in numbers]
        damaged = image[: numbers[0]] if kind == "cut" else turned(image, *numbers)
        want = verdict(damaged)
        total += 1
        if want != answer:
            other += 1
            if other <= 20:
                print(f"{kind} {numbers}: answered {answer!r}, reckoned {want!r}")
    print(f"{total} answers, {other} of them another than reckoned")
    return 1 if other else 0


def counts(image, kind, first, end):
    """The counts of refusals by number, with that of accepted images under the number 0."""
    found = collections.Counter()
    for at in range(first, end):
        for mask in masks(kind):
            said = verdict(turned(image, at, mask)).split()
            found[int(said[1]) if len(said) > 1 else 0] += 1
    return found


def main():
    task, name, kind, *rest = sys.argv[1:]
    with open(name, "rb") as file:
        image = file.read()
    if task == "compare":
        with open(rest[0], encoding="ascii") as answers:
            return compare(image, answers)
    found = counts(image, kind, int(rest[0]), min(int(rest[1]), len(image)))
    print(f"accepted {found.pop(0, 0)}; refused " + ", ".join(f"({number}, {count})" for number, count in sorted(found.items())))
    return 0


if __name__ == "__main__":
    sys.exit(main())
