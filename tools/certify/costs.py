#!/usr/bin/env python3
"""Counts what files cost that are written to cost much, each kind at four sizes, in instructions, which do not depend on what else the
machine does (valgrind's callgrind). Asks for `make build tool` before, and for valgrind.

  tools/certify/costs.py [--tool TOOL] [--program PROGRAM] [--seconds N] [KIND ..]     no kind named: all
  tools/certify/costs.py write KIND SIZE FILE                                          the text of a kind alone

A line for each size: the bytes of the text or image, million instructions, instructions a byte, and how many times those of the size
before, whose file is half as large. A run that takes longer than N seconds of callgrind's (300) is cut off, and so are larger ones.

By `certify`: `badcopies` copies a capability and then loads from a page that is not mapped; `stays` makes a branch around each of many
calls after copies; `returns` copies and deletes behind branches; `many` has records in which too many slots would differ; `nested` has
loops in one another whose counters have no end. By `explain`: `badcopies` and `stays` again, `calls` has calls and then a load by a
register that nobody writes, `loads` loads of a register that can be anything, `threads` has more threads than an image. By `verify`:
`skips` makes objects and then branches over Unmaps that change nothing, `cskips` the same after copies, `backs` branches over a copy
that is deleted again, `spans` branches over a change and its return, `mapped` loads from any of many pages between Unmaps, `depths`
deletes from the end of a chain with copies at its end, `selves` has records in which a slot was derived from itself, before as many
calls, beside as many capabilities.
"""
import argparse
import os
import pathlib
import subprocess
import sys
import tempfile

ROOT = pathlib.Path(__file__).resolve().parents[2]
WAIT = ["addi x10 x0 1", "addi x17 x0 5", "ecall", "jal x0 start", "end"]
REVOKE = ["addi x17 x0 3", "addi x10 x0 2", "lui x11 12", "addi x11 x11 2"]


def text_of(lines, caps=(), objects=(), maps=(), budget="auto", threads=()):
    """A text of one thread with this program: slot 1 of its CNode has a notification, 2 the CNode itself, 6 a frame."""
    pages = -(-len(lines) // 1024) + 1
    code = [f"code{i}" for i in range(pages)]
    head = ["memory 24 14", "untyped u 0x800000 23", "object cs u cnode 14", *(f"object {name} u frame" for name in code)]
    head += ["object vs u root", "object pt u table", "object pt2 u table", "object data u frame", *objects, "object main u tcb"]
    head += ["object bell u notification", "object ep u endpoint", "cap cs 1 bell 2 0", "cap cs 2 cs 0 18", *caps, "cap cs 4 vs 0 0", "cap cs 6 data 3 0"]
    head += ["table vs 0 pt", "table vs 0x400000 pt2", *(f"map vs {0x1000 * (i + 1):#x} {name} 4" for i, name in enumerate(code))]
    head += ["map vs 0x200000 data 3", *maps, f"thread main cs 18 vs 100 {budget} 0 start 0x1000"]
    if budget != "auto":
        head.append(f"measure {len(lines) + 16}")
    return "\n".join(head + [f"start: {lines[0]}", *lines[1:], *threads, ""])


def copies(count):
    """Copies of slot 1 into slots from 301 on, by the capability to the CNode."""
    lines = ["addi x17 x0 3", "addi x10 x0 2", "lui x11 7", "addi x11 x11 5", "addi x13 x0 32", "addi x15 x0 32", "addi x18 x0 2"]
    return lines + ["addi x12 x0 300", "addi x14 x0 1"] + ["addi x12 x12 1", "ecall"] * count


def revoked(slot):
    return [*REVOKE, f"addi x12 x0 {slot}", "addi x13 x0 32", "ecall", *WAIT]


def branched(count, inside):
    """So many branches over some lines."""
    lines = []
    for number in range(count):
        lines += [f"blt x5 x6 b{number}", *inside(number), f"b{number}: addi x7 x0 1"]
    return lines


def unmaps(count):
    """Branches over Unmaps of slot 6, which maps nothing by itself."""
    return ["addi x17 x0 3", "addi x10 x0 6", "lui x11 14"] + branched(count, lambda number: ["ecall"])


def loaded(lines):
    """The same with x5 loaded, so that it can be anything."""
    return ["lui x5 0x200", "lw x5 0(x5)", *lines]


def retyped(count):
    """Retypes of slot 3, of which each makes 256 endpoints."""
    lines = ["addi x17 x0 3", "addi x10 x0 3", "lui x11 1", "addi x11 x11 6", "addi x12 x0 3", "addi x13 x0 0", "addi x14 x0 0", "addi x15 x0 0"]
    lines += ["addi x18 x0 0", "addi x19 x0 256"]
    return lines + ["addi x18 x18 256", "ecall"] * count


def returning(number):
    """A copy, and its Delete, before which and after which x11 is that of a Delete."""
    return ["lui x11 7", "addi x11 x11 5", "ecall", "lui x11 11", "addi x11 x11 2", "ecall"]


def returns(count):
    start = ["addi x17 x0 3", "addi x10 x0 2", "addi x13 x0 32", "addi x15 x0 32", "addi x18 x0 2", "addi x14 x0 1", "lui x11 11", "addi x11 x11 2"]
    return start + ["lui x12 2", *branched(count, returning)]


def spans(count):
    """Branches from behind a copy and its Delete to one point after as many copies and Deletes."""
    lines = ["addi x17 x0 3", "addi x10 x0 2", "addi x13 x0 32", "addi x15 x0 32", "addi x18 x0 2", "addi x14 x0 1", "lui x12 2"]
    reach = 100
    for first in range(0, count, reach):
        for number in range(first, min(first + reach, count)):
            lines += [*returning(number), f"blt x5 x6 s{first}"]
        lines.append(f"s{first}: addi x7 x0 1")
    return lines


def nested(depth):
    lines = ["lui x30 0x200"]
    for number in range(depth):
        lines += [f"l{number}: addi x{6 + number % 20} x{6 + number % 20} 1"] + ["addi x28 x28 1"] * 78
    for number in reversed(range(depth)):
        lines += ["lw x29 0(x30)", f"beq x29 x0 e{number}", f"jal x0 l{number}", f"e{number}: addi x27 x27 1"]
    return lines


def mapped(count):
    """A frame at up to 1,024 pages, and loads from any of them, before each an Unmap that changes nothing."""
    pages = min(1024, count)
    lines = frames_at(pages)
    lines += ["addi x17 x0 3", "addi x10 x0 6", "lui x11 14", "lui x6 0x200", "lw x6 0(x6)", "lui x9 0x400"]
    lines += [f"srli x6 x6 {32 - 12 - pages.bit_length() + 1}", "add x6 x6 x9"]
    return lines + ["ecall", "lb x7 0(x6)"] * count


def frames_at(pages):
    """Copies of the frame of slot 6, mapped one after another from 0x400000 on."""
    lines = ["addi x17 x0 3", "addi x13 x0 32", "addi x15 x0 32", "addi x18 x0 3", "addi x14 x0 6", "lui x11 7", "addi x11 x11 5"]
    lines += ["addi x10 x0 2", "addi x12 x0 299"] + ["addi x12 x12 1", "ecall"] * pages
    lines += ["lui x11 13", "addi x11 x11 4", "addi x12 x0 4", "addi x13 x0 32", "lui x14 0x3ff", "addi x15 x0 3", "lui x20 1", "addi x10 x0 299"]
    return lines + ["addi x10 x10 1", "add x14 x14 x20", "ecall"] * pages


def depths(count):
    """A chain of 240 copies, copies of its end, and Deletes from the end on."""
    lines = ["addi x17 x0 3", "addi x10 x0 2", "lui x11 7", "addi x11 x11 5", "addi x13 x0 32", "addi x15 x0 32", "addi x18 x0 2"]
    lines += ["addi x12 x0 300", "addi x14 x0 1"]
    for number in range(240):
        lines += ["ecall", "addi x14 x12 0", "addi x12 x12 1"]
    lines += ["addi x12 x12 1", "ecall"] * count
    lines += ["lui x11 11", "addi x11 x11 2", "addi x12 x14 0"] + ["ecall", "addi x12 x12 -1"] * 239
    return lines


def selves(count):
    """Records in which slot 5 was derived from itself, before as many calls."""
    lines = ["addi x17 x0 3"]
    for number in range(count):
        lines += [f"measure {2 * count - number + 8}", "slot cs 5 0x018000D1 0x1000 cs 5", "ecall"]
    return lines


def threads(count):
    tcbs = [f"object t{number} u tcb" for number in range(count)]
    more = []
    for number in range(count):
        more += [f"thread t{number} cs 18 vs 100 auto 0 g{number} 0x1000", f"g{number}: jal x0 g{number}", "end"]
    return text_of(["addi x10 x0 1", "addi x17 x0 5", "ecall", "jal x0 start", "end"], objects=tcbs, threads=more)


def bad(lines):
    """The same with a load from a page that is not mapped at its end."""
    return [*lines, "lui x6 0x300", "lw x5 0(x6)"]


def many(count):
    start = ["lui x9 0x200", "lw x5 0(x9)", *copies(257), "blt x5 x0 m0", "addi x7 x0 1", "m0: addi x7 x0 1"]
    return text_of(start + ["addi x5 x5 1"] * count + revoked(1))


POOL = ["object pool u untyped 20"]
BIG = str(1 << 40)
# Of each kind the words of its call, its text by its size, and its four sizes.
KINDS = {
    "badcopies": ("certify", lambda n: text_of(bad(copies(n)) + revoked(1)), (500, 1000, 2000, 4000)),
    "stays": ("certify", lambda n: text_of(loaded(copies(100) + unmaps(n)) + revoked(1)), (500, 1000, 2000, 4000)),
    "returns": ("certify", lambda n: text_of(loaded(copies(100) + returns(n)) + revoked(1)), (250, 500, 1000, 2000)),
    "many": ("certify", many, (500, 1000, 2000, 4000)),
    "nested": ("certify", lambda n: text_of(nested(n) + WAIT), (5, 10, 20, 40)),
    "explain_badcopies": ("explain", lambda n: text_of(bad(copies(n)) + revoked(1)), (500, 1000, 2000, 4000)),
    "explain_stays": ("explain", lambda n: text_of(bad(loaded(copies(100) + unmaps(n))) + revoked(1)), (500, 1000, 2000, 4000)),
    "explain_noted": ("explain", lambda n: text_of(bad(copies(n)) + revoked(1), budget=BIG), (500, 1000, 2000, 4000)),
    "calls": (
        "explain",
        lambda n: text_of(["addi x17 x0 9", "addi x10 x0 65"] + ["ecall"] * n + ["lw x5 0(x6)"] + WAIT, budget=BIG),
        (1000, 2000, 4000, 8000),
    ),
    "loads": ("explain", lambda n: text_of(loaded(["lw x7 0(x5)"] * n) + WAIT), (1000, 2000, 4000, 8000)),
    "threads": ("explain", threads, (500, 1000, 2000, 4000)),
    "skips": ("verify", lambda n: text_of(loaded(retyped(n) + unmaps(4 * n)) + revoked(3), ["cap cs 3 pool 0 0"], POOL, budget=BIG), (8, 15, 30, 60)),
    "cskips": ("verify", lambda n: text_of(loaded(copies(n) + unmaps(n)) + revoked(1), budget=BIG), (500, 1000, 2000, 4000)),
    "backs": ("verify", lambda n: text_of(loaded(copies(n) + returns(n)) + revoked(1), budget=BIG), (250, 500, 1000, 2000)),
    "spans": ("verify", lambda n: text_of(loaded(spans(n)) + revoked(1), budget=BIG), (500, 1000, 2000, 4000)),
    "mapped": ("verify", lambda n: text_of(mapped(n) + revoked(6), budget=BIG), (750, 1500, 3000, 6000)),
    "depths": ("verify", lambda n: text_of(depths(n) + revoked(1), budget=BIG), (500, 1000, 2000, 4000)),
    "selves": (
        "verify",
        lambda n: text_of(selves(n) + WAIT, [f"cap cs {1000 + number} ep 3 0" for number in range(n)], budget=BIG),
        (500, 1000, 2000, 4000),
    ),
}


def instructions(words, seconds):
    """How many instructions a call takes, and the first line that it says; none where it takes too long."""
    counted = ["valgrind", "--tool=callgrind", "--callgrind-out-file=/dev/null", *words]
    try:
        ran = subprocess.run(counted, capture_output=True, text=True, check=False, timeout=seconds)
    except subprocess.TimeoutExpired:
        return None, f"cut off after {seconds} s"
    said = [it for it in (ran.stdout + ran.stderr).splitlines() if it and not it.startswith(("==", ".."))]
    return int(next(it.split()[-1] for it in ran.stderr.splitlines() if "Collected" in it)), said[0][:110] if said else ""


def measure(kind, given, folder):
    """Prints a line for each size of a kind."""
    word, text, sizes = KINDS[kind]
    before = None
    for size in sizes:
        file = f"{folder}/{kind}-{size}.txt"
        pathlib.Path(file).write_text(text(size))
        words = {"certify": [given.tool, word, file, f"{folder}/out"], "explain": [given.tool, word, file]}.get(word)
        if word == "verify":
            subprocess.run([given.program, "build", file, f"{folder}/img"], check=True)
            file = f"{folder}/img"
            words = [given.program, word, file]
        length = os.path.getsize(file)
        count, said = instructions(words, given.seconds)
        if count is None:
            print(f"{word} {kind} {size}: {length:,} bytes; {said}", flush=True)
            return
        more = f"; {count / before:.2f} times" if before else ""
        print(f"{word} {kind} {size}: {length:,} bytes; {count / 1e6:,.1f} million; {count / length:,.0f} a byte{more}; {said}", flush=True)
        before = count


def main():
    if sys.argv[1:2] == ["write"]:
        kind, size, file = sys.argv[2:]
        pathlib.Path(file).write_text(KINDS[kind][1](int(size)))
        return
    words = argparse.ArgumentParser(description=__doc__, formatter_class=argparse.RawDescriptionHelpFormatter)
    words.add_argument("--tool", default=f"{ROOT}/crates/microsys_tool/out/microsys_tool")
    words.add_argument("--program", default=f"{ROOT}/crates/microsys/out/microsys")
    words.add_argument("--seconds", default=300, type=int)
    words.add_argument("kinds", nargs="*", choices=[[], *KINDS])
    given = words.parse_args()
    with tempfile.TemporaryDirectory() as folder:
        for kind in given.kinds or KINDS:
            measure(kind, given, folder)


if __name__ == "__main__":
    main()
