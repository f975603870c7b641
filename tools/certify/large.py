#!/usr/bin/env python3
"""Certifies large texts, and takes time and memory. Each may take 2 s and 200 MB for 100 KB of text, and what it gets is verified.

  tools/certify/large.py [TOOL PROGRAM]     the built tools, or others

`copies` makes 4,000 copies of one capability and takes them away again, `loads` loads 2,000 times from a buffer of 4 MiB, and `held` has
1,024 capabilities beside 16,000 plain instructions, which copies some of them. Asks for `make build tool` before.
"""
import os
import pathlib
import subprocess
import sys
import tempfile
import time

ROOT = pathlib.Path(__file__).resolve().parents[2]
SECONDS, MEGABYTES, TEXT = 2, 200, 100_000
WAIT = ["addi x10 x0 1", "addi x17 x0 5", "ecall", "jal x0 start", "end"]


def text_of(lines, caps=(), objects=(), maps=()):
    """A text of one thread with this program, whose CNode has a notification, a handler, and itself."""
    pages = -(-len(lines) // 1024) + 1
    code = [f"code{i}" for i in range(pages)]
    return "\n".join(
        ["memory 24 14", "untyped u 0x800000 23", "object cs u cnode 14"]
        + [f"object {name} u frame" for name in code]
        + ["object vs u root", "object pt u table", "object pt2 u table", "object data u frame", *objects, "object main u tcb"]
        + ["object bell u notification", "irq line 3 bell 1", "cap cs 1 bell 2 0", "cap cs 2 line 0 0", "cap cs 3 cs 0 18", *caps]
        + ["table vs 0 pt", "table vs 0x400000 pt2"]
        + [f"map vs {0x1000 * (i + 1):#x} {name} 4" for i, name in enumerate(code)]
        + [*maps, "thread main cs 18 vs 100 auto 0 start 0x1000", f"start: {lines[0]}", *lines[1:], ""]
    )


def call(label, words):
    """The info word of a call."""
    return [f"lui x11 {label}", f"addi x11 x11 {words}"]


def copies(count):
    lines = ["addi x17 x0 3", "addi x10 x0 3", *call(7, 5), "addi x13 x0 32", "addi x15 x0 32", "addi x18 x0 2"]
    lines += ["addi x12 x0 1100", "addi x14 x0 1"] + ["addi x12 x12 1", "ecall"] * count
    return text_of(lines + ["addi x10 x0 3", *call(12, 2), "addi x12 x0 1", "addi x13 x0 32", "ecall", *WAIT])


def loads(count):
    maps = [f"map vs {0x400000 + 0x1000 * i:#x} data 3" for i in range(1024)]
    body = ["lui x8 0x400", "lw x5 0(x8)", "lui x9 0x3ff", "addi x9 x9 2047", "and x5 x5 x9", "add x6 x5 x8"]
    return text_of(body + ["lbu x7 0(x6)"] * count + WAIT, maps=maps)


def held(caps, count):
    some = [f"cap cs {i + 4} bell 2 0" for i in range(caps)]
    lines = ["addi x17 x0 3", "addi x10 x0 3", *call(7, 5), "addi x13 x0 32", "addi x15 x0 32", "addi x18 x0 2"]
    lines += ["addi x12 x0 2000", "addi x14 x0 1"] + ["addi x12 x12 1", "ecall"] * 16
    lines += ["addi x10 x0 3", *call(12, 2), "addi x12 x0 1", "addi x13 x0 32", "ecall"]
    return text_of(lines + ["addi x5 x5 1"] * count + WAIT, caps=some)


KINDS = {"copies": lambda: copies(4000), "loads": lambda: loads(2000), "held": lambda: held(1024, 16000)}


def certified(tool, source, made):
    """The seconds and the megabytes that certifying takes, and how it ends."""
    began = time.monotonic()
    child = subprocess.Popen([tool, "certify", source, made], stdout=subprocess.DEVNULL)
    _, status, used = os.wait4(child.pid, 0)
    return time.monotonic() - began, used.ru_maxrss / 1024, os.waitstatus_to_exitcode(status)


def is_accepted(program, made, image):
    subprocess.run([program, "build", made, image], check=True)
    return subprocess.run([program, "verify", image], check=True, capture_output=True).stdout == b"accepted\n"


def main(tool, program):
    kept = True
    with tempfile.TemporaryDirectory() as room:
        for name, text in KINDS.items():
            source, made, image = (f"{room}/{name}.{kind}" for kind in ("txt", "out", "img"))
            pathlib.Path(source).write_text(text())
            size = os.path.getsize(source)
            seconds, megabytes, status = certified(tool, source, made)
            share = max(1, size / TEXT)
            print(f"{name}: {size} bytes, {seconds:.2f} s, {megabytes:.0f} MB", flush=True)
            kept &= seconds <= SECONDS * share and megabytes <= MEGABYTES * share
            kept &= status == 0 and is_accepted(program, made, image)
    return 0 if kept else 1


if __name__ == "__main__":
    built = [str(ROOT / f"crates/{name}/out/{name}") for name in ("microsys_tool", "microsys")]
    sys.exit(main(*(sys.argv[1:3] or built)))
