#!/usr/bin/env python3
"""A system as large as the format lets it be in parts: 64 threads, 4,096 objects, 16,384 capabilities and 4,096 mapped frames.

  tools/parts/large.py write KIND FILE    its text; KIND is `apart`, where each thread has objects of its own, or `common`
  tools/parts/large.py times PROGRAM      what `microsys_tool verify` and `parts` take of both kinds, in seconds of the processor

Where all is common each two threads have two lines and one that says how many more there are, and all are one group.
"""

import os
import resource
import subprocess
import sys
import tempfile

KINDS = ["apart", "common"]
# how many lines `parts` has of each
LINES = {"apart": 64, "common": 3 * 64 * 63 // 2 + 1}
THREADS, OBJECTS, CAPABILITIES, FRAMES = 64, 4096, 16384, 4096
CAPS, PAGES = CAPABILITIES // THREADS, FRAMES // THREADS


def system(kind):
    """Each thread waits for a bell. Its capabilities are to bells, of which it may wait for one and ring the others."""
    common = kind == "common"
    owns = lambda t, number, many: number if common else t * many + number
    # what is left of the objects is bells, and frames as far as memory reaches
    pages = PAGES - 1 if common else 16 * THREADS
    bells = OBJECTS - 5 * THREADS - pages
    lines = ["memory 24 14", "untyped u 0x400000 22", "untyped v 0x800000 23"]
    objects = [(f"page{n}", "frame") for n in range(pages)] + [(f"code{t}", "frame") for t in range(THREADS)]
    objects += [(f"root{t}", "root") for t in range(THREADS)] + [(f"table{t}", "table") for t in range(THREADS)]
    objects += [(f"slots{t}", "cnode 9") for t in range(THREADS)] + [(f"t{t}", "tcb") for t in range(THREADS)]
    objects += [(f"bell{n}", "notification") for n in range(bells)]
    room = {"frame": 4096, "root": 4096, "table": 4096, "cnode 9": 8192, "tcb": 1024, "notification": 64}
    left = 1 << 22
    for name, form in objects:
        left -= room[form]
        lines.append(f"object {name} {'u' if left > 0 else 'v'} {form}")
    for t in range(THREADS):
        for slot in range(CAPS):
            bell = slot if common else t * (bells // THREADS) + slot % (bells // THREADS)
            lines.append(f"cap slots{t} {slot + 1} bell{bell} {3 if common else 2} 1")
    lines += [f"table root{t} 0 table{t}" for t in range(THREADS)]
    for t in range(THREADS):
        lines.append(f"map root{t} 0x1000 code{t} 4")
        for page in range(PAGES - 1):
            frame = page if common else t * 16 + page % 16
            lines.append(f"map root{t} {0x2000 + 0x1000 * page:#x} page{frame} 3")
    for t in range(THREADS):
        code = ["again: addi x10 x0 1", "addi x17 x0 5", "ecall", "jal x0 again"]
        lines += [f"thread t{t} slots{t} 23 root{t} {1 + t} 4 0 again 0x1000", "measure 3", *code, "end"]
    return "".join(f"{line}\n" for line in lines)


def seconds(*words):
    """What the program takes."""
    before = resource.getrusage(resource.RUSAGE_CHILDREN).ru_utime
    ran = subprocess.run(words, stdout=subprocess.PIPE, check=True)
    return resource.getrusage(resource.RUSAGE_CHILDREN).ru_utime - before, ran.stdout.count(b"\n")


def times(program):
    """A line for each kind."""
    with tempfile.TemporaryDirectory() as folder:
        text, image = os.path.join(folder, "it.txt"), os.path.join(folder, "it.img")
        for kind in KINDS:
            with open(text, "w", encoding="ascii") as file:
                file.write(system(kind))
            seconds(program, "build", text, image)
            (verified, _), (said, lines) = seconds(program, "verify", image), seconds(program, "parts", image)
            assert lines == LINES[kind], f"{kind}: {lines} lines"
            print(f"{kind}: verify {verified:.2f} s, parts {said:.2f} s and {lines} lines")


if __name__ == "__main__":
    if sys.argv[1] == "times":
        times(sys.argv[2])
    else:
        with open(sys.argv[3], "w", encoding="ascii") as file:
            file.write(system(sys.argv[2]))
