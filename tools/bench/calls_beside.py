#!/usr/bin/env python3
"""Reports what each kind of call costs beside capabilities that it does not touch, of the proved program. Asks for `make build` before,
and for valgrind.

  tools/bench/calls_beside.py [--program PROGRAM] [--counts N,N,..] [KIND ..]     no kind named: all

A thread makes the same few calls over and over, which undo one another, beside N capabilities in its CNode: to N endpoints that it made
itself, or (`--listed`) to up to 3,900 endpoints of the image. What is reported is the instructions of the processor for each call, by
valgrind's callgrind: a run of some rounds, less a run of half as many, less what the same rounds take with an ADDI in the place of each
ECALL. What else the machine does makes no difference.
"""
import argparse
import os
import subprocess
import sys
import tempfile

ROOT = os.path.dirname(os.path.dirname(os.path.dirname(os.path.realpath(__file__))))
RETYPE, _, PRIORITY, REGISTER, RESUME, SUSPEND, COPY, MINT, MOVE, MUTATE, DELETE, REVOKE, MAP, UNMAP, MAP_TABLE, UNMAP_TABLE = range(1, 17)
ACK, SET_NOTIFICATION, CLEAR = 18, 19, 20
UNTYPED, TCB, ENDPOINT, NOTIFICATION, CNODE, FRAME, TABLE, ROOT_TABLE = range(1, 9)
# The slots of the thread's CNode: what the image lists, what is made before the rounds, and where the rounds make something.
BELL, OWN, POOL, VS, LINE, DOOR, SMALL, WIDE = range(1, 9)
FRAME_MADE, TABLE_MADE, TCB_MADE, CNODE_MADE, CHILD = range(9, 14)
HERE, THERE = 14, 15
BESIDE = 16
WORD_REGISTERS = (12, 13, 14, 15, 18, 19, 20, 21)
# The whole address of a slot of the thread's own CNode, as two words of a call.
DEPTH = 32


def load(register, number):
    """Lines that put a number into a register."""
    if -2048 <= number < 2048:
        return [f"addi x{register} x0 {number}"]
    upper, lower = (number + 2048) >> 12, (number + 2048) % 4096 - 2048
    return [f"lui x{register} {upper % 2 ** 20}"] + ([f"addi x{register} x{register} {lower}"] if lower else [])


def call(capability, label, *words):
    """A Send that invokes a capability."""
    lines = load(17, 3) + load(10, capability) + load(11, label * 4096 + len(words))
    for register, word in zip(WORD_REGISTERS, words):
        lines += load(register, word)
    return lines + ["ecall"]


def make(kind, size, slot, count=1, pool=POOL):
    return call(pool, RETYPE, kind, size, 0, 0, slot, count)


# The calls of a round, by kind: what each round does, it undoes.
ROUNDS = {
    "copy and delete": call(OWN, COPY, HERE, DEPTH, BELL, DEPTH, 2) + call(OWN, DELETE, HERE, DEPTH),
    "mint and delete": call(OWN, MINT, HERE, DEPTH, DOOR, DEPTH, 2, 7) + call(OWN, DELETE, HERE, DEPTH),
    "move there and back": call(OWN, MOVE, HERE, DEPTH, CHILD, DEPTH) + call(OWN, MOVE, CHILD, DEPTH, HERE, DEPTH),
    "mutate there and back": call(OWN, MUTATE, HERE, DEPTH, CNODE_MADE, DEPTH, 28) + call(OWN, MUTATE, CNODE_MADE, DEPTH, HERE, DEPTH, 28),
    "copy and revoke": call(OWN, COPY, HERE, DEPTH, BELL, DEPTH, 2) + call(OWN, REVOKE, BELL, DEPTH),
    "revoke of nothing": call(OWN, REVOKE, CHILD, DEPTH),
    "retype one and revoke": make(ENDPOINT, 0, HERE, pool=SMALL) + call(OWN, REVOKE, SMALL, DEPTH),
    "retype one and delete": make(ENDPOINT, 0, HERE, pool=SMALL) + call(OWN, DELETE, HERE, DEPTH),
    "retype a CNode and delete": make(CNODE, 4, HERE, pool=SMALL) + call(OWN, DELETE, HERE, DEPTH),
    "retype a thread and delete": make(TCB, 0, HERE, pool=SMALL) + call(OWN, DELETE, HERE, DEPTH),
    "retype a root table and delete": make(ROOT_TABLE, 0, HERE, pool=SMALL) + call(OWN, DELETE, HERE, DEPTH),
    "map and unmap a frame": call(FRAME_MADE, MAP, VS, DEPTH, 0x3000, 3) + call(FRAME_MADE, UNMAP),
    "map and unmap a page table": call(TABLE_MADE, MAP_TABLE, VS, DEPTH, 0x400000) + call(TABLE_MADE, UNMAP_TABLE),
    "suspend and resume": call(TCB_MADE, SUSPEND) + call(TCB_MADE, RESUME) + call(TCB_MADE, SUSPEND),
    "priority": call(TCB_MADE, PRIORITY, 3) + call(TCB_MADE, PRIORITY, 4),
    "register": call(TCB_MADE, REGISTER, 5, 3) + call(TCB_MADE, REGISTER, 5, 4),
    "acknowledge": call(LINE, ACK),
    "bind and clear a line": call(LINE, SET_NOTIFICATION, BELL, DEPTH) + call(LINE, CLEAR),
    "signal": ["addi x17 x0 4", f"addi x10 x0 {BELL}", "ecall"],
    "yield": ["addi x17 x0 7", "ecall"],
    "receive of nothing": ["addi x17 x0 8", f"addi x10 x0 {DOOR}", "ecall"],
}


def text_of(lines, count, listed):
    """The text of a system whose thread makes some things and N endpoints (or has so many capabilities listed), and then the calls, over and over."""
    head = ["memory 24 14", "untyped u0 0x80000 17", "untyped u1 0x100000 20", "untyped u2 0x200000 21", "untyped u3 0x800000 23"]
    head += ["object code u0 frame", "object code2 u0 frame", "object vs u0 root", "object pt u0 table", "object t u0 tcb", "object bell u0 notification"]
    head += ["object door u0 endpoint", "object cs u1 cnode 14", "object small u1 untyped 16", "object wide u1 untyped 16", "object pool u3 untyped 22"]
    sources = min(count, 3900) if listed else 0
    head += [f"object e{i} u3 endpoint" for i in range(sources)]
    head += ["irq line 3 bell 1", "cap cs 1 bell 3 0", "cap cs 2 cs 0 18", "cap cs 3 pool 0 0", "cap cs 4 vs 0 0", "cap cs 5 line 0 0", "cap cs 6 door 3 0"]
    head += ["cap cs 7 small 0 0", "cap cs 8 wide 0 0"]
    head += [f"cap cs {BESIDE + i} e{i % sources} 1 {i // sources}" for i in range(count if listed else 0)]
    head += ["table vs 0 pt", "map vs 0x1000 code 4", "map vs 0x2000 code2 4", "thread t cs 18 vs 100 1000000 0 start 0x1000"]
    body = make(FRAME, 0, FRAME_MADE) + make(TABLE, 0, TABLE_MADE) + make(TCB, 0, TCB_MADE) + make(CNODE, 4, CNODE_MADE)
    body += call(OWN, COPY, CHILD, DEPTH, DOOR, DEPTH, 3)
    for first in range(0, 0 if listed else count, 256):
        body += make(ENDPOINT, 0, BESIDE + first, min(256, count - first))
    body[0] = "start: " + body[0]
    again = list(lines)
    again[0] = "again: " + again[0]
    return head + body + again + ["jal x0 again", "end"], len(body)


def instructions(program, image, steps, folder):
    """How many instructions so many steps take; no step but a wait may be an error."""
    with open(f"{folder}/events", "w", encoding="utf-8") as file:
        file.write(f"step {steps}\n")
    words = ["valgrind", "--tool=callgrind", "--callgrind-out-file=/dev/null", program, "run", "--unverified", image, f"{folder}/events"]
    ran = subprocess.run(words, capture_output=True, text=True, check=True)
    wrong = [line for line in ran.stdout.split("\n") if "error" in line or "fault" in line]
    if wrong or len(ran.stdout.split("\n")) < steps:
        sys.exit(f"{image}: {wrong[:1]}")
    return int(next(line.split()[-1] for line in ran.stderr.split("\n") if "Collected" in line))


def cost(program, kind, count, listed, folder):
    """Instructions a call, without those of a plain step."""
    calls, totals = ROUNDS[kind], []
    for lines in (calls, ["addi x0 x0 0" if line == "ecall" else line for line in calls]):
        text, before = text_of(lines, count, listed)
        with open(f"{folder}/source.txt", "w", encoding="utf-8") as file:
            file.write("\n".join(text) + "\n")
        built = subprocess.run([program, "build", f"{folder}/source.txt", f"{folder}/image"], capture_output=True, text=True, check=False)
        if built.stdout or built.stderr:
            sys.exit(f"{kind}: {built.stdout}{built.stderr}")
        few, many = (instructions(program, f"{folder}/image", before + n * (len(lines) + 1), folder) for n in (10, 40))
        totals.append((many - few) / 30)
    return (totals[0] - totals[1]) / calls.count("ecall")


def main():
    words = argparse.ArgumentParser(description=__doc__, formatter_class=argparse.RawDescriptionHelpFormatter)
    words.add_argument("--program", default=f"{ROOT}/crates/microsys/out/microsys")
    words.add_argument("--counts", default="100,1000,15000", type=lambda it: [int(n) for n in it.split(",")])
    words.add_argument("--listed", action="store_true")
    words.add_argument("kinds", nargs="*", choices=[[], *ROUNDS])
    given = words.parse_args()
    with tempfile.TemporaryDirectory() as folder:
        for kind in given.kinds or ROUNDS:
            costs = [cost(given.program, kind, count, given.listed, folder) for count in given.counts]
            print(f"{kind}: {'; '.join(f'{it:,.0f}' for it in costs)} a call; {max(costs) / max(1, min(costs)):.2f} apart", flush=True)


if __name__ == "__main__":
    main()
