#!/usr/bin/env python3
"""Writes systems whose threads execute, map and revoke device pages, and compares their traces with what is reckoned.

  tools/devices/hostile.py write SEED FOLDER      writes SEED.txt and SEED.events
  tools/devices/hostile.py reckon COUNT           that the runs of so many systems have faults, refused calls and words of the world that ran
  tools/devices/hostile.py compare PROGRAM COUNT  the same, and the product's bytes and traces beside them, by `run --unverified`

A thread calls into a device page, stores instructions there, and maps, copies, unmaps, deletes and revokes its capabilities to it, with and
without the right to execute. Of 1,000 events a third are words that the world writes there: instructions of all kinds, and words that are
none. A handler puts what it is told of each fault, and sets the thread on its way again: at its beginning, or after the instruction. What
no other thread handles stops its thread. Traces are reckoned by `tools/traces/unverified.py`, apart from the product.
"""

import collections
import os
import random
import sys
import tempfile

HERE = os.path.dirname(os.path.realpath(__file__))
sys.path[:0] = [f"{HERE}/../damage", f"{HERE}/../traces"]
sys.dont_write_bytecode = True
from beside import constant, product, written  # noqa: E402
from calls import A0, A1, A7, WORDS  # noqa: E402
from machine import CALL, MEMORY, PUT_CHAR, RECV, REPLY_RECV, SEND, YIELD, trace  # noqa: E402
from rules import FRAME  # noqa: E402
from texts import ALU, BRANCHES, LOADS, STORES, assembled, encoded  # noqa: E402
from unverified import Unverified  # noqa: E402

EVENTS = 1000
SPACE, NODE, HELD, FREE, FAULTS = 3, 4, 5, 6, 7
# where the device page is mapped in the image, and where threads map what they hold
MAPPED, OTHER = 0x2000, 0x8000
# how many words of the page are called and written most often
USED = 64
DEVICE, BACK, FAR = 5, 1, 6
# what the world's instructions write: no register of a call
TARGETS = [7, 8, 9, *range(22, 32)]


def some_instruction(chance):
    """An instruction of any kind that is no system call, or a word that is none."""
    to, first, other = (f"x{chance.choice(TARGETS)}" for _ in range(3))
    near = f"{4 * chance.randrange(USED)}(x{DEVICE})"
    here = chance.randrange(-8, 8)
    kind = chance.randrange(14)
    if kind < 3:
        return encoded(chance.choice(sorted(ALU)), [to, first, other], 0, {})
    if kind < 6:
        return encoded(chance.choice(["addi", "xori", "andi", "ori", "slti", "sltiu"]), [to, first, str(chance.randrange(-2048, 2048))], 0, {})
    if kind == 6:
        return encoded(chance.choice(["lui", "auipc"]), [to, str(chance.randrange(2**20))], 0, {})
    if kind == 7:
        return encoded(chance.choice(sorted(LOADS)), [to, near if chance.random() < 0.8 else f"{here}({first})"], 0, {})
    if kind == 8:
        return encoded(chance.choice(sorted(STORES)), [other, near if chance.random() < 0.8 else f"{here}({first})"], 0, {})
    if kind == 9:
        return encoded(chance.choice(sorted(BRANCHES)), [first, other, "on"], 0, {"on": here})
    if kind == 10:
        # a jump, also to where no instruction begins
        return jump(chance, to)
    if kind == 11:
        return chance.choice([0x0FF0000F, 0x00100073, 0, 2**32 - 1, chance.randrange(2**32)])
    # the way back to who called, twice as often
    return chance.randrange(0, 8) << 20 | BACK << 15 | 0x67 if chance.random() < 0.3 else BACK << 15 | 0x67


def jump(chance, to):
    """A JAL by some bytes, which are a multiple of 2 and may be none of 4."""
    by = 2 * chance.randrange(-16, 16)
    field = lambda bits, low: (by >> low) % 2**bits
    return field(1, 20) << 31 | field(10, 1) << 21 | field(1, 11) << 20 | field(8, 12) << 12 | int(to[1:]) << 7 | 0x6F


class Hostile:
    """A thread's program: acts in a loop."""

    def __init__(self, chance):
        self.chance, self.code = chance, []
        self.code += [f"lui x{DEVICE} {MAPPED >> 12}", f"lui x{FAR} {OTHER >> 12}"]
        for _ in range(chance.randrange(4, 10)):
            chance.choice([self.calls_in, self.calls_in, self.stores, self.maps, self.maps, self.copies, self.takes, self.yields])()
        self.code += ["jal x0 start"]

    def calls_in(self):
        page = self.chance.choice([DEVICE, DEVICE, FAR])
        self.code += [f"addi x{BACK} x{page} {4 * self.chance.randrange(USED) + self.chance.choice([0, 0, 0, 0, 1, 2])}"]
        self.code += [f"word {BACK << 15 | BACK << 7 | 0x67}"]

    def stores(self):
        page, word = self.chance.choice([DEVICE, DEVICE, FAR]), some_instruction(self.chance)
        self.code += [*constant(7, word), f"sw x7 {4 * self.chance.randrange(USED)}(x{page})", f"lw x8 {4 * self.chance.randrange(USED)}(x{page})"]

    def invokes(self, slot, label, *words):
        """An invocation, now and then with too few words or another label; what is answered is put."""
        given = label << 12 | max(len(words) - (self.chance.random() < 0.05), 0)
        given = self.chance.choice([given] * 20 + [given | 128, given + 4096])
        for register, word in zip(WORDS, words):
            self.code += constant(register, word)
        self.code += [*constant(A1, given), f"addi x{A0} x0 {slot}", f"addi x{A7} x0 {self.chance.choice([CALL, SEND])}", "ecall"]
        self.code += [f"srli x{A0} x{A1} 12", f"addi x{A7} x0 {PUT_CHAR}", "ecall"]

    def maps(self):
        at = self.chance.choice([OTHER, OTHER, OTHER, MAPPED, OTHER + 0x1000, OTHER + 4, 2**31, 2**22])
        if self.chance.random() < 0.7:
            self.invokes(self.chance.choice([HELD, HELD, FREE]), 13, SPACE, 32, at, self.chance.choice([1, 2, 3, 4, 5, 6, 7, 7, 7]))
        else:
            self.invokes(self.chance.choice([HELD, FREE]), 14)

    def copies(self):
        self.invokes(NODE, self.chance.choice([7, 7, 9]), FREE, 32, HELD, 32, *([self.chance.randrange(4)] if self.chance.random() < 0.9 else []))

    def takes(self):
        """Deletes or revokes; what it holds comes back by a Move at most."""
        label, slot = self.chance.choice([(11, FREE), (12, HELD), (12, HELD), (12, FREE)])
        self.invokes(NODE, label, slot, self.chance.choice([32, 32, 32, 4, 0]))
        if self.chance.random() < 0.5:
            self.invokes(NODE, 9, HELD, 32, FREE, 32)

    def yields(self):
        self.code += [f"addi x{A7} x0 {self.chance.choice([YIELD, YIELD, 0, 10, 2**11 - 1])}", "ecall"]

    def lines(self):
        return [f"start: {self.code[0]}", *self.code[1:]]


HANDLER = [
    f"start: addi x{A0} x0 {FAULTS}", f"addi x{A7} x0 {RECV}", "ecall",
    # it puts who faulted, how, where and why
    f"told: addi x{A7} x0 {PUT_CHAR}", "ecall", f"srli x{A0} x{A1} 12", "ecall", f"srli x{A0} x12 2", "ecall", f"addi x{A0} x13 0", "ecall",
    f"addi x{A0} x14 0", "ecall",
    "addi x22 x22 1", "andi x23 x22 3", "beq x23 x0 first", "addi x12 x12 4", "jal x0 answer", "first: lui x12 1",
    f"answer: addi x{A1} x0 1", f"addi x{A0} x0 {FAULTS}", f"addi x{A7} x0 {REPLY_RECV}", "ecall", "jal x0 told",
]


def text_of(chance, threads):
    count, said = len(threads), ["memory 18 7", "untyped u 0x20000 17", "object faults u endpoint"]
    devices = chance.randrange(1, 3)
    said += [f"object dev{it} u frame 1" for it in range(devices)]
    for number in range(count + 1):
        said += [f"object {kind}{number} u {kind}" for kind in ("frame", "root", "table", "tcb")] + [f"object cs{number} u cnode 4"]
        said += [f"table root{number} 0 table{number}", f"map root{number} 0x1000 frame{number} 4"]
    for number in range(count):
        page = chance.randrange(devices)
        said += [f"map root{number} {MAPPED} dev{page} {chance.choice([3, 4, 6, 7, 7, 7])}"]
        said += [f"cap cs{number} {SPACE} root{number} 0 0", f"cap cs{number} {NODE} cs{number} 0 28"]
        said += [f"cap cs{number} {HELD} dev{chance.randrange(devices)} {chance.choice([2, 3, 3])} 0", f"cap cs{number} {FAULTS} faults 9 {number + 1}"]
    said += [f"cap cs{count} {FAULTS} faults 2 0"]
    said += [f"data dev{it} " + " ".join(str(some_instruction(chance)) for _ in range(USED)) for it in range(devices)]
    for number, it in enumerate(threads):
        handled = FAULTS if chance.random() < 0.9 else chance.choice([0, 1, HELD])
        said += [f"thread tcb{number} cs{number} 28 root{number} {chance.choice([99, 100, 100])} 100 {handled} start 0x1000"]
        said += [f"reg x{register} {MAPPED + 4 * chance.randrange(USED)}" for register in (7, 8, 9, 22, 23)]
        said += [*it.lines(), "end"]
    said += [f"thread tcb{count} cs{count} 28 root{count} {chance.choice([98, 101, 101])} 100 0 start 0x1000", *HANDLER, "end"]
    objects = [it for it in said if it.startswith("object")]
    return "".join(f"{line}\n" for line in [*said[:2], *objects, *(it for it in said[2:] if it not in objects)])


def events_of(chance, devices):
    found = []
    while len(found) < EVENTS:
        kind, at = chance.random(), MEMORY + chance.choice(devices) + 4 * chance.randrange(chance.choice([USED, USED, USED, 1024]))
        if kind < 1 / 3:
            found.append(f"write {at:#x} {some_instruction(chance)}")
        elif kind < 0.38:
            found.append(f"read {at:#x}")
        else:
            found.append("tick" if kind < 0.4 else "step")
    return "".join(f"{event}\n" for event in found)


def system(seed):
    """The text of a system, and its events."""
    chance = random.Random(seed)
    text = text_of(chance, [Hostile(chance) for _ in range(chance.randrange(1, 4))])
    image = Unverified(assembled(text)).image
    return text, events_of(chance, [place for place, it in zip(image.offsets, image.objects) if it[1:] == (FRAME, 1)])


def reckoned(program, seed, seen):
    """Counts the outcomes of a run, and compares it with the product's."""
    text, events = system(seed)
    data = assembled(text)
    lines = list(trace(Unverified(data), events))
    seen.update(" ".join(it.split()[2:]) for it in lines if " fault " in it or " error " in it or it.endswith(" ok"))
    steps = [it.split() for it in lines if it[8:9] == " "]
    seen["in a device page"] += sum(int(pc, 16) >> 12 in (MAPPED >> 12, OTHER >> 12) for _, pc, *_ in steps)
    if program:
        check(program, seed, (text, events), data, lines)


def check(program, seed, system_of_seed, data, lines):
    """Asserts that the product makes the same bytes, and prints the same lines."""
    with tempfile.TemporaryDirectory() as folder:
        name = written(seed, folder, *system_of_seed)
        product(program, "build", f"{name}.txt", f"{name}.img")
        with open(f"{name}.img", "rb") as image:
            assert image.read() == data, f"{seed}: other bytes"
        said = product(program, "run", "--unverified", f"{name}.img", f"{name}.events").splitlines()
        wrong = next((at for at, pair in enumerate(zip(said, lines), 1) if pair[0] != pair[1]), None)
        assert wrong is None and len(said) == len(lines), f"{seed}: line {wrong}: {said[(wrong or 0) - 1:][:1]}, not {lines[(wrong or 0) - 1:][:1]}"


def main():
    task, *rest = sys.argv[1:]
    if task == "write":
        written(rest[0], rest[1], *system(int(rest[0])))
        return 0
    program, count = rest[0] if task == "compare" else None, int(rest[-1])
    seen = collections.Counter()
    for seed in range(count):
        reckoned(program, seed, seen)
        if seed % 50 == 49:
            print(f".. {seed + 1} systems", file=sys.stderr)
    # that there are such runs at all
    assert all(seen[it] for it in ("fault 2", "fault 3", "fault 4", "ok", "error 2", "error 8", "in a device page")) or count < 30, seen
    print(f"as reckoned: {count} systems, {EVENTS} events each; " + ", ".join(f"{number} {it}" for it, number in sorted(seen.items())))
    return 0


if __name__ == "__main__":
    sys.exit(main())
