#!/usr/bin/env python3
"""Writes texts of images whose threads go round in loops, without certificates.

  tools/certify/loops.py FOLDER COUNT [SEED]     COUNT texts, each with one random program, and FOLDER/names with their files
  tools/certify/loops.py FILE long POINTS        one text with a program of so many instructions

Loops count down or up, by 1 or more, to a constant or to a limit in a register, tested at the end or at the beginning; they stand in
one another, some count as far as the loop around them stands, some are left early, and some have branches inside. No loop has a
stride above 1 and ends where its counter is equal to something: rules on ranges cannot show that it meets its end.
"""
import random
import sys

HEAD = """memory 20 9
untyped u 0x80000 19
{code}object vs u root
object pt u table
object data u frame
object main u tcb
object cs u cnode 4
object bell u notification
irq line 3 bell 1
cap cs 1 bell 2 0
cap cs 2 line 0 0
table vs 0 pt
{maps}map vs 0x200000 data 3
thread main cs 28 vs 100 auto 0 start 0x1000
"""

COUNTERS, LIMITS, SCRATCH = range(18, 24), range(24, 30), (5, 6, 7, 12, 13)


class Program:
    def __init__(self, random_numbers):
        self.lines, self.labels, self.random = [], 0, random_numbers

    def label(self):
        self.labels += 1
        return f"l{self.labels}"

    def put(self, *lines):
        self.lines += lines

    def constant(self, register, value):
        if value < 2048:
            self.put(f"addi x{register} x0 {value}")
        else:
            self.put(f"lui x{register} {value >> 12}")

    def plain(self):
        """An instruction or a few on registers that count nothing."""
        choose = self.random.choice
        a, b, c = (choose(SCRATCH) for _ in range(3))
        kind = self.random.randrange(6)
        if kind == 0:
            self.put(f"add x{a} x{b} x{c}")
        elif kind == 1:
            self.put(f"xori x{a} x{b} {self.random.randrange(2048)}")
        elif kind == 2:
            self.put(f"andi x{a} x{b} 255", f"slli x{a} x{a} 2", f"add x{a} x{a} x8", f"lw x{c} 0(x{a})")
        elif kind == 3:
            self.put(f"lbu x{a} {self.random.randrange(256)}(x8)")
        elif kind == 4:
            self.put(f"sw x{a} {4 * self.random.randrange(256)}(x8)")
        else:
            self.put(f"srli x{a} x{b} {self.random.randrange(1, 31)}")

    def body(self, depth, outer):
        """What stands in a loop: plain instructions, branches, and loops."""
        for _ in range(self.random.randrange(1, 4)):
            kind = self.random.randrange(8)
            if kind < 2 and depth < 3:
                self.loop(depth, outer)
            elif kind == 2:
                otherwise, behind = self.label(), self.label()
                self.put(f"beq x5 x6 {otherwise}")
                self.plain()
                self.put(f"jal x0 {behind}", f"{otherwise}: addi x7 x7 1", f"{behind}:")
            else:
                self.plain()

    def loop(self, depth, outer):
        """A loop of some kind, with the counters of the loops around it."""
        choose, counter, limit = self.random.choice, COUNTERS[depth], LIMITS[depth]
        begin, behind = self.label(), self.label()
        count = choose((2, 3, 10, 32, 100, 255, 1000, 4096))
        is_early = self.random.randrange(4) == 0

        def inside():
            self.body(depth + 1, [*outer, counter])
            if is_early:
                self.put("lbu x6 3(x8)", f"beq x6 x0 {behind}")

        kind = self.random.randrange(8 if outer else 7)
        if kind == 0:  # down to 0
            self.constant(counter, count)
            self.put(f"{begin}:")
            inside()
            self.put(f"addi x{counter} x{counter} -1", f"bne x{counter} x0 {begin}")
        elif kind == 1:  # from a byte that is not known down to 0, tested first
            self.put(f"lbu x{counter} 0(x8)", f"{begin}: beq x{counter} x0 {behind}")
            inside()
            self.put(f"addi x{counter} x{counter} -1", f"jal x0 {begin}")
        elif kind == 2:  # up to a limit that it is not equal to
            self.put(f"addi x{counter} x0 0")
            self.constant(limit, count)
            self.put(f"{begin}:")
            inside()
            self.put(f"addi x{counter} x{counter} 1", f"bne x{counter} x{limit} {begin}")
        elif kind == 3:  # up while it is less, by a stride
            self.put(f"addi x{counter} x0 0")
            self.constant(limit, count)
            self.put(f"{begin}:")
            inside()
            stride = choose((1, 1, 2, 3, 4, 8))
            self.put(f"addi x{counter} x{counter} {stride}", f"{choose(('blt', 'bltu'))} x{counter} x{limit} {begin}")
        elif kind == 4:  # up while it is less, tested first
            self.put(f"addi x{counter} x0 0")
            self.constant(limit, count)
            self.put(f"{begin}: {choose(('bge', 'bgeu'))} x{counter} x{limit} {behind}")
            inside()
            self.put(f"addi x{counter} x{counter} {choose((1, 1, 2, 5))}", f"jal x0 {begin}")
        elif kind == 5:  # down while it is not less than the stride
            stride = choose((1, 2, 4, 7))
            self.constant(counter, count)
            self.constant(limit, stride)
            self.put(f"{begin}: bltu x{counter} x{limit} {behind}")
            inside()
            self.put(f"addi x{counter} x{counter} -{stride}", f"jal x0 {begin}")
        elif kind == 6:  # down while it is above 0, signed
            self.constant(counter, count)
            self.put(f"{begin}:")
            inside()
            self.put(f"addi x{counter} x{counter} -1", f"blt x0 x{counter} {begin}")
        else:  # as often as the loop around it stands, if that is not 0
            self.put(f"addi x{counter} x{choose(outer)} 0", f"{begin}: beq x{counter} x0 {behind}")
            inside()
            self.put(f"addi x{counter} x{counter} -1", f"jal x0 {begin}")
        self.put(f"{behind}:")

    def points(self):
        return sum(not it.endswith(":") for it in self.lines)


def text_of(lines, points):
    pages = (points + 1023) // 1024
    code = "".join(f"object code{it} u frame\n" for it in range(pages))
    maps = "".join(f"map vs {0x1000 + 4096 * it:#x} code{it} 4\n" for it in range(pages))
    # (a label alone goes before the next instruction, which may have one of its own)
    return HEAD.format(code=code, maps=maps) + "\n".join(lines) + "\nend\n"


BEGIN = ["start: lui x8 0x200"]
WAIT = ["addi x10 x0 1", "addi x17 x0 5", "ecall", "jal x0 start"]


def short(seed):
    program = Program(random.Random(seed))
    program.put(*BEGIN)
    for _ in range(program.random.randrange(1, 4)):
        program.loop(0, [])
    program.put(*WAIT)
    return text_of(program.lines, program.points())


def long(points):
    """Loops and waits, one after the other: the jump back to the start is as long as jumps may be, by steps."""
    program = Program(random.Random(points))
    program.put(*BEGIN)
    while program.points() < points - 200:
        before, labels = len(program.lines), program.labels
        program.loop(0, [])
        if program.points() > points - 100:
            del program.lines[before:]
            program.labels = labels
            break
        program.put("addi x10 x0 1", "addi x17 x0 5", "ecall", "lui x8 0x200")
    while program.points() < points - 4:
        program.put("addi x5 x5 1")
    program.put("end_wait: addi x10 x0 1", "addi x17 x0 5", "ecall", "jal x0 end_wait")
    return text_of(program.lines, program.points())


def main():
    place, count = sys.argv[1:3]
    if count == "long":
        with open(place, "w", encoding="ascii") as file:
            file.write(long(int(sys.argv[3])))
        return
    first = int(sys.argv[3]) if len(sys.argv) > 3 else 1
    for number in range(int(count)):
        with open(f"{place}/loop{number:03}.txt", "w", encoding="ascii") as file:
            file.write(short(first * 100000 + number))


if __name__ == "__main__":
    main()
