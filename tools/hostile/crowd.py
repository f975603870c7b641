#!/usr/bin/env python3
"""Writes `samples/hostile/crowd.txt` and `crowd.events`: 64 threads, of which 63 hold each other's capabilities and call at random.

Usage: crowd.py FOLDER. The seeds of the threads are numbers of a linear congruential generator (Numerical Recipes, section 7.1) that
begins with SEED; in the system each thread goes on by xorshift (Marsaglia, "Xorshift RNGs", section 3: 13, 17, 5).
"""

import os
import sys

SEED = 2026
MEMBERS = 63

# The program of a member. x5 is the thread's random number, from which capability, label and words are taken.
MEMBER = """\
loop: slli x6 x5 13
xor x5 x5 x6
srli x6 x5 17
xor x5 x5 x6
slli x6 x5 5
xor x5 x5 x6
# one of the others, in slots 0 to 15, and a label from 7 to 14; or a thread, in slots 64 to 126, and one from 3 to 6
andi x10 x5 15
srli x6 x5 7
andi x6 x6 7
addi x6 x6 7
blt x5 x0 other
andi x10 x5 63
addi x10 x10 64
andi x6 x6 3
addi x6 x6 3
# six words: two slots with the 32 bits that count, and two small numbers
other: slli x11 x6 12
ori x11 x11 6
srli x12 x5 12
andi x12 x12 127
addi x13 x0 32
srli x14 x5 19
andi x14 x14 127
addi x15 x0 32
srli x18 x5 26
andi x18 x18 7
addi x19 x0 1
# NBSend, or in one of eight cases another call, from Call to NBRecv
addi x17 x0 4
srli x6 x5 15
andi x7 x6 7
bne x7 x0 do
srli x6 x6 3
andi x17 x6 7
addi x17 x17 1
do: ecall
jal x0 loop
end
"""

# The program of the watch: at each ring it acknowledges, sets each member to the start of its program, and resumes it.
WATCH = """\
wait: addi x10 x0 1
addi x17 x0 5
ecall
addi x17 x0 4
addi x10 x0 2
lui x11 0x12
ecall
addi x12 x0 0
lui x13 1
addi x10 x0 64
each: lui x11 4
addi x11 x11 2
ecall
lui x11 5
ecall
addi x10 x10 1
addi x6 x0 127
bne x10 x6 each
jal x0 wait
end
"""


def seeds():
    last = SEED
    for _ in range(MEMBERS):
        last = (last * 1_664_525 + 1_013_904_223) % 2**32
        yield last or 1


def text():
    yield "# Written by tools/hostile/crowd.py."
    yield "memory 18 8\nuntyped u 0x20000 17"
    yield "object code u frame\nobject code2 u frame\nobject data u frame\nobject vs u root\nobject pt u table\nobject pool u untyped 14"
    yield "object cs u cnode 7\nobject ws u cnode 7\nobject watch u tcb"
    yield "\n".join(f"object t{n} u tcb" for n in range(MEMBERS))
    yield "object ep u endpoint\nobject nt u notification\nobject bell u notification\nirq ring 5 bell 1\nirq line 6 nt 2"
    shared = ["cs 0 25", "vs 0 0", "ep 11 0", "cs 0 25", "nt 11 0", "pool 0 0", "line 0 0", "data 3 0", "cs 0 25", "ep 3 3", "nt 3 4", "cs 0 25"]
    yield "\n".join(f"cap cs {slot} {it}" for slot, it in enumerate(shared))
    yield "cap ws 1 bell 2 0\ncap ws 2 ring 0 0"
    for n in range(MEMBERS):
        yield f"cap cs {64 + n} t{n} 0 0\ncap ws {64 + n} t{n} 0 0"
    yield "table vs 0 pt\nmap vs 0x1000 code 4\nmap vs 0x2000 code2 4"
    yield "thread watch ws 25 vs 255 100 0 wait 0x2000\n" + WATCH.rstrip()
    for n, seed in enumerate(seeds()):
        yield f"thread t{n} cs 25 vs 100 100 {2 if n % 2 else 0} loop 0x1000\nreg x5 {seed}\n" + MEMBER.rstrip()


def events():
    """10,000 events: ticks and interrupts among steps, and a ring at each quarter's end, the last one with ten steps after it."""
    found = []
    for number in range(10_000):
        if number in (2500, 5000, 7500, 9989):
            found.append("irq 5")
        elif number > 9989 or number % 9:
            found.append("step")
        else:
            found.append("irq 6" if number % 135 == 0 else "tick")
    return found


def main():
    folder = sys.argv[1]
    with open(os.path.join(folder, "crowd.txt"), "w", encoding="ascii") as file:
        file.write("\n".join(text()) + "\n")
    with open(os.path.join(folder, "crowd.events"), "w", encoding="ascii") as file:
        file.write("\n".join(events()) + "\n")


if __name__ == "__main__":
    main()
