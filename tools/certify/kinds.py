#!/usr/bin/env python3
"""Writes texts of images whose threads go round in loops of kinds that random programs seldom have, without certificates.

  tools/certify/kinds.py FOLDER     for each kind FOLDER/found/KIND.txt, or FOLDER/none/KIND.txt where the rules bear no certificate

Counters that are copied, tested and copied back, counters of which each turn moves one, and ways that ranges rule out.
"""
import os
import sys

HEAD = """memory 16 4
untyped u 0x8000 15
object code u frame
object vs u root
object pt u table
object data u frame
object main u tcb
object cs u cnode 4
object bell u notification
irq line 3 bell 1
cap cs 1 bell 2 0
cap cs 2 line 0 0
table vs 0 pt
map vs 0x1000 code 4
map vs 0x2000 data 3
thread main cs 28 vs 100 auto 0 start 0x1000
"""

WAIT = """wait: addi x10 x0 1
addi x17 x0 5
ecall
jal x0 wait
end
"""

# What has a certificate.
FOUND = {
    # a counter is copied, tested, and copied back
    "copy_test_commit": """start: lui x8 2
addi x9 x0 0
addi x28 x0 31
again: addi x11 x9 1
bltu x28 x11 wait
addi x9 x11 0
jal x0 again
""",
    # the copy back stands where the loop begins
    "copy_commit_back": """start: lui x8 2
addi x9 x0 0
addi x28 x0 31
jal x0 body
again: addi x9 x11 0
body: add x6 x9 x8
lbu x5 0(x6)
addi x11 x9 1
beq x5 x0 wait
bgeu x28 x11 again
""",
    # the test leads back to a wait around the loop
    "copy_restart": """start: lui x8 2
addi x28 x0 31
again: addi x10 x0 1
addi x17 x0 5
ecall
addi x9 x0 0
loop: addi x11 x9 1
bltu x28 x11 again
addi x9 x11 0
jal x0 loop
""",
    # `n = i; if (..) break;` as gcc makes it
    "n_is_i": """start: lui x8 2
addi x28 x0 31
addi x11 x0 0
again: addi x9 x11 0
add x6 x9 x8
lbu x5 0(x6)
beq x5 x0 wait
addi x11 x9 1
bgeu x28 x11 again
""",
    # the same in a loop that counts down by copies
    "copy_nested": """start: lui x8 2
addi x28 x0 31
addi x20 x0 10
outer: addi x9 x0 0
inner: addi x11 x9 1
add x6 x9 x8
lbu x5 0(x6)
beq x5 x0 out
bltu x28 x11 out
addi x9 x11 0
jal x0 inner
out: addi x21 x20 -1
beq x21 x0 wait
addi x20 x21 0
jal x0 outer
""",
    # the counter is an index
    "copy_index": """start: lui x8 2
addi x9 x0 0
addi x28 x0 100
again: slli x6 x9 2
add x6 x6 x8
lw x5 0(x6)
addi x11 x9 1
beq x5 x0 wait
bltu x28 x11 wait
addi x9 x11 0
jal x0 again
""",
    # two strides meet in one copy
    "two_copies_merge": """start: lui x8 2
addi x9 x0 0
addi x28 x0 60
again: add x6 x9 x8
lbu x5 0(x6)
beq x5 x0 two
addi x11 x9 1
jal x0 both
two: addi x11 x9 2
both: bltu x28 x11 wait
addi x9 x11 0
jal x0 again
""",
    # two strides, each with a copy of its own
    "two_regs_merge": """start: lui x8 2
addi x9 x0 0
addi x28 x0 60
again: add x6 x9 x8
lbu x5 0(x6)
beq x5 x0 two
addi x11 x9 1
bltu x28 x11 wait
addi x9 x11 0
jal x0 again
two: addi x12 x9 2
bltu x28 x12 wait
addi x9 x12 0
jal x0 again
""",
    # two counters, of which each turn moves one
    "merge_two_arrays": """start: lui x8 2
addi x9 x0 0
addi x18 x0 0
addi x28 x0 16
again: add x6 x9 x8
lbu x5 0(x6)
add x6 x18 x8
lbu x7 64(x6)
bltu x5 x7 left
addi x18 x18 1
bltu x18 x28 again
jal x0 wait
left: addi x9 x9 1
bltu x9 x28 again
""",
    # the same by copies
    "merge_copies": """start: lui x8 2
addi x9 x0 0
addi x18 x0 0
addi x28 x0 15
again: add x6 x9 x8
lbu x5 0(x6)
add x6 x18 x8
lbu x7 64(x6)
bltu x5 x7 left
addi x19 x18 1
bltu x28 x19 wait
addi x18 x19 0
jal x0 again
left: addi x11 x9 1
bltu x28 x11 wait
addi x9 x11 0
jal x0 again
""",
    # one counter up, the other down
    "up_and_down": """start: lui x8 2
addi x9 x0 0
addi x18 x0 63
addi x28 x0 63
again: add x6 x9 x8
lbu x5 0(x6)
beq x5 x0 down
addi x9 x9 1
bltu x28 x9 wait
jal x0 again
down: beq x18 x0 wait
addi x18 x18 -1
jal x0 again
""",
    # an inner loop from 1 at least: insertion sort
    "ruled_out": """start: lui x8 2
addi x20 x0 1
addi x21 x0 16
outer: add x6 x20 x8
lbu x5 0(x6)
addi x10 x20 0
inner: add x6 x10 x8
lbu x7 -1(x6)
bgeu x5 x7 put
sb x7 0(x6)
addi x10 x10 -1
bne x10 x0 inner
put: add x6 x10 x8
sb x5 0(x6)
addi x20 x20 1
bltu x20 x21 outer
""",
    # the same with a way for 0, which is not gone
    "ruled_out_zero": """start: lui x8 2
addi x20 x0 1
addi x21 x0 16
outer: add x6 x20 x8
lbu x5 0(x6)
addi x10 x20 0
inner: beq x10 x0 zero
add x6 x10 x8
lbu x7 -1(x6)
bgeu x5 x7 put
sb x7 0(x6)
addi x10 x10 -1
bne x10 x0 inner
put: add x6 x10 x8
sb x5 0(x6)
addi x20 x20 1
bltu x20 x21 outer
jal x0 wait
zero: sb x5 0(x8)
jal x0 outer
""",
    # on a way that is not gone the outer loop begins anew
    "ruled_out_spoils": """start: lui x8 2
addi x20 x0 1
addi x21 x0 16
outer: addi x10 x20 0
addi x20 x20 1
beq x10 x0 zero
inner: addi x10 x10 -1
bne x10 x0 inner
bltu x20 x21 outer
jal x0 wait
zero: addi x20 x0 1
jal x0 outer
""",
    # insertion sort as gcc makes it
    "gcc_insertion": """start: lui x8 2
addi x14 x0 1
addi x31 x0 16
outer: add x6 x14 x8
lbu x12 0(x6)
addi x10 x14 0
jal x0 test
shift: add x6 x10 x8
sb x7 0(x6)
addi x10 x10 -1
beq x10 x0 zero
test: beq x10 x0 zero
add x6 x10 x8
lbu x7 -1(x6)
bltu x12 x7 shift
store: add x6 x10 x8
sb x12 0(x6)
addi x14 x14 1
bne x14 x31 outer
jal x0 wait
zero: addi x10 x0 0
jal x0 store
""",
    # a copy down to 0
    "copy_down": """start: lui x8 2
addi x9 x0 31
again: addi x11 x9 -1
add x6 x9 x8
lbu x5 0(x6)
beq x5 x0 wait
beq x11 x0 wait
addi x9 x11 0
jal x0 again
""",
    # a copy of a copy
    "copy_through_two": """start: lui x8 2
addi x9 x0 0
addi x28 x0 31
again: addi x11 x9 1
addi x12 x11 0
bltu x28 x12 wait
addi x9 x12 0
jal x0 again
""",
    # the counter and its copy take turns
    "swap_roles": """start: lui x8 2
addi x9 x0 0
addi x28 x0 40
again: addi x11 x9 1
bltu x28 x11 wait
addi x9 x11 1
bltu x28 x9 wait
jal x0 again
""",
    # the inner loop begins from the outer one's copy
    "nested_copy_inner_from_outer": """start: lui x8 2
addi x28 x0 15
addi x9 x0 0
outer: addi x11 x9 1
addi x10 x11 0
inner: addi x13 x10 -1
beq x13 x0 out
addi x10 x13 0
jal x0 inner
out: bltu x28 x11 wait
addi x9 x11 0
jal x0 outer
""",
    # an early way out joins the end of the inner loop
    "rejoin_after_early": """start: lui x8 2
addi x28 x0 31
addi x20 x0 0
outer: addi x9 x0 0
inner: addi x11 x9 1
add x6 x9 x8
lbu x5 0(x6)
beq x5 x0 out
bltu x28 x11 out
addi x9 x11 0
jal x0 inner
out: addi x21 x20 1
bltu x28 x21 wait
addi x20 x21 0
jal x0 outer
""",
}

# What has none.
NONE = {
    # until loaded data says so
    "loaded": """start: lui x8 2
again: lbu x5 0(x8)
bne x5 x0 again
""",
    # a copy that meets its counter again: no relation of the two is known
    "two_counters_met": """start: lui x8 2
addi x11 x0 0
addi x28 x0 59
again: addi x17 x11 1
add x6 x11 x8
lbu x5 0(x6)
beq x5 x0 one
addi x11 x11 3
jal x0 test
one: addi x11 x17 0
test: bgeu x28 x11 again
""",
}


def main():
    for name, programs in (("found", FOUND), ("none", NONE)):
        folder = os.path.join(sys.argv[1], name)
        os.makedirs(folder, exist_ok=True)
        for kind, program in programs.items():
            with open(f"{folder}/{kind}.txt", "w", encoding="ascii") as file:
                file.write(HEAD + program + WAIT)


if __name__ == "__main__":
    main()
