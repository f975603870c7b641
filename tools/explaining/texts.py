"""Three texts that get certificates, with budgets to be found and without records. Lines count from 1."""

COUNT = """\
memory 16 4
untyped u 0x8000 15
object code u frame
object vs u root
object pt u table
object page u frame
object main u tcb
object cs u cnode 4
object bell u notification
irq line 3 bell 1
cap cs 1 bell 2 0
cap cs 2 line 0 0
table vs 0 pt
map vs 0x1000 code 4
map vs 0x2000 page 3
thread main cs 28 vs 100 auto 0 start 0x1000
start: addi x5 x0 10
lui x14 2
loop: sw x5 0(x14)
addi x5 x5 -1
bne x5 x0 loop
again: addi x10 x0 1
addi x17 x0 5
ecall
jal x0 again
end
"""

POOL = """\
memory 17 5
untyped u 0x10000 16
object code u frame
object vs u root
object pt u table
object worker u tcb
object cs u cnode 4
object bell u notification
object pool u untyped 13
cap cs 1 pool 0 0
cap cs 2 cs 0 28
cap cs 3 vs 0 0
cap cs 5 bell 2 0
table vs 0 pt
map vs 0x1000 code 4
thread worker cs 28 vs 100 auto 0 start 0x1000
start: addi x17 x0 1
addi x10 x0 1
lui x11 1
addi x11 x11 6
addi x12 x0 6
addi x13 x0 0
addi x14 x0 0
addi x15 x0 0
addi x18 x0 4
addi x19 x0 1
ecall
addi x10 x0 4
lui x11 0xD
addi x11 x11 4
addi x12 x0 3
addi x13 x0 32
lui x14 3
addi x15 x0 3
ecall
sw x19 0(x14)
addi x17 x0 5
again: addi x10 x0 5
ecall
jal x0 again
end
"""

PAIR = """\
memory 17 5
untyped u 0x10000 16
object code u frame
object vs u root
object pt u table
object code2 u frame
object vs2 u root
object pt2 u table
object one u tcb
object two u tcb
object cs u cnode 4
object cs2 u cnode 4
object bell u notification
object door u endpoint
irq line 3 bell 1
cap cs 1 bell 2 0
cap cs 2 door 1 7
cap cs2 1 door 2 0
table vs 0 pt
table vs2 0 pt2
map vs 0x1000 code 4
map vs2 0x1000 code2 4
thread one cs 28 vs 100 auto 0 begin 0x1000
begin: addi x10 x0 1
addi x17 x0 5
ecall
addi x10 x0 2
addi x11 x0 1
addi x12 x0 65
addi x17 x0 3
ecall
jal x0 begin
end
thread two cs2 28 vs2 90 auto 0 take 0x1000
take: addi x10 x0 1
addi x17 x0 5
ecall
addi x5 x0 8
turn: addi x5 x5 -1
bne x5 x0 turn
jal x0 take
end
"""

TEXTS = {"count": COUNT, "pool": POOL, "pair": PAIR}
