#!/usr/bin/env python3
"""A session of packets that are noise: any bytes, wrong sums, packets that are cut off or too long, requests that mean nothing, and
some that do. The session goes on, and answers a right packet at the end; its memory is measured on the way.

  tools/gdb/noise.py SYSTEM PACKETS [SEED]
"""

import os
import random
import sys
import threading

sys.dont_write_bytecode = True
from protocol import Session, frame  # noqa: E402

HEADS = (b"g", b"G", b"p", b"P", b"m", b"M", b"X", b"H", b"T", b"Z0,", b"Z2,", b"z0,", b"z2,", b"?", b"vCont", b"vCont;", b"vCont?", b"qRcmd,", b"q", b"s", b"bs", b"")
ASKED = (b"step 3", b"irq 3", b"tick", b"to 7", b"waits", b"slots", b"known", b"where", b"part all", b"\xff\xfe", b"")
# Of so many packets one is too long.
LONG = 1000
# How many KiB more a session may have at its end.
MOST_MORE = 1024


def packet(rng):
    """A packet, or what is none."""
    kind = rng.randrange(10)
    some = rng.randbytes(rng.randrange(0, 40))
    text = bytes(rng.choice(b"0123456789abcdef,;:-") for _ in range(rng.randrange(0, 24)))
    if kind == 0:
        return some
    if kind == 1:
        return b"$" + some
    if kind == 2:
        return b"$" + text + b"#" + some[:2]
    if kind == 3 and rng.randrange(LONG) == 0:
        return frame(b"m" * rng.randrange(4000, 9000))
    if kind == 4:
        return frame(b"qRcmd," + rng.choice(ASKED).hex().encode())
    if kind == 5:
        return b"\x03"
    if kind == 6:
        return frame(some.replace(b"$", b"").replace(b"#", b"").replace(b"D", b"").replace(b"k", b""))
    return frame(rng.choice(HEADS) + text)


def memory_of(number):
    """How many KiB a process has in memory."""
    with open(f"/proc/{number}/status", encoding="utf-8") as file:
        return next(int(line.split()[1]) for line in file if line.startswith("VmRSS"))


def main():
    system, packets = sys.argv[1], int(sys.argv[2])
    rng = random.Random(sys.argv[3] if len(sys.argv) > 3 else "noise")
    session = Session(system)
    session.monitor("where")
    number = session.program.pid
    taken = []
    reader = threading.Thread(target=lambda: taken.extend(len(it) for it in iter(lambda: os.read(session.program.stdout.fileno(), 1 << 16), b"")))
    reader.start()
    sizes = []
    for place in range(packets):
        session.program.stdin.write(packet(rng))
        if place % (packets // 10) == packets // 10 - 1:
            session.program.stdin.flush()
            sizes.append(memory_of(number))
    session.program.stdin.write(b"#00" + frame(b"k"))
    session.program.stdin.close()
    status = session.program.wait(600)
    reader.join()
    print(f"{packets} packets of noise: status {status}, {sum(taken)} bytes of answers, KiB of memory {' '.join(map(str, sizes))}")
    # the events that packets ask for are kept, of 12 bytes each; whatever is kept of a packet itself would be megabytes
    return 1 if status or sizes[-1] > sizes[0] + MOST_MORE else 0


if __name__ == "__main__":
    sys.exit(main())
