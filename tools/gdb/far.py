#!/usr/bin/env python3
"""A million events forwards and one instruction backwards, by seconds; below 0.2 of them is as expected of the built program.

  tools/gdb/far.py SYSTEM [SECONDS]
"""

import sys
import time

sys.dont_write_bytecode = True
from protocol import Session  # noqa: E402

EVENTS = 1_000_000


def main():
    limit = float(sys.argv[2]) if len(sys.argv) > 2 else 0.2
    session = Session(sys.argv[1])
    session.monitor("where")
    began = time.monotonic()
    session.monitor(f"step {EVENTS}")
    forwards = time.monotonic()
    session.ask(b"bs")
    back = time.monotonic()
    done = session.done()
    status = session.end()
    took = back - began
    print(f"{EVENTS} events forwards in {forwards - began:.3f} s, one instruction back to {done} in {back - forwards:.3f} s")
    return 0 if status == 0 and EVENTS - 100 <= done < EVENTS and took < limit else 1


if __name__ == "__main__":
    sys.exit(main())
