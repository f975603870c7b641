#!/usr/bin/env python3
"""Sessions that go forwards and backwards at random. After each motion all registers of all parts, and the first bytes of the pages
that each sees, are compared with a run from the beginning that tools/traces reckons.

  tools/gdb/walks.py TEXT LINES SESSIONS [SEED]     LINES is how many interrupt lines there are, from 1
"""

import os
import random
import subprocess
import sys
import tempfile

sys.dont_write_bytecode = True
from protocol import PROGRAM, Session, differs, reckoned  # noqa: E402


def put_event(events, done, event):
    """Puts an event into a run as the next one."""
    events[len(events) : done] = ["step"] * (done - len(events))
    events.insert(done, event)


def moved(session, rng, events, done, lines, threads):
    """A motion at random, and what it was."""
    kind = rng.choice(("by", "irq", "tick", "to", "bs", "s", "bc"))
    if kind == "by":
        session.monitor(f"step {rng.randrange(1, 120)}")
    elif kind in ("irq", "tick"):
        event = "tick" if kind == "tick" else f"irq {rng.randrange(1, lines + 1)}"
        session.monitor(event)
        put_event(events, done, event)
    elif kind == "to":
        session.monitor(f"to {rng.randrange(0, done + 60)}")
    elif kind == "s":
        session.ask(b"vCont;s:%x;c" % rng.randrange(1, threads + 1))
    else:
        session.ask(kind.encode())
    return kind


def walk(text, data, lines, rng):
    """A session: how many moments were compared, and what was other than reckoned."""
    session, events, done, moments, wrong = Session(text), [], 0, 0, None
    threads = len(reckoned(data, [], 0).threads)
    for _ in range(rng.randrange(3, 9)):
        kind = moved(session, rng, events, done, lines, threads)
        done = session.done()
        moments += 1
        if told := differs(session, reckoned(data, events, done)):
            wrong = f"{kind}, after {done} events: {told}"
            break
    if status := session.end():
        wrong = wrong or f"status {status}"
    return moments, wrong


def main():
    text, lines, sessions = sys.argv[1], int(sys.argv[2]), int(sys.argv[3])
    rng = random.Random(sys.argv[4] if len(sys.argv) > 4 else "walks")
    with tempfile.TemporaryDirectory() as room:
        image = os.path.join(room, "image")
        subprocess.run([PROGRAM, "build", text, image], check=True, capture_output=True)
        with open(image, "rb") as file:
            data = file.read()
    all_moments, bad = 0, 0
    for number in range(sessions):
        moments, wrong = walk(text, data, lines, rng)
        all_moments += moments
        if wrong:
            bad += 1
            print(f"session {number}: {wrong}")
    print(f"{os.path.basename(text)}: {sessions} sessions, {all_moments} moments, {bad} other than reckoned")
    return 1 if bad else 0


if __name__ == "__main__":
    sys.exit(main())
