#!/usr/bin/env python3
"""What `make` and `test` note of systems whose parts are in C: for each note a system that has it, and one that has not.

    tools/make_system/notes.py TOOL

TOOL is the script microsys_tool. With `--strict` what is noted is refused, and no image is written.
"""

from __future__ import annotations

import subprocess
import sys
import tempfile
from pathlib import Path

HEAD = '#include "microsys.h"\n'
# Each row: what is noted of the first system and not of the second, and both, as a description and the functions of its parts.
WAITS = "THREAD a(void) { for (;;) { sys_wait(CAP_B); sys_put_char('a'); ACK } }"
ACKS = WAITS.replace("ACK", "handler_ack(CAP_B_LINE7);")
LINE = "bell b\npart a 1\nwaits b line 7\nprogram a.c\nend\n"
TWO = "bell b\nbell o\npart a 1\nwaits b\nprogram a.c\nend\npart c 1\nwaits {0}\nrings {1}\nprogram c.c\nend\n"
RINGS_B = "THREAD c(void) { for (;;) { sys_wait(CAP_O); sys_signal(CAP_B); } }"
WAITS_B = "THREAD c(void) { for (;;) { sys_wait(CAP_B); sys_signal(CAP_O); } }"
RING = "door p\ndoor q\npart a 1\nserves p\n{0}program a.c\nend\npart c 1\n{1}calls p\nprogram c.c\nend\n"
SERVES = "THREAD a(void) { for (;;) { sys_recv(CAP_P); sys_reply(MESSAGE(0)); MORE } }"
CALLS = "THREAD c(void) { for (;;) { MORE sys_call(CAP_P, MESSAGE(0)); } }"
SERVER = "door p\npart a 1\nserves p\nprogram a.c\nend\npart c 1\ncalls p\nprogram c.c\nend\n"
SOME = "THREAD a(void) { for (;;) { struct message m = sys_recv(CAP_P); ANSWER } }"
ROWS = [
    (
        "interrupt line 7 rings b once: no way of a from a wait to the next one acknowledges it",
        (LINE, {"a": WAITS.replace("ACK", "")}),
        (LINE, {"a": ACKS}),
    ),
    (
        "a, c wait for the bell b, and each signal comes to one of them",
        (TWO.format("b", "o"), {"a": WAITS.replace("ACK", ""), "c": WAITS_B}),
        (TWO.format("o", "b"), {"a": WAITS.replace("ACK", ""), "c": RINGS_B}),
    ),
    (
        "a, c call or send to one another in a ring, and each can wait for the next for ever",
        (
            RING.format("calls q\n", "serves q\n"),
            {
                "a": SERVES.replace("MORE", "sys_call(CAP_Q, MESSAGE(0));"),
                "c": CALLS.replace("MORE", "sys_recv(CAP_Q); sys_reply(MESSAGE(0));"),
            },
        ),
        (RING.format("", ""), {"a": SERVES.replace("MORE", ""), "c": CALLS.replace("MORE", "")}),
    ),
    (
        "a receives calls, and a way leads here from one of them without an answer: who called waits for ever",
        (SERVER, {"a": SOME.replace("ANSWER", "if (m.words[0]) sys_reply(MESSAGE(0));"), "c": CALLS.replace("MORE", "")}),
        (SERVER, {"a": SOME.replace("ANSWER", "sys_reply(MESSAGE(0, m.words[0]));"), "c": CALLS.replace("MORE", "")}),
    ),
]


def put(room: Path, system: tuple[str, dict[str, str]]) -> None:
    """Writes a system and the sources of its parts."""
    description, functions = system
    (room / "it.sys").write_text(description)
    for name, function in functions.items():
        (room / f"{name}.c").write_text(f"{HEAD}{function}\n")


def run(room: Path, *words: str) -> subprocess.CompletedProcess[str]:
    """What the program says of the system in the room."""
    return subprocess.run(words, cwd=room, capture_output=True, text=True, check=False)


def faults_of(tool: str, room: Path) -> list[str]:
    """What is noted otherwise than it is to be."""
    found: list[str] = []
    for note, with_it, without in ROWS:
        for system, is_noted in ((with_it, True), (without, False)):
            put(room, system)
            made = run(room, tool, "make", "it.sys", "it.img")
            if made.returncode or (note in made.stdout) != is_noted:
                found.append(f"{note}: {is_noted}: {made.stdout}{made.stderr}")
            if not is_noted:
                continue
            (room / "it.img").unlink()
            strict = run(room, tool, "make", "it.sys", "it.img", "--strict")
            # What the description alone shows is refused before the calls of its parts are looked at.
            if strict.returncode != 1 or ": note: " not in strict.stderr or (room / "it.img").exists():
                found.append(f"{note}: with --strict: {strict.stdout}{strict.stderr}")
    put(room, (LINE, {"a": ACKS}))
    if run(room, tool, "expand", "it.sys", "it.text", "--strict").returncode or not (room / "it.text").exists():
        found.append("expand --strict of what has no notes: no text")
    (room / "bytes").write_text("61\n")
    for events, is_noted in (("step 99\nirq 5\nirq 7\nstep 99\n", True), ("step 99\nirq 7\nstep 99\n", False)):
        (room / "events").write_text(events)
        tested = run(room, tool, "test", "it.sys", "events", "bytes")
        said = tested.stdout + tested.stderr
        if tested.returncode or ("`irq 5` rings nothing" in said) != is_noted:
            found.append(f"irq 5: {is_noted}: {said}")
    return found


def main(tool: str) -> int:
    """Says what is wrong."""
    with tempfile.TemporaryDirectory() as room:
        found = faults_of(str(Path(tool).resolve()), Path(room))
    print("\n".join(found) or f"{len(ROWS) + 1} notes, each of a system that has it and one that has not")
    return bool(found)


if __name__ == "__main__":
    if len(sys.argv) != 2:
        sys.exit(__doc__)
    sys.exit(main(sys.argv[1]))
