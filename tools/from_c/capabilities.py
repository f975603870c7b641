#!/usr/bin/env python3
"""Uses each function of microsys.h with each kind of capability.

    tools/from_c/capabilities.py [CERTIFIER MICROSYS]

By the names of a description those that a function is not for do not compile, and the compiler names the line. Where a thread
says by `bell_at`, `door_at` or `line_at` that a slot has what it has not, the calls that the verifier takes leave its variables
as the C says: sixteen values go over each call, and are put after it. That is looked at with CERTIFIER and MICROSYS alone.
"""

from __future__ import annotations

import re
import subprocess
import sys
import tempfile
from pathlib import Path

HERE = Path(__file__).resolve().parent
# The names of the thread's capabilities, by kind. Numbers are of four kinds.
KINDS = {
    "bell": "CAP_BELL",
    "door": "CAP_DOOR",
    "line": "CAP_LINE",
    "untyped": "CAP_POOL",
    "cnode": "CAP_SLOTS",
    "root": "CAP_SPACE",
    "frame": "CAP_PAGE",
}
NUMBERS = ("untyped", "cnode", "root", "frame")
# Each function, as a statement by a capability X, and the kinds that it compiles with.
CALLS = {
    "sys_wait": ("(void)sys_wait(X);", ("bell",)),
    "sys_poll": ("(void)sys_poll(X);", ("bell",)),
    "sys_signal": ("sys_signal(X);", ("bell",)),
    "sys_recv": ("(void)sys_recv(X);", ("door",)),
    "sys_nb_recv": ("(void)sys_nb_recv(X);", ("door",)),
    "sys_send": ("sys_send(X, MESSAGE(1, 2));", ("door",)),
    "sys_nb_send": ("sys_nb_send(X, MESSAGE(1, 2));", ("door",)),
    "sys_call": ("(void)sys_call(X, MESSAGE(1, 2));", ("door",)),
    "sys_reply_recv": ("(void)sys_reply_recv(X, MESSAGE(1, 2));", ("door",)),
    "handler_ack": ("(void)handler_ack(X);", ("line",)),
    "untyped_retype": ("(void)untyped_retype(X, FRAME, 0, OWN_CNODE, 12, 1);", NUMBERS),
    "cnode_copy": ("(void)cnode_copy(X, slot(12), slot(CAP_DOOR), READ);", NUMBERS),
    "cnode_mint": ("(void)cnode_mint(X, slot(12), slot(CAP_BELL), READ, 1);", NUMBERS),
    "cnode_move": ("(void)cnode_move(X, slot(12), slot(CAP_PAGE));", NUMBERS),
    "cnode_delete": ("(void)cnode_delete(X, slot(CAP_PAGE));", NUMBERS),
    "cnode_revoke": ("(void)cnode_revoke(X, slot(CAP_POOL));", NUMBERS),
    "frame_map": ("(void)frame_map(X, slot(CAP_SPACE), 0x9000, READ);", NUMBERS),
    "frame_unmap": ("(void)frame_unmap(X);", NUMBERS),
    "slot": ("(void)slot(X);", tuple(KINDS)),
}
# Those that take no capability.
WITHOUT = {"sys_yield", "sys_put_char", "sys_reply"}
VALUES = 16
TEXT = """memory 17 5
untyped memory 0x10000 16
object code memory frame
object more_code memory frame
object partner_code memory frame
object space memory root
object partner_space memory root
object table memory table
object partner_table memory table
object page memory frame
object data memory frame
object stack memory frame
object pool memory untyped 12
object thread memory tcb
object partner memory tcb
object slots memory cnode 4
object partner_slots memory cnode 4
object bell memory notification
object door memory endpoint
irq line 3 bell 1
cap slots 1 bell 3 0
cap slots 2 line 0 0
cap slots 3 door 11 5
cap slots 4 pool 0 0
cap slots 5 slots 0 28
cap slots 6 space 0 0
cap slots 7 page 3 0
cap partner_slots 1 door 3 6
table space 0 table
table partner_space 0 partner_table
map space 0x1000 code 4
map space 0x2000 more_code 4
map space 0x4000 data 3
map space 0x5000 stack 3
map partner_space 0x1000 partner_code 4
thread thread slots 28 space 100 auto 0 main 0x1000
program row.c data 0x4000 stack 0x6000
end
thread partner partner_slots 28 partner_space 110 auto 0 partner 0x1000
program partner.c
end
"""
# It answers or sends what differs in each register that a message has.
PARTNER = """#include "microsys.h"
THREAD partner(void) {
    for (;;)
        SAYS;
}
"""
SENDS = "sys_send(CAP_DOOR, MESSAGE(0x777, 101, 102, 103, 104, 105, 106, 107, 108))"
ANSWERS = "(void)sys_reply_recv(CAP_DOOR, MESSAGE(0x777, 101, 102, 103, 104, 105, 106, 107, 108))"


def names_of_header() -> set[str]:
    """The functions of microsys.h that makers call with a capability or none."""
    text = (HERE / "microsys.h").read_text()
    return set(re.findall(r"^MICROSYS_INLINE .*?\b((?:sys|untyped|cnode|frame|handler)_\w+)\(", text, re.MULTILINE))


def converted(folder: Path, source: str, says: str) -> subprocess.CompletedProcess[str]:
    """What from_c.py says of a thread and its partner."""
    (folder / "row.c").write_text(source)
    (folder / "partner.c").write_text(PARTNER.replace("SAYS", says))
    (folder / "row.txt").write_text(TEXT)
    command = [sys.executable, "-B", HERE / "from_c.py", folder / "row.txt", folder / "row.text"]
    return subprocess.run(command, capture_output=True, text=True, check=False)


def kinds_compile(folder: Path) -> list[str]:
    """What compiles otherwise than it is to, of each function with each kind by its name."""
    lines, wanted = ['#include "microsys.h"', "THREAD main(void) {"], set()
    rows: dict[int, str] = {}
    for name, (call, kinds) in CALLS.items():
        for kind, capability in KINDS.items():
            lines.append(call.replace("X", capability))
            rows[len(lines)] = f"{name} with a {kind}"
            if kind not in kinds:
                wanted.add(len(lines))
    said = converted(folder, "\n".join([*lines, "}"]) + "\n", SENDS).stderr
    errors = {int(line) for line in re.findall(r"^row\.c:(\d+): error: incompatible type", said, re.MULTILINE)}
    faults = [f"{rows[line]} compiles" for line in sorted(wanted - errors)]
    faults += [f"{rows.get(line, line)} does not compile" for line in sorted(errors - wanted)]
    return faults


def row(call: str) -> str:
    """A thread with values that go over a call."""
    names = [f"v{it}" for it in range(VALUES)]
    loads = "\n".join(f"uint32_t {name} = first[{it}];" for it, name in enumerate(names))
    puts = "\n".join(f"sys_put_char({name});" for name in names)
    values = ", ".join(str(it + 17) for it in range(VALUES))
    first = f"static volatile uint8_t first[{VALUES}] = {{{values}}};"
    body = f"{loads}\n{call}\n{puts}\nfor (;;) sys_wait(CAP_BELL);"
    return f'#include "microsys.h"\n{first}\nTHREAD main(void) {{\n{body}\n}}\n'


def said_rows() -> list[tuple[str, str]]:
    """Each function with each kind, as the thread says it."""
    rows: list[tuple[str, str]] = []
    for name, (call, kinds) in CALLS.items():
        for kind, capability in KINDS.items():
            if name != "slot":
                given = f"slot({capability}).address"
                said = given if kinds == NUMBERS else f"{kinds[0]}_at({given})"
                rows.append((f"{name} with a {kind}", call.replace("X", said)))
    return rows


def variables_stay(folder: Path, certifier: str, microsys: str) -> tuple[list[str], int]:
    """What puts other bytes than the C says, of what is accepted; and how many are."""
    faults: list[str] = []
    taken = 0
    wanted = [f"{it + 17:02x}" for it in range(VALUES)]
    (folder / "events").write_text("step 400\nirq 3\nstep 400\n")
    for name, call in said_rows():
        says = ANSWERS if "sys_call(" in call else SENDS
        if converted(folder, row(call), says).returncode:
            faults.append(f"{name} does not compile")
            continue
        for words in (
            [certifier, "certify", "row.text", "row.certified"],
            [microsys, "build", "row.certified", "row.img"],
            [microsys, "run", "row.img", "events"],
        ):
            ran = subprocess.run(words, cwd=folder, capture_output=True, text=True, check=False)
            if ran.returncode:
                break
        else:
            taken += 1
            put = re.findall(r"^\S+ \S+ byte (\S+)$", ran.stdout, re.MULTILINE)
            if put and put != wanted:
                faults.append(f"{name}: put {' '.join(put)}")
    return faults, taken


def main(programs: list[str]) -> int:
    """Says what is wrong."""
    lacking = names_of_header() - set(CALLS) - WITHOUT
    faults = [f"no row for {name}" for name in sorted(lacking)]
    with tempfile.TemporaryDirectory() as room:
        faults += kinds_compile(Path(room))
        print(f"{len(CALLS) * len(KINDS)} uses compile, or do not, as they are to" if not faults else "\n".join(faults))
        if programs:
            more, taken = variables_stay(Path(room), *programs)
            print("\n".join([*more, f"{taken} uses are accepted, and {len(more)} of all put other bytes"]))
            faults += more
    return bool(faults)


if __name__ == "__main__":
    sys.exit(main([str(Path(it).resolve()) for it in sys.argv[1:]]))
