#!/usr/bin/env python3
"""Compares what `tools/make_system/microsys_tool` does with words with what `make_system.py` does with them: the same status,
output and errors, and Python is started only for what the program does not do alone. A stand-in for the program puts the words
and the standard input that it gets, so nothing has to be built.

    tools/make_system/check_starter.py
"""

from __future__ import annotations

import os
import re
import subprocess
import sys
import tempfile
from concurrent.futures import ThreadPoolExecutor
from dataclasses import dataclass
from pathlib import Path

HERE = Path(__file__).resolve().parent
STARTER, SCRIPT = HERE / "microsys_tool", HERE / "make_system.py"
# It puts the words and the sum of what it reads, and ends in a status of its own.
PROGRAM = '#!/bin/sh\nprintf "<%s>\\n" "$@"\ncksum\necho errors >&2\nexit 5\n'
# It says that it was started.
PYTHON = f'#!/bin/sh\necho >"$STARTED"\nexec {sys.executable} "$@"\n'
PLAIN = "# program of a page\npage it\nbell program\npart one 1\n  sees it\n  asm\n    programs: jal x0 programs\n  end\nend\n"
IN_C = "page it\npart one 1\n  sees it\n  program one.c\nend\n"
FILES = {
    "plain.sys": PLAIN,
    "plain and blanks.sys": PLAIN,
    "plain.text": "memory 16 4\n",
    "empty": "",
    "c.sys": IN_C,
    "c and blanks.sys": IN_C,
    "c.text": "memory 16 4\nthread one cs 0 vs 7 100 0 start 0x1000\nprogram one.c\nend\n",
    "commas.sys": IN_C.replace("  program one.c", " \t, program,one.c"),
    "alone.sys": IN_C.replace("program one.c", "program"),
    "noted.sys": IN_C.replace("program one.c", "program# of which file?"),
    "lines.sys": IN_C.replace("\n", "\r\n"),
    "returns.sys": IN_C.replace("\n", "\r"),
    "last.sys": IN_C.partition(" one.c")[0],
    "some.events": "step 10\n",
    "some.trace": "program one.c\n",
    "-odd.sys": IN_C,
}
# An image may have such a line among its bytes.
BYTES = {"some.img": b"MSYS\xff\x00\nprogram one.c\n"}
WORDS = {
    "make": ["SYSTEM", "made.img"],
    "expand": ["SYSTEM", "made.text"],
    "certify": ["SYSTEM", "made.text"],
    "explain": ["SYSTEM"],
    "draw": ["SYSTEM"],
    "test": ["SYSTEM", "some.events", "some.trace"],
    "run": ["SYSTEM", "some.events"],
    "gdb": ["SYSTEM"],
    "chart": ["some.trace", "SYSTEM"],
    "diff": ["plain.sys", "SYSTEM"],
    "cover": ["SYSTEM", "some.events"],
    "parts": ["SYSTEM"],
    "response": ["SYSTEM", "3", "1", "100"],
    "alone": ["SYSTEM", "one", "made.text"],
    "report": ["SYSTEM", "made.html"],
    "verify": ["SYSTEM"],
    "list": ["SYSTEM"],
    "build": ["SYSTEM", "made.img"],
}


@dataclass(frozen=True)
class Case:
    words: tuple[str, ...]
    given: str = ""
    # Whether Python may be started, though the program does it alone then.
    may_start: bool = False


def cases() -> list[Case]:
    """All cases."""
    found = [Case(()), Case(("",)), Case(("--version",)), Case(("help", "make")), Case(("nothing", "c.sys"))]
    for word, files in WORDS.items():
        def with_system(name: str) -> tuple[str, ...]:
            return (word, *(name if it == "SYSTEM" else it for it in files))

        found += [Case(with_system("plain and blanks.sys")), Case(with_system("c and blanks.sys")), Case(with_system("-"), PLAIN)]
    for word in ("make", "chart", "cover", "alone", "response"):
        found += [Case((word,)), Case((word, "c.sys", "c.sys", "--help")), Case((word, *["c.sys"] * 1001))]
        found.append(Case((word, "missing.sys", "missing.sys")))
    for name in [*FILES, *BYTES, "folder"]:
        may_start = name in BYTES
        found += [Case(("explain", name), may_start=may_start)]
    for name in ("empty", "c.text", "commas.sys", "lines.sys", "returns.sys"):
        found.append(Case(("draw", "-"), FILES[name], may_start=name == "returns.sys"))
    found += [
        Case(("make", "plain.sys", "-")),
        Case(("make", "-D", "name=1", "c.sys", "made.img", "-Dother=2")),
        Case(("make", "-D", "c.sys", "plain.sys", "made.img")),
        Case(("make", "plain.sys", "made.img", "--strict")),
        Case(("make", "plain.sys", "made.img", "--symbols", "made.elf")),
        Case(("make", "plain.sys", "made.img", "--symbols"), may_start=True),
        Case(("run", "plain.sys", "-"), "step 1\n"),
        Case(("run", "-", "-"), PLAIN),
        Case(("run", "plain.sys", "some.events", "--bytes-of", "c.sys")),
        Case(("chart", "-", "plain.sys"), "program one.c\n"),
        Case(("chart", "-", "c.sys"), "some\n"),
        Case(("chart", "some.trace", "plain.sys", "--from", "c.sys", "--to", "3")),
        Case(("chart", "some.trace", "plain.sys", "--part", "--help")),
        Case(("diff", "-", "-"), PLAIN),
        Case(("diff", "-", "c.sys"), PLAIN),
        Case(("diff", "c.sys", "-"), PLAIN),
        Case(("diff", "plain.sys", "plain.text")),
        Case(("diff", "commas.sys", "folder")),
        Case(("test", "plain.sys", "folder")),
        Case(("test", "plain.sys", "folder", "--only", "none")),
        Case(("test", "plain.sys", "folder", "some.trace"), may_start=True),
        Case(("test", "plain.sys", "some.events", "some.trace", "-h")),
        Case(("gdb", "plain.text", "some.events")),
        Case(("gdb", "some.img"), may_start=True),
        Case(("response", "-", "--rate", "1:1:1"), IN_C),
        Case(("explain", "--", "c.sys")),
        Case(("explain", "")),
    ]
    return found


def outcome_of(command: list[str], case: Case, room: Path, started: Path) -> tuple[int, str, str]:
    """What a command does with the words of a case, but for the names of folders that are there for a while."""
    environment = {**os.environ, "PATH": f"{room}/bin:{os.environ['PATH']}", "MICROSYS_TOOL": f"{room}/bin/program", "STARTED": str(started)}
    done = subprocess.run([*command, *case.words], input=case.given.encode(), capture_output=True, cwd=room / "files", env=environment, check=False)
    said = [re.sub(r"microsys\.\w+", "microsys.ROOM", it.decode(errors="replace")) for it in (done.stdout, done.stderr)]
    return done.returncode, said[0], said[1]


def wrong_in(case: Case, room: Path, number: int) -> str:
    """What is wrong with a case, or nothing."""
    started, other = room / f"started{number}", room / f"other{number}"
    found = outcome_of([str(STARTER)], case, room, started)
    expected = outcome_of([sys.executable, "-B", str(SCRIPT)], case, room, other)
    alone = outcome_of([f"{room}/bin/program"], case, room, other)
    if found != expected:
        return f"{found}, and by Python {expected}"
    if started.exists() and expected == alone and not case.may_start:
        return "Python is started, and the program does the same"
    return ""


def make_room(room: Path) -> None:
    """The files of all cases, and the stand-ins."""
    (room / "files/folder").mkdir(parents=True)
    (room / "bin").mkdir()
    for name, content in FILES.items():
        (room / "files" / name).write_bytes(content.encode())
    for name, data in BYTES.items():
        (room / "files" / name).write_bytes(data)
    for name, content in (("program", PROGRAM), ("python3", PYTHON)):
        (room / "bin" / name).write_text(content, "utf-8")
        (room / "bin" / name).chmod(0o755)


def main() -> int:
    with tempfile.TemporaryDirectory() as name:
        room, all_cases = Path(name), cases()
        make_room(room)
        before = sorted((room / "files").rglob("*"))
        with ThreadPoolExecutor(os.cpu_count()) as pool:
            wrong = list(pool.map(lambda it: wrong_in(it[1], room, it[0]), enumerate(all_cases)))
        for case, said in zip(all_cases, wrong):
            if said:
                print(f"microsys_tool {' '.join(case.words[:6])}: {said}")
        left = sorted((room / "files").rglob("*")) != before
        if left:
            print("files are left")
        if any(wrong) or left:
            return 1
        print(f"{len(all_cases)} cases: as by Python")
    return 0


if __name__ == "__main__":
    sys.exit(main())
