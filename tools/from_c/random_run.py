#!/usr/bin/env python3
"""Compiles random programs for this machine, by two compilers, and as threads, and compares what they put.

    tools/from_c/random_run.py CERTIFIER MICROSYS FIRST COUNT [checked]

A line for each program: `same`, `refused`, or `other bytes`, which is a mistake; at the end how many there are of each. What two
compilers of this machine compile otherwise is left out.
"""

from __future__ import annotations

import subprocess
import sys
import tempfile
from collections import Counter
from pathlib import Path

sys.dont_write_bytecode = True

from random_programs import Writer  # noqa: E402

HERE = Path(__file__).resolve().parent
SECONDS = 10
# A third page of code, and steps enough for what the programs do after a ring.
MORE_CODE = (("object data", "object third memory frame\n"), ("map space 0x4000", "map space 0x3000 third 4\n"))
EVENTS = "step 1000\nirq 3\nstep 990000\n"


def put_here(compiler: str, source: Path) -> str | None:
    """What a program puts that is compiled for this machine."""
    made = source.with_suffix("")
    command = [compiler, "-O1", "-w", "-fwrapv", f"-I{HERE / 'host'}", "-o", made, source]
    if subprocess.run(command, capture_output=True, check=False).returncode:
        return None
    try:
        return subprocess.run([made], capture_output=True, text=True, timeout=SECONDS, check=False).stdout
    except subprocess.TimeoutExpired:
        return None


def put_as_thread(source: Path, certifier: str, microsys: str, word: str) -> str | None:
    """What it puts as a thread; nothing where it is refused."""
    folder = source.parent
    text = (HERE / "programs/thread.txt").read_text().replace("NAME.c", f"{source.name} {word}".strip())
    for before, more in MORE_CODE:
        text = text.replace(before, more + before)
    (folder / "it.txt").write_text(text)
    (folder / "events").write_text(EVENTS)
    for command in (
        [sys.executable, "-B", HERE / "from_c.py", "--certifier", certifier, "it.txt", "it.text"],
        [certifier, "certify", "it.text", "it.certified"],
        [microsys, "build", "it.certified", "it.img"],
        [microsys, "run", "it.img", "events"],
    ):
        ran = subprocess.run(command, cwd=folder, capture_output=True, text=True, check=False)
        if ran.returncode:
            return None
    return "".join(f"{line.split()[3]}\n" for line in ran.stdout.split("\n") if line.split()[2:3] == ["byte"])


def verdict(seed: int, certifier: str, microsys: str, word: str) -> str:
    """What comes of a program."""
    with tempfile.TemporaryDirectory() as room:
        source = Path(room) / f"random_{seed}.c"
        source.write_text(Writer(seed).program())
        wanted = put_here("gcc", source)
        if wanted is None or wanted != put_here("clang", source):
            return "left out"
        put = put_as_thread(source, certifier, microsys, word)
        return "refused" if put is None else "same" if put == wanted else "other bytes"


def main(certifier: str, microsys: str, first: str, count: str, word: str = "") -> int:
    """Goes over the programs."""
    seen: Counter[str] = Counter()
    programs = [str(Path(it).resolve()) for it in (certifier, microsys)]
    for seed in range(int(first), int(first) + int(count)):
        found = verdict(seed, *programs, word)
        seen[found] += 1
        print(seed, found, flush=True)
    print(", ".join(f"{count} {name}" for name, count in sorted(seen.items())))
    return bool(seen["other bytes"])


if __name__ == "__main__":
    if len(sys.argv) not in (5, 6):
        sys.exit(__doc__)
    sys.exit(main(*sys.argv[1:]))
