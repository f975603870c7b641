"""The cases of a folder: a system over many lists of events, each with what is expected of it."""

from __future__ import annotations

import subprocess
import sys
import tempfile
from collections.abc import Callable
from dataclasses import dataclass
from fnmatch import fnmatchcase
from pathlib import Path

from failed import Failed

# The endings of lists of events, and of what is expected, in the order in which these are looked for.
EVENTS = ".events"
EXPECTED = (".trace", ".bytes")
ONLY = "--only"
REFUSED = 1


@dataclass(frozen=True)
class Request:
    """A system and a folder of cases: those whose names match a pattern, or have it in them."""

    system: str
    folder: Path
    only: str | None

    def has(self, name: str) -> bool:
        """Whether a case is asked for."""
        if self.only is None:
            return True
        return fnmatchcase(name, self.only) if set(self.only) & set("*?[") else self.only in name

    def names(self) -> list[str]:
        """The names of the cases that are asked for, in order."""
        lists = self.folder.glob(f"*{EVENTS}")
        return sorted(name for it in lists if it.is_file() and self.has(name := it.name.removesuffix(EVENTS)))


def request_of(words: list[str]) -> Request | None:
    """The request of the words after `test`, if the second one is a folder."""
    plain, only, rest = [], None, iter(words)
    for word in rest:
        if word == ONLY:
            only = next(rest, None)
        elif word.startswith(f"{ONLY}="):
            only = word.partition("=")[2]
        else:
            plain.append(word)
    if len(plain) == 2 and Path(plain[1]).is_dir():
        return Request(plain[0], Path(plain[1]), only)
    return None


def certified(program: str, text: str, room: Path) -> str:
    """The text with certificates, which are not looked for in each case then; the text as it is where none are found."""
    made = room / "certified.text"
    done = subprocess.run([program, "certify", text, str(made)], capture_output=True, check=False)
    return str(made) if done.returncode == 0 else text


def outcome_of(program: str, system: str, events: Path) -> tuple[int, str]:
    """The status of a case, and what is said of it."""
    for ending in EXPECTED:
        expected = events.with_suffix(ending)
        if expected.is_file():
            words = [program, "test", system, str(events), str(expected)]
            done = subprocess.run(words, capture_output=True, text=True, errors="replace", check=False)
            return done.returncode, done.stdout + done.stderr
    wanted = " or ".join(events.with_suffix(ending).name for ending in EXPECTED)
    return REFUSED, f"nothing is expected: there is no {wanted}\n"


def put_case(number: int, name: str, status: int, said: str) -> None:
    """Puts the line of a case (Test Anything Protocol 14), and what is said of one that fails."""
    if status == 0:
        print(f"ok {number} - {name}", flush=True)
        return
    print(f"not ok {number} - {name}\n  ---\n  status: {status}\n  message: |")
    for line in said.splitlines():
        print(f"    {line}")
    print("  ...", flush=True)


def run_cases(program: str, system: str, request: Request, failing: Callable[[Path], list[Failed]] | None = None) -> int:
    """Runs the cases of a system, one line for each; status 1 if one fails or there is none. Standard error says in which one a part
    fails over its events."""
    names = request.names()
    print(f"TAP version 14\n1..{len(names)}" + ("" if names else f" # no case in {request.folder}"))
    failed = not names
    with tempfile.TemporaryDirectory(prefix="microsys.") as room:
        is_image = Path(system).is_file() and Path(system).read_bytes()[:4] == b"MSYS"
        judged = system if is_image or not names else certified(program, system, Path(room))
        for number, name in enumerate(names, 1):
            status, said = outcome_of(program, judged, request.folder / f"{name}{EVENTS}")
            put_case(number, name, status, said)
            for it in failing(request.folder / f"{name}{EVENTS}") if failing else ():
                print(f"{name}: {it}", file=sys.stderr)
            failed = failed or status != 0
    return REFUSED if failed else 0
