"""What of a system ran over lists of events: how often each instruction and line, and how near each part came to its budget."""

from __future__ import annotations

import re
import subprocess
import sys
from collections import Counter
from dataclasses import dataclass, field
from pathlib import Path

from symbols import Part, parts_of

TCB = re.compile(r"^object (\S+) .*# at (0x[0-9a-f]+)", re.MULTILINE)
THREAD = re.compile(r"^thread (\S+) (?:\S+ ){4}(\S+) ", re.MULTILINE)
# A line of a trace in which a part ran an instruction.
RAN = re.compile(r"([0-9a-f]{8}) ([0-9a-f]{8}) (.*)")
WAIT = "wait"


class NotCovered(Exception):
    """The program has said why there is no trace; its status."""

    def __init__(self, status: int) -> None:
        super().__init__()
        self.status = status


@dataclass
class Covered:
    """A part with how often each of its instructions ran, and the most that it ran from one wait to the next."""

    part: Part
    tcb: str
    budget: int
    runs: list[int]
    longest: int = 0
    stretch: int = 0

    def step(self, pc: int, outcome: str) -> None:
        """It runs an instruction."""
        point = (pc - self.part.base) // 4
        if 0 <= point < len(self.runs):
            self.runs[point] += 1
        self.stretch += 1
        self.longest = max(self.longest, self.stretch)
        if outcome == WAIT:
            self.stretch = 0

    def missed(self) -> dict[tuple[str, int], list[int]]:
        """The points that never ran, by their files and lines."""
        missed: dict[tuple[str, int], list[int]] = {}
        for point, (it, count) in enumerate(zip(self.part.code, self.runs)):
            if not count:
                missed.setdefault((it.file, it.line), []).append(point)
        return missed

    def lines(self) -> str:
        """What is said of it."""
        ran = sum(1 for count in self.runs if count)
        head = f"{self.part.name} {ran} of {len(self.runs)} instructions, longest {self.longest} of {self.budget}\n"
        places = (f"{file}:{line} (points {' '.join(map(str, points))})" for (file, line), points in self.missed().items())
        return head + "".join(f"{self.part.name} never at {place}\n" for place in places)


@dataclass
class Coverage:
    """All parts, by their TCBs."""

    parts: dict[str, Covered] = field(default_factory=dict)

    def begin(self) -> None:
        """A run begins."""
        for it in self.parts.values():
            it.stretch = 0

    def add(self, line: str) -> None:
        """Takes a line of a trace."""
        ran = RAN.fullmatch(line)
        if ran and ran[1] in self.parts:
            self.parts[ran[1]].step(int(ran[2], 16), ran[3])

    def info(self, folder: Path) -> str:
        """The lines of the sources, as lcov has them: a line ran as often as that of its instructions which ran most often."""
        files: dict[str, Counter[int]] = {}
        for it in self.parts.values():
            lines: dict[tuple[str, int], int] = {}
            for instruction, count in zip(it.part.code, it.runs):
                place = (instruction.file, instruction.line)
                lines[place] = max(lines.get(place, 0), count)
            for (file, line), count in lines.items():
                files.setdefault(file, Counter())[line] += count
        records = []
        for file, counts in sorted(files.items()):
            data = [f"DA:{line},{counts[line]}" for line in sorted(counts)]
            hit = sum(1 for count in counts.values() if count)
            records += ["TN:", f"SF:{(folder / file).absolute()}", *data, f"LF:{len(counts)}", f"LH:{hit}", "end_of_record"]
        return "".join(f"{record}\n" for record in records)


def said(program: str, room: Path, *words: str) -> str:
    """What the program puts, in the room."""
    ran = subprocess.run([program, *words], cwd=room, stdout=subprocess.PIPE, text=True, check=False)
    if ran.returncode:
        print(ran.stdout, end="")
        raise NotCovered(ran.returncode)
    return ran.stdout


def with_budgets(text: str, budgets: list[str]) -> str:
    """The text with these budgets of its threads."""
    left = iter(budgets)
    return re.sub(r"^(thread (?:\S+ ){5})\S+ ", lambda it: f"{it[1]}{next(left)} ", text, flags=re.MULTILINE)


def covered(program: str, room: Path, name: str, text: str, events: list[Path]) -> Coverage:
    """What ran of the system of a text, over lists of events. The image is accepted; its runs need no certificates."""
    (room / name).write_text(text, "utf-8")
    said(program, room, "make", name, "covered.img")
    listed = said(program, room, "list", "covered.img")
    places = {object_name: int(at, 16) for object_name, at in TCB.findall(listed)}
    threads = THREAD.findall(listed)
    coverage = Coverage()
    for part, (tcb, budget) in zip(parts_of(text, name), threads):
        address = f"{places[tcb] & 0xFFFF_FFFF:08x}"
        coverage.parts[address] = Covered(part, address, int(budget), [0] * len(part.code))
    (room / name).write_text(with_budgets(text, [budget for _, budget in threads]), "utf-8")
    for file in events:
        coverage.begin()
        words = [program, "run", name, str(file.absolute()), "--plain", "--unverified"]
        with subprocess.Popen(words, cwd=room, stdout=subprocess.PIPE, text=True) as ran:
            assert ran.stdout
            lines = [line.rstrip("\n") for line in ran.stdout]
        if ran.returncode:
            print("\n".join(lines[-1:]))
            raise NotCovered(ran.returncode)
        for line in lines:
            coverage.add(line)
    return coverage


def put(coverage: Coverage, folder: Path, info: str | None) -> None:
    """Writes what lcov reads, if that is wanted, and puts a sum for each part."""
    if info:
        Path(info).write_text(coverage.info(folder), "utf-8")
    for it in coverage.parts.values():
        sys.stdout.write(it.lines())
