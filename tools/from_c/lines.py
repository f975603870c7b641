"""A program's lines: instructions in the text form, whose branches and jumps lead to labels."""

from __future__ import annotations

from collections.abc import Callable
from dataclasses import dataclass, field

from faults import Place

# How many instructions a branch may lead over: it reaches 4 KiB, and a turned one is one longer.
REACH = 1000
INVERSE = {"beq": "bne", "bne": "beq", "blt": "bge", "bge": "blt", "bltu": "bgeu", "bgeu": "bltu"}
# The label of the wait for ever that a failed check leads to.
STOP = "stopped"
# What is noted before the waits for ever: of a failed check before its first instruction, of a failed `assert` before its call.
CHECK_FAILED = "# A check that fails waits here for ever."
ASSERT_FAILED = "# An assert that fails waits here for ever."


@dataclass
class Line:
    """An instruction of the program; a branch or jump leads to a label. `origin` is the number of the line that it was made of as
    branches were put within reach."""

    words: list[str]
    place: Place | None
    target: str | None = None
    labels: list[str] = field(default_factory=list)
    note: str = ""
    origin: int | None = None

    def text(self) -> str:
        """The lines of the text form, with the place in the source as a comment."""
        head = "".join(f"{label}:\n" for label in self.labels)
        words = " ".join(self.words + ([self.target] if self.target else []))
        return f"{self.note}{head}{words}  # {self.place}"


def constant(register: int, value: int) -> list[list[str]]:
    """The instructions that give a register a value."""
    value &= 0xFFFF_FFFF
    low = (value & 0xFFF) - (0x1000 if value & 0x800 else 0)
    high = (value - low) >> 12 & 0xFFFFF
    if high == 0:
        return [["addi", f"x{register}", "x0", str(low)]]
    upper = ["lui", f"x{register}", hex(high)]
    return [upper, ["addi", f"x{register}", f"x{register}", str(low)]] if low else [upper]


def without(lines: list[Line], idle: Callable[[Line, Line], bool]) -> list[Line]:
    """The lines but for those that `idle` names, given the line after them. Labels and notes of these go to that
    line."""
    kept: list[Line] = []
    for line, following in zip(lines, lines[1:]):
        if idle(line, following):
            following.labels, following.note = line.labels + following.labels, line.note + following.note
        else:
            kept.append(line)
    return kept + lines[-1:]


def with_stop(lines: list[Line], bell: int | None) -> list[Line]:
    """The program, with the wait for ever at its end if a line leads there and none is there yet."""
    wanted = any(it.target == STOP for it in lines)
    if not wanted or any(STOP in it.labels for it in lines):
        return lines
    place = lines[-1].place
    wait = [["addi", "x17", "x0", "5"], *constant(10, bell or 0), ["ecall"]]
    made = [Line(words, place) for words in wait] + [Line(["jal", "x0"], place, STOP)]
    made[0].labels = [STOP]
    made[0].note = f"{CHECK_FAILED}\n"
    return lines + made


def within_reach(lines: list[Line]) -> list[Line]:
    """The same program, where a branch that leads too far is turned, and leads over a jump."""
    turns = 0
    while far := far_branches(lines):
        turned: list[Line] = []
        for index, line in enumerate(lines):
            if index not in far:
                turned.append(line)
                continue
            turns += 1
            over = f"over_{turns}"
            inverse = [INVERSE[line.words[0]], *line.words[1:]]
            turned.append(Line(inverse, line.place, over, line.labels, line.note, line.origin))
            turned.append(Line(["jal", "x0"], line.place, line.target, origin=line.origin))
            lines[index + 1].labels.append(over)
        lines = turned
    return lines


def far_branches(lines: list[Line]) -> set[int]:
    """The numbers of the lines that branch too far."""
    places = {label: index for index, line in enumerate(lines) for label in line.labels}
    branches = [(index, line.target) for index, line in enumerate(lines) if line.words[0] in INVERSE and line.target]
    return {index for index, target in branches if abs(places[target] - index) > REACH}
