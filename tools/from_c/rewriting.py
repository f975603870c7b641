"""Programs rewritten line by line: free registers, edits, and the loops that lines lie in."""

from __future__ import annotations

from dataclasses import dataclass, field, replace

from lines import Line
from ranges import ANSWERS, operation

# Registers that gcc does not use, and the one of return addresses, which it uses for other values where it runs out of
# registers. The first is for limits that are used at once.
OWN = (3, 4, 1)
SCRATCH = OWN[0]


def free_registers(lines: list[Line], given: set[int]) -> list[int]:
    """The registers that no line names, that no call writes, and that no line `reg` gives a value; OWN ones first."""
    named = {0, 2, 17, *ANSWERS, *given}
    for line in lines:
        it = operation(line.words)
        named |= {it.rd, it.rs1, it.rs2}
    return [*(it for it in OWN if it not in named), *(it for it in range(31, 4, -1) if it not in named)]


@dataclass
class Edit:
    """What comes before a line, in its place, and after it."""

    before: list[Line] = field(default_factory=list)
    words: list[str] | None = None
    after: list[Line] = field(default_factory=list)


class Edits:
    """Edits of a program's lines, by their numbers."""

    def __init__(self, lines: list[Line]) -> None:
        self.lines = lines
        self.edits: dict[int, Edit] = {}

    def at(self, index: int) -> Edit:
        """The edit of a line."""
        return self.edits.setdefault(index, Edit())

    def before(self, index: int, words: list[str], target: str | None = None) -> None:
        """Adds an instruction before a line, behind what was added before."""
        self.at(index).before.append(Line(words, self.lines[index].place, target))

    def after(self, index: int, words: list[str], target: str | None = None) -> None:
        """Adds an instruction after a line."""
        self.at(index).after.append(Line(words, self.lines[index].place, target))

    def replace(self, index: int, instructions: list[list[str]]) -> None:
        """Puts instructions in the place of a line."""
        self.at(index).words = instructions[0]
        for words in instructions[1:]:
            self.after(index, words)

    def done(self) -> list[Line]:
        """The program with all edits."""
        made: list[Line] = []
        for index, line in enumerate(self.lines):
            edit = self.edits.get(index, Edit())
            own = replace(line, words=edit.words or line.words, labels=list(line.labels))
            run = [*edit.before, own, *edit.after]
            if run[0] is not own:
                run[0].labels, own.labels = own.labels, []
                run[0].note, own.note = own.note, ""
            made += run
        return made


def depths(lines: list[Line]) -> list[int]:
    """In how many loops each line lies, as far as jumps backwards tell."""
    places = {label: index for index, it in enumerate(lines) for label in it.labels}
    ends: dict[int, int] = {}
    for index, it in enumerate(lines):
        if it.target in places and places[it.target] <= index:
            ends[places[it.target]] = index
    depth = [0] * (len(lines) + 1)
    for head, end in ends.items():
        depth[head] += 1
        depth[end + 1] -= 1
    for index in range(1, len(depth)):
        depth[index] += depth[index - 1]
    return depth


def live_before(lines: list[Line]) -> list[int]:
    """Before each line, the registers that are read before they are written, as bits."""
    places = {label: index for index, it in enumerate(lines) for label in it.labels}
    call = sum(1 << it for it in (*ANSWERS, 17))
    before = [0] * (len(lines) + 1)
    again = True
    while again:
        again = False
        for index in range(len(lines) - 1, -1, -1):
            it = operation(lines[index].words)
            read = call if it.name == "ecall" else sum({1 << register for register in it.reads})
            new = out_of(lines, index, before, places) & ~(1 << it.rd) | read
            if new != before[index]:
                before[index], again = new, True
    return before


def live_after(lines: list[Line]) -> list[int]:
    """After each line, the registers that are read before they are written, as bits."""
    places = {label: index for index, it in enumerate(lines) for label in it.labels}
    before = live_before(lines)
    return [out_of(lines, index, before, places) for index in range(len(lines))]


def out_of(lines: list[Line], index: int, before: list[int], places: dict[str, int]) -> int:
    """What is live after a line, of what is live before the others."""
    line = lines[index]
    out = 0 if line.words[0] == "jal" else before[index + 1]
    return out | (before[places[line.target]] if line.target in places else 0)
