"""Words of the stack and of variables whose value is known, made visible to the rules, which know nothing of memory.

A load of a word with one value becomes the value. A word that is reached at single addresses alone goes into a register
that nothing uses, those of inner loops first. The range of another is kept after its load by branches that are never taken.
"""

from __future__ import annotations

from dataclasses import dataclass

from analysis import Analysis, Cell, Memory
from lines import STOP, Line, constant
from ranges import ANSWERS, BRANCHES, LOADS, MOST, STORES, loaded, operation
from rewriting import SCRATCH, Edits, depths, free_registers, live_after


@dataclass(frozen=True)
class Setting:
    """What a program runs in: its own memory, the end of its stack, the registers that lines `reg` give values, the slot
    that a failed check waits for; and which bytes each address belongs to that variables, or those of the stack, are
    named by."""

    memory: Memory
    stack: int
    registers: dict[int, int]
    bell: int | None
    owners: dict[int, set[tuple[int, int]]]
    frames: dict[int, set[tuple[int, int]]]

    def bounds(self, named: int | None, base: int | None, takes_stack: bool) -> tuple[int, int]:
        """The first address, and the one after the last, of the variables that an address and its base are named by; else
        of the region that it lies in; else of all that a pointer can lead to."""
        regions = [it for it in self.memory.regions if it.content]
        if named is not None and base is not None:
            found = self.frames.get(named) or self.owners.get(named, set()) | self.owners.get(base, set())
            if found:
                return min(start for start, _ in found), max(end for _, end in found)
        elif not takes_stack:
            regions = regions[:1]
        return min((it.start for it in regions), default=0), max((it.end for it in regions), default=0)


def analysed(lines: list[Line], setting: Setting) -> Analysis:
    """What is known of a program in its setting."""
    return Analysis(lines, setting.memory, setting.stack, setting.registers)


def with_known_words(lines: list[Line], setting: Setting) -> list[Line]:
    """The program with constants and registers in the place of loads and stores."""
    lines = with_constants(lines, setting)
    lines, promoted = with_registers(lines, setting)
    return tidied(lines, promoted)


def with_constants(lines: list[Line], setting: Setting) -> list[Line]:
    """The program in which a load of a word with one value gives the value."""
    known, edits = analysed(lines, setting), Edits(lines)
    for index, access in known.accesses():
        it = known.operations[index]
        if not access.is_store and access.cell and it.rd and access.value[0] == access.value[1]:
            edits.replace(index, constant(it.rd, access.value[0]))
    return edits.done()


def with_registers(lines: list[Line], setting: Setting) -> tuple[list[Line], set[int]]:
    """The program in which words are kept in registers that it does not use, and these registers. One register is left
    for other passes."""
    known, edits = analysed(lines, setting), Edits(lines)
    free = [it for it in free_registers(lines, set(setting.registers)) if it != SCRATCH]
    chosen = dict(zip(candidates(known), free))
    for index, access in known.accesses():
        cell = access.cell
        if cell in chosen:
            it = known.operations[index]
            own = f"x{chosen[cell]}"
            edits.replace(index, [["addi", own, f"x{it.rs2}", "0"] if access.is_store else ["addi", f"x{it.rd}", own, "0"]])
    made = edits.done()
    first = [words for cell, it in chosen.items() if known.first(cell) != (0, 0) for words in constant(it, known.first(cell)[0])]
    return begun_with(made, first), set(chosen.values())


def begun_with(lines: list[Line], first: list[list[str]]) -> list[Line]:
    """The program after some instructions that are run once. The first line's first label is where the thread starts."""
    if not first:
        return lines
    head = lines[0]
    before = [Line(words, head.place) for words in first]
    before[0].labels, head.labels = head.labels[:1], head.labels[1:]
    return before + lines


def candidates(known: Analysis) -> list[Cell]:
    """The words that every load and store reaches by single addresses, and that are both loaded and stored: those that
    inner loops use come first."""
    depth, uses = depths(known.lines), dict.fromkeys((it for it in known.cells if it[1] == 4 and it[0] % 4 == 0), 0)
    loads: set[Cell] = set()
    for index, access in known.accesses():
        for cell in known.touched(access):
            if access.cell == cell and cell in uses:
                uses[cell] += 10 ** min(depth[index], 4)
                loads |= set() if access.is_store else {cell}
            else:
                uses.pop(cell, None)
    return sorted((it for it in uses if it in loads), key=lambda it: -uses[it])


def with_guards(lines: list[Line], setting: Setting) -> list[Line]:
    """The program in which the range of a loaded word is kept by branches that are never taken."""
    known, edits = analysed(lines, setting), Edits(lines)
    for index, access in known.accesses():
        it = known.operations[index]
        known_at_least, (low, high) = loaded(it.name), access.value
        if access.is_store or not it.rd or (low, high) == known_at_least or low == high or low < 0:
            continue
        if low > max(known_at_least[0], 0):
            keep(edits, index, "bltu", it.rd, low)
        if high < known_at_least[1] or known_at_least[0] < 0:
            keep(edits, index, "bgeu", it.rd, high + 1)
    return edits.done()


def keep(edits: Edits, index: int, name: str, register: int, bound: int) -> None:
    """Adds a branch after a line that is taken where a register is on the wrong side of a bound."""
    for words in constant(SCRATCH, bound):
        edits.after(index, words)
    edits.after(index, [name, f"x{register}", f"x{SCRATCH}"], STOP)


def tidied(lines: list[Line], promoted: set[int]) -> list[Line]:
    """The program in which copies of these registers are passed on, and a sum that goes back to one of them is made
    there. A counter is seen as one only so."""
    if not promoted:
        return lines
    made = passed_on(lines, promoted)
    return without_idle(made)


def passed_on(lines: list[Line], promoted: set[int]) -> list[Line]:
    """Uses of a register that holds a copy of a promoted one become uses of that one, along straight lines."""
    made, copies = list(lines), dict[int, int]()
    for index, line in enumerate(made):
        if line.labels:
            copies = {}
        it = operation(line.words)
        following = made[index + 1] if index + 1 < len(made) and not made[index + 1].labels else None
        owner = copies.get(it.rs1)
        if it.name == "addi" and it.rd == it.rs1 and owner and following:
            if following.words == ["addi", f"x{owner}", f"x{it.rd}", "0"]:
                line = changed(line, ["addi", f"x{owner}", f"x{owner}", str(it.constant)])
                made[index + 1] = changed(following, ["addi", f"x{it.rd}", f"x{owner}", "0"])
                it = operation(line.words)
        line = made[index] = changed(line, with_sources(line.words, copies))
        it = operation(line.words)
        forget(copies, it.name, it.rd)
        if it.name == "addi" and it.constant == 0 and it.rd:
            if it.rs1 in promoted and it.rd not in promoted:
                copies[it.rd] = it.rs1
            elif it.rd in promoted and it.rs1 and it.rs1 not in promoted:
                copies[it.rs1] = it.rd
        if it.name == "jal":
            copies = {}
    return made


def forget(copies: dict[int, int], name: str, written: int) -> None:
    """Forgets the copies that an instruction ends."""
    gone = set(ANSWERS) if name == "ecall" else {written}
    for register in [it for it, owner in copies.items() if it in gone or owner in gone]:
        del copies[register]


def with_sources(words: list[str], copies: dict[int, int]) -> list[str]:
    """The instruction, reading promoted registers where it reads copies of them."""
    it, made = operation(words), list(words)

    def named(register: int) -> str:
        return f"x{copies.get(register, register)}"

    if it.name in BRANCHES:
        made[1:3] = [named(it.rs1), named(it.rs2)]
    elif it.name in STORES:
        made[1:3] = [named(it.rs2), f"{it.constant}({named(it.rs1)})"]
    elif it.name in LOADS:
        made[2] = f"{it.constant}({named(it.rs1)})"
    elif it.rs1 and len(words) == 4:
        made[2] = named(it.rs1)
        if it.rs2:
            made[3] = named(it.rs2)
    return made


def changed(line: Line, words: list[str]) -> Line:
    """The line with other words."""
    return Line(words, line.place, line.target, line.labels, line.note)


def without_idle(lines: list[Line]) -> list[Line]:
    """The program without sums and copies into registers that nothing reads before they are written again."""
    while True:
        alive = live_after(lines)
        idle = {index for index, it in enumerate(lines) if is_idle(it, alive[index])}
        if not idle:
            return lines
        kept: list[Line] = []
        for index, line in enumerate(lines):
            if index in idle and index + 1 < len(lines):
                following = lines[index + 1]
                following.labels, following.note = line.labels + following.labels, line.note + following.note
            else:
                kept.append(line)
        lines = kept


def is_idle(line: Line, alive: int) -> bool:
    """Whether a line is a copy or a sum by a constant that nothing needs."""
    it = operation(line.words)
    return it.name == "addi" and it.rd != 2 and (it.rd == 0 or it.rd == it.rs1 and it.constant == 0 or not alive >> it.rd & 1)
