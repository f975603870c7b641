"""Checks that a part asks for by the word `checked`: before a load or store that ranges do not bear, its index is tested.

The limits are those of the variable that the address is named by; where it is named by none, those of all that the thread
has of its own. A check that fails stops the thread, as a failed `assert` does; it fails in no C that has a meaning.
"""

from __future__ import annotations

from dataclasses import dataclass

from analysis import Analysis, State
from faults import Note
from lines import STOP, Line, constant
from ranges import MOST, Operation, plain
from rewriting import SCRATCH, Edits
from strides import with_strides
from words import Setting, analysed

# How many sums an address is taken apart into, and how many lines there can be between one and its use.
MOST_SUMS, FARTHEST = 4, 400


@dataclass(frozen=True)
class Limits:
    """A register, the least and the greatest value that it may have, and the line before which that is tested."""

    line: int
    register: int
    low: int
    high: int


@dataclass(frozen=True)
class Checked:
    """A program with checks, and the note on each."""

    lines: list[Line]
    notes: list[Note]


def with_checks(lines: list[Line], at: list[int], setting: Setting, is_asked: bool) -> Checked | None:
    """The program with checks before the loads and stores at these lines: those that cannot fail by what is known, and the
    others where they are asked for; and with a stop before those that are never reached. Nothing where there is none."""
    known, edits = with_strides(analysed(lines, setting)), Edits(lines)
    done: set[Limits] = set()
    notes: list[Note] = []
    for index in at:
        if known.states[index] is None and not is_after_stop(index, known):
            edits.before(index, ["jal", "x0"], STOP)
        elif known.operations[index].width and known.states[index] is not None:
            limits = limits_of(index, known, setting)
            is_known = limits is not None and is_borne(limits, known)
            if limits and limits not in done and (is_known or is_asked):
                done.add(limits)
                count = put_check(limits, edits)
                if not is_known:
                    notes.append(Note(lines[index].place, f"checked at run time by {count} instructions; where it fails the thread stops"))
    return Checked(edits.done(), notes) if edits.edits else None


def is_after_stop(index: int, known: Analysis) -> bool:
    """Whether the line before leads to the stop alone."""
    return index > 0 and known.lines[index - 1].target == STOP and known.operations[index - 1].name == "jal"


def is_borne(limits: Limits, known: Analysis) -> bool:
    """Whether the check cannot fail."""
    state = known.states[limits.line]
    if state is None:
        return True
    low, high = plain(state.registers[limits.register])
    return limits.low <= low and high <= limits.high


def put_check(limits: Limits, edits: Edits) -> int:
    """Puts the test before its line; how many instructions it takes."""
    register, scratch = f"x{limits.register}", f"x{SCRATCH}"
    count = 0
    for bound, name in ((limits.low, "bltu"), (limits.high + 1, "bgeu")):
        if bound in (0, MOST + 1):
            continue
        words = constant(SCRATCH, bound)
        for it in words:
            edits.before(limits.line, it)
        edits.before(limits.line, [name, register, scratch], STOP)
        count += len(words) + 1
    return count


def limits_of(index: int, known: Analysis, setting: Setting) -> Limits | None:
    """What is tested before a load or store: the index that its address is made of, or else the address."""
    it = known.operations[index]
    base, offset = it.rs1, it.constant
    takes_stack = any(step.rd not in (0, 2) and 2 in (step.rs1, step.rs2) and not step.width for step in known.operations)
    for sum_of in sums_at(index, base, known):
        named = (sum_of.known + offset) & MOST
        start, end = setting.bounds(named, sum_of.known, takes_stack)
        found = scaled(Limits(sum_of.line, sum_of.register, start - named, end - it.width - named), known)
        if found.low == 0 <= found.high and not is_tested(found, known):
            return found
    start, end = region_in(index, known, setting) or setting.bounds(None, None, takes_stack)
    low, high = start - offset, end - it.width - offset
    return Limits(index, base, max(low, 0), high) if 0 <= high < MOST else None


def region_in(index: int, known: Analysis, setting: Setting) -> tuple[int, int] | None:
    """The first address and the one after the last of the region that a load or store is known to keep to."""
    state = known.states[index]
    if state is None:
        return None
    access = known.access(known.operations[index], state)
    found = (it for it in setting.memory.regions if it.start <= access.low and access.high + access.width <= it.end)
    return next(((it.start, it.end) for it in found), None)


def is_tested(limits: Limits, known: Analysis) -> bool:
    """Whether the line before is such a test already."""
    before = known.lines[limits.line - 1] if limits.line else None
    return before is not None and before.target == STOP and f"x{limits.register}" in before.words


@dataclass(frozen=True)
class Sum:
    """A sum of a known word and a register, before a line."""

    line: int
    register: int
    known: int


def sums_at(index: int, register: int, known: Analysis) -> list[Sum]:
    """The sums that a register is at a line: that of its definition, and those of what it is the sum of."""
    found: list[Sum] = []
    at, total = definition(index, register, known), 0
    while at is not None and len(found) < MOST_SUMS:
        it, state = known.operations[at], known.states[at]
        if state is None:
            break
        if it.name == "addi" and it.rs1:
            register, more = it.rs1, it.constant
        elif it.name == "add" and (parts := one_known(it, state)):
            register, more = parts
        else:
            break
        total += more
        found.append(Sum(at, register, total & MOST))
        at = None if register == it.rd else definition(at, register, known)
    return found


def one_known(it: Operation, state: State) -> tuple[int, int] | None:
    """The register of a sum that is not known, and the value of the other."""
    x, y = state.registers[it.rs1], state.registers[it.rs2]
    if (x[0] == x[1]) == (y[0] == y[1]):
        return None
    return (it.rs2, x[0]) if x[0] == x[1] else (it.rs1, y[0])


def definition(index: int, register: int, known: Analysis) -> int | None:
    """The last line before a line that gives a register its value, if from there every way leads to the line, and none
    writes the register again: so a test may be there as well as here."""
    return next((at for at in range(index - 1, -1, -1) if known.operations[at].rd == register and leads_to(at, index, known)), None)


def leads_to(start: int, end: int, known: Analysis) -> bool:
    """Whether every way from a line comes to another before it comes back, and the line's register is not written again.
    Loops between them end, else no measure is found."""
    register = known.operations[start].rd
    seen: set[int] = set()
    pending = [start + 1]
    while pending:
        at = pending.pop()
        if at == end or at in seen or STOP in known.lines[at].labels:
            continue
        seen.add(at)
        it = known.operations[at]
        if it.rd == register or it.name == "ecall" and known.is_answered(at) or len(seen) > FARTHEST:
            return False
        pending += known.next_lines(at)
    return True


def scaled(limits: Limits, known: Analysis) -> Limits:
    """The limits of an index: where it is shifted before, those of what is shifted."""
    at = definition(limits.line, limits.register, known)
    it = known.operations[at] if at is not None else None
    if at is None or it is None or it.name != "slli" or not it.rs1:
        return limits
    by = it.constant
    shifted = Limits(at, it.rs1, -(-limits.low >> by), limits.high >> by)
    return scaled(shifted, known) if it.rs1 != it.rd else shifted
