"""Turns of loops that are counted at run time, where the rules do not see that a loop ends.

`AT_MOST(n)` leaves `lui x0 n` in its loop. In its place comes a counter in a register that the loop does not use: it is set
where the loop is entered, is one less in each turn, and at 0 the thread waits for ever, as a failed `assert` does. The same
is done, without a word of the maker, where the number of turns is found: by running what each turn does on ranges until no
further turn is possible. Such a counter never comes to 0.
"""

from __future__ import annotations

from dataclasses import dataclass

from analysis import Analysis, Cell, State
from faults import Fault, Note
from lines import STOP, Line, constant
from loops import WAITS, Loop, has_wait, loops
from ranges import ANSWERS, ANY, BRANCHES, MOST, STORES, operation, plain, shown
from rewriting import SCRATCH, free_registers, live_before

# How many turns of a loop are run to find that there is no further one.
MOST_TURNS = 4096


def mark_of(line: Line) -> int | None:
    """How many turns an `AT_MOST` says that left this line."""
    it = operation(line.words)
    return it.constant >> 12 if it.name == "lui" and it.rd == 0 else None


class NoRegister(Fault):
    """There is no register for a counter."""


def with_turns(lines: list[Line], given: set[int]) -> tuple[list[Line], list[Note]]:
    """The program with a counter for each `AT_MOST`, and a note on each. `given` are registers with values of their own."""
    notes: list[Note] = []
    while (mark := next((index for index, it in enumerate(lines) if mark_of(it) is not None), None)) is not None:
        lines = counted(lines, mark, given, notes)
    return lines, notes


def counted(lines: list[Line], mark: int, given: set[int], notes: list[Note]) -> list[Line]:
    """The program with a counter in the place of a mark, or without the mark, where gcc has put it before its loop, too."""
    turns, place = mark_of(lines[mark]) or 0, lines[mark].place
    loop = next((it for it in loops(lines) if mark in it.body), None)
    if loop is None or has_wait(lines, loop):
        again = any(it.place == place and mark_of(it) == turns for it in lines[mark + 1 :])
        if again:
            return replaced(lines, mark, [])
        raise Fault(place, f"AT_MOST({turns}) is in no loop without a wait: it is the first statement of a loop's body")
    counter = unused_in(loop, lines, given)
    if counter is None:
        raise NoRegister(place, f"AT_MOST({turns}) needs a register, and the loop uses all: put some of it into another part")
    own = f"x{counter}"
    note = Note(place, f"{turns} turns at most, counted by 2 instructions a turn; one more stops the thread")
    if note not in notes:
        notes.append(note)
    test = test_of(counter)
    body = frozenset(moved(it, mark, len(test) - 1) for it in loop.body) | set(range(mark, mark + len(test)))
    return entered(replaced(lines, mark, test), moved(loop.head, mark, len(test) - 1), body, constant(counter, turns))


def unused_in(loop: Loop, lines: list[Line], given: set[int]) -> int | None:
    """A register that a loop does not name, and whose value nothing needs that comes after it."""
    within = [lines[it] for it in loop.body]
    live = live_before(lines)[loop.head]
    return next((it for it in free_registers(within, given) if it != SCRATCH and not live >> it & 1), None)


def moved(index: int, at: int, more: int) -> int:
    """The number of a line after one has become so many more."""
    return index + more if index > at else index


def replaced(lines: list[Line], index: int, instructions: list[tuple[list[str], str | None]]) -> list[Line]:
    """The program with instructions in the place of a line, whose labels go to the first of them, or to the next line."""
    line = lines[index]
    made = [Line(words, line.place, target) for words, target in instructions]
    rest = lines[index + 1 :]
    if made:
        made[0].labels, made[0].note = line.labels, line.note
    elif rest:
        rest[0] = Line(rest[0].words, rest[0].place, rest[0].target, line.labels + rest[0].labels, line.note + rest[0].note)
    return lines[:index] + made + rest


def entered(lines: list[Line], start: int, body: frozenset[int], first: list[list[str]]) -> list[Line]:
    """The program in which each way into a loop comes by some instructions first."""
    head = lines[start]
    begin, turn = f"enter_{len(lines)}", f"turn_{len(lines)}"
    outside = [label for label in head.labels]
    made: list[Line] = []
    for index, line in enumerate(lines):
        if index == start:
            if index - 1 in body and lines[index - 1].words[0] != "jal":
                made.append(Line(["jal", "x0"], line.place, turn))
            opening = [Line(words, line.place) for words in first]
            opening[0].labels, opening[0].note = [*outside, begin], line.note
            made += opening
            line = Line(line.words, line.place, line.target, [turn], "")
        elif line.target in outside and index in body:
            line = Line(line.words, line.place, turn, line.labels, line.note)
        if index == start and line.target in outside:
            line = Line(line.words, line.place, turn, line.labels, line.note)
        made.append(line)
    return made


def test_of(counter: int) -> list[tuple[list[str], str | None]]:
    """The instructions that count a turn in a register."""
    own = f"x{counter}"
    return [(["beq", own, "x0"], STOP), (["addi", own, own, "-1"], None)]


@dataclass(frozen=True)
class Counted:
    """A program with a counter: from which line on its lines have other numbers, and how many more there are."""

    lines: list[Line]
    head: int
    more: int

    def moved(self, index: int) -> int:
        """The number of a line now."""
        return index + self.more if index >= self.head else index


def with_found_turns(lines: list[Line], at: list[int], known: Analysis, given: set[int]) -> Counted | None:
    """The program with a counter for a loop without a measure that has one of these lines, the smallest whose turns are
    found, those first that no register counts already, or with a stop in the place of such a loop that is never entered;
    nothing where there is none."""
    found = [it for it in loops(lines) if it.body & set(at) and not may_wait(it, known) and lines[it.head].target != STOP]
    for loop in sorted(found, key=lambda it: is_counted(it, known)):
        if known.states[loop.head] is None:
            return Counted(stopped_at(loop.head, lines), loop.head, 0)
        turns, counter = turns_of(loop, known), unused_in(loop, lines, given)
        if turns is not None and counter is not None:
            made = entered(*tested_at_head(loop, lines, counter), constant(counter, turns))
            return Counted(made, loop.head, len(made) - len(lines))
    return None


def may_wait(loop: Loop, known: Analysis) -> bool:
    """Whether a loop has a call that may be one that waits, by what is known of its number."""
    for line in loop.body:
        state = known.states[line]
        if known.operations[line].name == "ecall" and state is not None:
            low, high = plain(state.registers[17])
            if any(low <= number <= high for number in WAITS):
                return True
    return False


def stopped_at(head: int, lines: list[Line]) -> list[Line]:
    """The program that waits for ever where a line would be run."""
    line = lines[head]
    return [*lines[:head], Line(["jal", "x0"], line.place, STOP, line.labels, line.note), *lines[head + 1 :]]


def tested_at_head(loop: Loop, lines: list[Line], counter: int) -> tuple[list[Line], int, frozenset[int]]:
    """The program in which a loop begins with the test of a counter, where it begins, and its lines."""
    head = lines[loop.head]
    test = [Line(words, head.place, target) for words, target in test_of(counter)]
    test[0].labels, test[0].note = head.labels, head.note
    bare = Line(head.words, head.place, head.target)
    longer = lines[: loop.head] + test + [bare] + lines[loop.head + 1 :]
    body = {it + len(test) if it >= loop.head else it for it in loop.body}
    return longer, loop.head, frozenset(body | set(range(loop.head, loop.head + len(test))))


def is_counted(loop: Loop, known: Analysis) -> bool:
    """Whether a register with a small range goes one way in each turn."""
    for line in loop.each_turn:
        it, state = known.operations[line], known.states[line]
        if it.name == "addi" and it.rd == it.rs1 and it.constant and state is not None:
            low, high = state.registers[it.rd]
            others = [known.operations[other] for other in loop.body if writes(known, other, it.rd)]
            one_way = all(o.name == "addi" and o.rs1 == o.rd and (o.constant < 0) == (it.constant < 0) for o in others)
            if one_way and 0 <= low + it.constant and high + it.constant <= MOST and high - low < 1 << 24:
                return True
    return False


def writes(known: Analysis, line: int, register: int) -> bool:
    """Whether a line may write a register."""
    return known.operations[line].rd == register or register in ANSWERS and known.is_answered(line)


def turns_of(loop: Loop, known: Analysis) -> int | None:
    """How many turns a loop makes at most, if that is found."""
    found = turns_and_end(loop, known)
    return found[0] if found else None


def turns_and_end(loop: Loop, known: Analysis) -> tuple[int, int] | None:
    """The same, and the branch that ends the last of so many."""
    state = entry_of(loop, known)
    if state is None:
        return None
    others = [it for it in loop.body if it not in loop.each_turn]
    lost = {known.operations[it].rd for it in others} - {0}
    if any(known.is_answered(it) for it in loop.body):
        lost |= set(ANSWERS)
    lost = {it for it in lost if not is_intact(it, loop, known)}
    words = {cell for line in others for cell in stored_at(line, known)}
    for turn in range(1, MOST_TURNS):
        before = list(state.registers), dict(state.cells)
        end = end_of_turn(loop, known, state, lost, words)
        if end is not None:
            return turn, end
        if (state.registers, state.cells) == before:
            return None
    return None


def entry_of(loop: Loop, known: Analysis) -> State | None:
    """What is known where a loop is entered."""
    found: State | None = None
    for head in sorted(known.heads):
        if head < len(known.lines) and known.states[head] is not None:
            for target, state in known.block_ways(head):
                if target == loop.head and known.end_of(head) not in loop.body:
                    found = found.joined(state) if found else state.copy()
    return found


def is_intact(register: int, loop: Loop, known: Analysis) -> bool:
    """Whether a register holds again what it held, wherever lines that are not run in each turn lead from one that is to the next:
    a function that is called keeps it elsewhere and puts it back."""
    held: dict[int, frozenset[int | Cell]] = {}
    pending = list(loop.each_turn)
    while pending:
        line = pending.pop()
        own = {register} if line in loop.each_turn else set[int | Cell]()
        after = holders_after(line, frozenset(own) or held[line], known) | own
        for following in known.next_lines(line):
            new = after & held.get(following, after)
            if following in loop.body and held.get(following) != new:
                held[following] = new
                pending += [] if following in loop.each_turn else [following]
    return all(register in held.get(it, {register}) for it in loop.each_turn)


def holders_after(line: int, held: frozenset[int | Cell], known: Analysis) -> frozenset[int | Cell]:
    """The registers and words that hold a value after a line, of those that hold it before."""
    it, state = known.operations[line], known.states[line]
    access = known.access(it, state) if it.width and state is not None else None
    cell = access.cell if access and access.cell in known.cells and it.width == 4 else None
    if it.name in STORES:
        kept = held - set(stored_at(line, known))
        return kept | {cell} if cell and it.rs2 in held else kept
    if it.name == "ecall":
        return held - set(ANSWERS) if known.is_answered(line) else held
    source = it.rs1 if it.name == "addi" and it.constant == 0 else cell
    return held | {it.rd} if it.rd and source in held else held - {it.rd}


def stored_at(line: int, known: Analysis) -> list[Cell]:
    """The words that a line may store."""
    it, state = known.operations[line], known.states[line]
    return known.touched(known.access(it, state)) if it.name in STORES and state is not None else []


def end_of_turn(loop: Loop, known: Analysis, state: State, lost: set[int], words: set[Cell]) -> int | None:
    """Runs what is run in each turn; the branch that ends the loop there, or nothing where there can be a further turn. Where
    one line of it does not lead to the next alone, others may be run between them, which write the registers that are `lost`,
    and these words."""
    before = loop.end
    for line in loop.each_turn:
        if [it for it in known.next_lines(before) if it in loop.body] != [line]:
            forget(state, lost, words)
            state.keep_to(known.states[line] or state, set(), set())
        it, before = known.operations[line], line
        if it.name in BRANCHES:
            stays = [taken for taken, target in known.targets_of(line) if target in loop.body]
            if len(stays) == 1:
                seen = shown(it.name, stays[0], state.registers[it.rs1], state.registers[it.rs2])
                if seen is None:
                    return line
                state.narrow(it.rs1, seen[0])
                state.narrow(it.rs2, seen[1])
        elif it.name == "ecall" and known.is_answered(line):
            forget(state, set(ANSWERS), set())
        elif it.name not in ("jal", "ecall"):
            known.step(it, state)
    return None


def forget(state: State, registers: set[int], words: set[Cell]) -> None:
    """Forgets what some registers and words hold."""
    for register in registers:
        state.put(register, ANY)
    state.cells.update(dict.fromkeys(words, ANY))
    state.copies = {register: cell for register, cell in state.copies.items() if cell not in words}
