"""What is known of a program's registers, and of the words of its own memory, before each of its instructions.

An interval analysis of a program without calls. A word counts as known where each load and store of it is at one address
of the thread's own pages, since nothing else writes there; a store at an address that is not known forgets all that it may
touch. What is found serves the passes of this folder, which make it visible to the rules by instructions.
"""

from __future__ import annotations

from bisect import bisect_left, bisect_right
from collections.abc import Iterable, Iterator
from dataclasses import dataclass, field
from functools import reduce
from heapq import heappop, heappush

from components import components
from lines import Line
from ranges import ANSWERS, ANY, BRANCHES, HALF, IMMEDIATE, LOADS, MOST, SILENT, STORES, Operation, Range, loaded, met, normal, operation, plain, result, shown, united

# How often a point is visited before its ranges are widened, and how many rounds narrow them again at most.
VISITS, ROUNDS = 3, 8
# How many instructions are remembered by which a register was made of another.
MOST_STEPS = 4
# An address and a width: what is loaded and stored as one.
Cell = tuple[int, int]


@dataclass(frozen=True)
class Region:
    """Some bytes of the thread's own memory, from the address `start` on, as they are at first."""

    start: int
    content: bytes

    @property
    def end(self) -> int:
        """The address after the last byte."""
        return self.start + len(self.content)

    def value(self, cell: Cell) -> int:
        """What a cell holds at first."""
        at = cell[0] - self.start
        return int.from_bytes(self.content[at : at + cell[1]], "little")


@dataclass(frozen=True)
class Memory:
    """The thread's own memory: constants and variables, and the stack. What is `hidden`, as `volatile` words, is never
    known."""

    regions: tuple[Region, ...]
    hidden: tuple[tuple[int, int], ...] = ()

    def region_of(self, low: int, high: int) -> Region | None:
        """The region that has all bytes from one to another, none of them hidden."""
        if any(start <= high and low < end for start, end in self.hidden):
            return None
        return next((it for it in self.regions if it.start <= low and high < it.end), None)


# A register that another was made of, and by which instructions with which constants.
Origin = tuple[int, tuple[tuple[str, int], ...]]


@dataclass
class State:
    """Ranges of registers and of cells; which register holds a copy of which cell, and which was made of which other."""

    registers: list[Range]
    cells: dict[Cell, Range]
    copies: dict[int, Cell]
    origins: dict[int, Origin] = field(default_factory=dict)

    def copy(self) -> State:
        """Another state that is the same."""
        return State(list(self.registers), dict(self.cells), dict(self.copies), dict(self.origins))

    def joined(self, other: State) -> State:
        """What is known where a way comes from either."""
        registers = [a if a == b else united(a, b) for a, b in zip(self.registers, other.registers)]
        cells = {it: range if range == other.cells[it] else united(range, other.cells[it]) for it, range in self.cells.items()}
        copies = {register: cell for register, cell in self.copies.items() if other.copies.get(register) == cell}
        origins = {register: origin for register, origin in self.origins.items() if other.origins.get(register) == origin}
        return State(registers, cells, copies, origins)

    def put(self, register: int, range: Range, copied: Cell | None = None) -> None:
        """Notes what a register holds now."""
        self.copies.pop(register, None)
        self.origins.pop(register, None)
        for made in [made for made, (source, _) in self.origins.items() if source == register]:
            del self.origins[made]
        if register:
            self.registers[register] = range
            if copied:
                self.copies[register] = copied

    def narrow(self, register: int, range: Range) -> None:
        """Notes what has been shown of a register, and so of the word that it is a copy of."""
        if register:
            self.registers[register] = range
            cell = self.copies.get(register)
            if cell:
                self.cells[cell] = range
                for other, copied in self.copies.items():
                    if copied == cell:
                        self.registers[other] = range
            for made, (source, steps) in list(self.origins.items()):
                if source == register:
                    self.narrow_more(made, after_steps(steps, range))
            if register in self.origins:
                source, steps = self.origins[register]
                self.narrow_more(source, before_steps(steps, range))

    def narrow_more(self, register: int, range: Range | None) -> None:
        """Notes what follows for a register, if that is more than is known of it."""
        found = met(self.registers[register], range) if range else None
        if found and size_of(found) < size_of(self.registers[register]):
            self.narrow(register, found)

    def keep_to(self, other: State, registers: set[int], cells: set[Cell]) -> None:
        """Narrows all but these registers and cells to what they are in another state."""
        for register, (known, more) in enumerate(zip(self.registers, other.registers)):
            if known != more and register not in registers:
                self.registers[register] = met(known, more) or known
        for cell, known in self.cells.items():
            if known != other.cells[cell] and cell not in cells:
                self.cells[cell] = met(known, other.cells[cell]) or known

    def made_of(self, register: int, name: str, source: int, constant: int, origin: Origin | None) -> None:
        """Notes that a register has been made of another, or of itself, by an instruction with a constant. `origin` is what the
        other was made of before."""
        first, steps = origin or (source, ()) if source == register else (source, ())
        if register and first and first != register and len(steps) < MOST_STEPS:
            self.origins[register] = first, (*steps, (name, constant))


@dataclass
class Access:
    """A load or store of a program: the least and the greatest address, the width, and the range of the value."""

    low: int
    high: int
    width: int
    is_store: bool
    value: Range

    @property
    def cell(self) -> Cell | None:
        """The cell, where the address is single."""
        return (self.low, self.width) if self.low == self.high else None

    def touches(self, cell: Cell) -> bool:
        """Whether it may load or store a byte of the cell."""
        return self.low < cell[0] + cell[1] and cell[0] < self.high + self.width


@dataclass
class Analysis:
    """A program, where it starts, and what is found of it: the state before each line that can be reached."""

    lines: list[Line]
    memory: Memory
    stack: int
    registers: dict[int, int] = field(default_factory=dict)
    operations: list[Operation] = field(init=False)
    places: dict[str, int] = field(init=False)
    states: list[State | None] = field(init=False)
    cells: list[Cell] = field(default_factory=list)
    # The ranges that registers keep to before some lines, as is known otherwise.
    limits: dict[int, dict[int, Range]] = field(default_factory=dict)

    def __post_init__(self) -> None:
        self.operations = [operation(it.words) for it in self.lines]
        self.places = {label: index for index, it in enumerate(self.lines) for label in it.labels}
        self.thresholds = self.bounds()
        self.heads = self.block_heads()
        order = sorted(self.heads | {len(self.lines)})
        self.ends = {head: following - 1 for head, following in zip(order, order[1:])}
        self.leads = {head: self.next_lines(end) for head, end in self.ends.items()}
        self.cycles = components(self.leads)
        self.found: set[Cell] = set()
        while True:
            self.run()
            if self.found <= set(self.cells):
                break
            self.cells = sorted({*self.cells, *self.found})

    def bounds(self) -> list[int]:
        """The values at which a widened range may end: the program's constants and those beside them."""
        found = {0, 1, 0xFF, 0xFFFF, HALF - 1, HALF, MOST}
        for it in self.operations:
            if it.name in IMMEDIATE and it.rs1 == 0:
                found |= {(it.constant + beside) & MOST for beside in (-1, 0, 1)}
            elif it.name in ("andi", "sltiu", "slti"):
                found |= {(it.constant + beside) & MOST for beside in (-1, 0, 1)}
            elif it.name == "lui":
                found |= {(it.constant + beside) & MOST for beside in (-1, 0, 1)}
        return sorted(found | {it - (1 << 32) for it in found if it >= HALF})

    def block_heads(self) -> set[int]:
        """The lines at which ways meet: targets, and what comes after a branch."""
        heads = {0} | {self.places[it.target] for it in self.lines if it.target}
        return heads | {index + 1 for index, it in enumerate(self.operations) if it.name in BRANCHES or it.name == "jal"}

    def start(self) -> State:
        """The state before the first line."""
        registers = [(0, 0)] * 32
        for number, value in {2: self.stack, **self.registers}.items():
            registers[number] = value, value
        return State(registers, {it: self.first(it) for it in self.cells}, {})

    def first(self, cell: Cell) -> Range:
        """What a cell holds at first."""
        region = self.memory.region_of(cell[0], cell[0] + cell[1] - 1)
        value = region.value(cell) if region else 0
        return value, value

    def run(self) -> None:
        """Finds the states: widening until nothing changes, and then narrowing for some rounds."""
        self.states = [None] * len(self.lines)
        self.states[0] = self.start()
        visits = [0] * len(self.lines)
        pending, waiting = [0], {0}
        while pending:
            head = heappop(pending)
            waiting.discard(head)
            for target, state in self.block_ways(head):
                if self.merge(target, state, visits) and target not in waiting:
                    waiting.add(target)
                    heappush(pending, target)
        for _ in range(ROUNDS):
            if not self.narrow_all():
                break
        self.fill()

    def merge(self, target: int, state: State, visits: list[int]) -> bool:
        """Joins a way into the state at its end; whether that has changed."""
        old = self.states[target]
        if old is None:
            self.states[target] = self.limited(target, state.copy())
            return True
        new = self.limited(target, old.joined(state))
        if new == old:
            return False
        visits[target] += 1
        if visits[target] > VISITS:
            new.registers = [self.widened(a, b) for a, b in zip(old.registers, new.registers)]
            new.cells = {it: self.widened(old.cells[it], range) for it, range in new.cells.items()}
        self.states[target] = self.limited(target, new)
        return True

    def limited(self, line: int, state: State) -> State:
        """The state before a line, within its limits."""
        for register, limits in self.limits.get(line, {}).items():
            state.registers[register] = met(state.registers[register], limits) or limits
        return state

    def widened(self, old: Range, new: Range) -> Range:
        """The new range, whose ends that have moved are moved to the next thresholds."""
        low, high = new
        if low < old[0]:
            low = self.thresholds[max(bisect_right(self.thresholds, low) - 1, 0)]
        if high > old[1]:
            high = self.thresholds[bisect_left(self.thresholds, high)]
        return normal(low, high)

    def narrow_all(self) -> bool:
        """Reckons each state anew from those before it, once, in the order of the lines; whether one has changed."""
        before: dict[int, list[int]] = {head: [] for head in self.heads}
        for head, targets in self.leads.items():
            for target in targets:
                before[target].append(head)
        old = [it and it.copy() for it in self.states]
        self.narrow_cycles()
        for head in sorted(self.leads):
            if self.states[head] is not None:
                fresh = self.joined([self.start()] if head == 0 else [], before[head], head)
                self.states[head] = self.limited(head, fresh) if fresh else None
        return old != self.states

    def joined(self, states: list[State], heads: Iterable[int], target: int) -> State | None:
        """What is known where a way comes from one of some blocks to a line, or with one of some states."""
        found = [*states, *(it for head in heads if self.states[head] is not None for to, it in self.block_ways(head) if to == target)]
        return reduce(State.joined, found[1:], found[0].copy()) if found else None

    def narrow_cycles(self) -> None:
        """In a cycle whose lines do not write a register, it has what it has where the cycle is entered; so has a cell."""
        written = {head: self.written_in(head) for head in self.leads if self.states[head] is not None}
        for cycle in self.cycles:
            entries = {(head, to) for head, targets in self.leads.items() if head not in cycle for to in targets if to in cycle}
            known = [it for head, to in entries if (it := self.joined([], [head], to))]
            if 0 in cycle or not known:
                continue
            entered, reached = reduce(State.joined, known), [head for head in cycle if head in written]
            registers = set[int]().union(*(written[head][0] for head in reached))
            cells = set[Cell]().union(*(written[head][1] for head in reached))
            for head in reached:
                state = self.states[head]
                if state is not None:
                    state.keep_to(entered, registers, cells)

    def written_in(self, head: int) -> tuple[set[int], set[Cell]]:
        """The registers and cells that lines of a block may write."""
        registers: set[int] = set()
        cells: set[Cell] = set()
        for index, state in self.along(head):
            it = self.operations[index]
            if it.name in STORES:
                cells |= set(self.touched(self.access(it, state)))
            elif it.name != "ecall":
                registers.add(it.rd)
            elif not is_silent(state):
                registers |= set(ANSWERS)
        return registers, cells

    def fill(self) -> None:
        """The states within blocks."""
        for head in sorted(self.heads):
            if head < len(self.lines) and self.states[head] is not None:
                for index, state in self.along(head):
                    self.states[index] = state.copy()

    def along(self, head: int) -> Iterator[tuple[int, State]]:
        """The lines of the block at a head, each with the state before it."""
        first = self.states[head]
        assert first is not None
        state, index = first.copy(), head
        while True:
            yield index, state
            name = self.operations[index].name
            if name in BRANCHES or name == "jal" or index + 1 == len(self.lines) or index + 1 in self.heads:
                return
            self.step(self.operations[index], state)
            index += 1

    def block_ways(self, head: int) -> list[tuple[int, State]]:
        """Where the ways from a block lead, and what is known there."""
        *_, (index, state) = self.along(head)
        it = self.operations[index]
        if it.name in BRANCHES:
            return self.branch_ways(index, it, state)
        if it.name == "jal":
            return [(self.places[self.lines[index].target or ""], state)]
        self.step(it, state)
        return [(index + 1, state)] if index + 1 < len(self.lines) else []

    def branch_ways(self, index: int, it: Operation, state: State) -> list[tuple[int, State]]:
        """The two ways from a branch, as far as they can be taken."""
        ways: list[tuple[int, State]] = []
        for taken, target in self.targets_of(index):
            known = shown(it.name, taken, state.registers[it.rs1], state.registers[it.rs2])
            if known and target < len(self.lines):
                after = state.copy()
                after.narrow(it.rs1, known[0])
                after.narrow(it.rs2, known[1])
                ways.append((target, after))
        return ways

    def targets_of(self, index: int) -> list[tuple[bool, int]]:
        """Where a branch leads, where it is taken and where it is not."""
        return [(True, self.places[self.lines[index].target or ""]), (False, index + 1)]

    def next_lines(self, index: int) -> list[int]:
        """The lines that a line leads to."""
        if self.operations[index].name in BRANCHES:
            return [it for _, it in self.targets_of(index) if it < len(self.lines)]
        if self.operations[index].name == "jal":
            return [self.places[self.lines[index].target or ""]]
        return [index + 1] if index + 1 < len(self.lines) else []

    def end_of(self, head: int) -> int:
        """The last line of the block at a head."""
        return self.ends[head]

    def step(self, it: Operation, state: State) -> None:
        """What an instruction that is no branch does to what is known."""
        known = state.registers
        if it.name == "lui":
            state.put(it.rd, (it.constant, it.constant))
        elif it.name in LOADS:
            access = self.access(it, state)
            cell = access.cell
            state.put(it.rd, access.value, cell if cell in state.cells and it.name in ("lw", "lbu", "lhu") else None)
        elif it.name in STORES:
            self.store(it, state)
        elif it.name == "ecall":
            self.call(state)
        elif it.name in IMMEDIATE:
            copied = state.copies.get(it.rs1) if it.name == "addi" and it.constant == 0 else None
            constant = it.constant & MOST
            origin = state.origins.get(it.rs1)
            state.put(it.rd, result(IMMEDIATE[it.name], known[it.rs1], (constant, constant)), copied)
            state.made_of(it.rd, IMMEDIATE[it.name], it.rs1, constant, origin)
        elif it.rd:
            state.put(it.rd, result(it.name, known[it.rs1], known[it.rs2]))

    def call(self, state: State) -> None:
        """What a call leaves: its words are any, but of a call that writes none."""
        if not is_silent(state):
            for register in ANSWERS:
                state.put(register, ANY)

    def is_answered(self, index: int) -> bool:
        """Whether a line is a call that may write registers."""
        state = self.states[index]
        return self.operations[index].name == "ecall" and state is not None and not is_silent(state)

    def access(self, it: Operation, state: State) -> Access:
        """The load or store that an instruction is."""
        low, high = state.registers[it.rs1]
        low, high = plain(normal(low + it.constant, high + it.constant))
        if it.name in STORES:
            return Access(low, high, it.width, True, state.registers[it.rs2])
        return Access(low, high, it.width, False, self.known_value(it, low, high, state))

    def known_value(self, it: Operation, low: int, high: int, state: State) -> Range:
        """What is known of a loaded value."""
        unknown = loaded(it.name)
        if low != high or self.memory.region_of(low, low + it.width - 1) is None:
            return unknown
        self.found.add((low, it.width))
        value = state.cells.get((low, it.width), unknown)
        if it.name in ("lb", "lh") and value[1] >= 1 << (8 * it.width - 1):
            return unknown
        return value

    def store(self, it: Operation, state: State) -> None:
        """A store: the cell that it writes has its value, and all others that it may touch are forgotten."""
        access = self.access(it, state)
        cell = access.cell
        if cell and self.memory.region_of(cell[0], cell[0] + cell[1] - 1):
            self.found.add(cell)
        for other in self.touched(access):
            forgotten = cell != other
            state.cells[other] = loaded({1: "lbu", 2: "lhu", 4: "lw"}[other[1]]) if forgotten else kept(access)
            for register in [number for number, copied in state.copies.items() if copied == other]:
                del state.copies[register]
        if cell in state.cells and access.value == kept(access) and it.rs2:
            state.copies[it.rs2] = cell

    def touched(self, access: Access) -> list[Cell]:
        """The cells that an access may touch."""
        begin = bisect_left(self.cells, (access.low - 3, 0))
        found: list[Cell] = []
        for cell in self.cells[begin:]:
            if cell[0] >= access.high + access.width:
                break
            if access.touches(cell):
                found.append(cell)
        return found

    def accesses(self) -> Iterator[tuple[int, Access]]:
        """The loads and stores that can be reached, with the numbers of their lines."""
        for index, it in enumerate(self.operations):
            state = self.states[index]
            if state is not None and it.width:
                yield index, self.access(it, state)


def size_of(range: Range) -> int:
    """How many words a range has, but one."""
    return range[1] - range[0]


def after_steps(steps: tuple[tuple[str, int], ...], range: Range) -> Range:
    """What instructions make of a range."""
    for name, constant in steps:
        range = result(name, range, (constant, constant))
    return range


def before_steps(steps: tuple[tuple[str, int], ...], range: Range) -> Range | None:
    """The range of what instructions have made a range of; nothing where that is not known."""
    for name, constant in reversed(steps):
        if name == "add":
            range = normal(range[0] - constant, range[1] - constant)
        elif name == "srl" and range[0] >= 0 and (range[1] + 1) << (constant & 31) <= MOST + 1:
            range = range[0] << (constant & 31), ((range[1] + 1) << (constant & 31)) - 1
        else:
            return None
    return range


def kept(access: Access) -> Range:
    """What a store of a width keeps of its value."""
    if access.width == 4 or 0 <= access.value[0] and access.value[1] < 1 << (8 * access.width):
        return access.value
    return 0, (1 << (8 * access.width)) - 1


def is_silent(state: State) -> bool:
    """Whether the call of this state writes no register."""
    low, high = state.registers[17]
    return low == high and low in SILENT
