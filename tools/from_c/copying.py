"""A thread's program of linked functions: each call is replaced by a copy of the callee, whose return becomes a jump.

So no point of the program jumps to an address that it computes, and the verifier knows at each copy the values that its
caller gives it.
"""

from __future__ import annotations

from collections import Counter
from dataclasses import dataclass, replace

from faults import Fault, Place
from frames import frame_of, is_save, moves_stack, registers_in, registers_of, saves_of
from lines import ASSERT_FAILED, STOP, Line, constant, without
from machine_code import BRANCHES, Function, Instruction, Linked

LONGEST = 65536
PLAIN = set(
    "lui addi slti sltiu xori ori andi slli srli srai add sub sll slt sltu xor srl sra or and "
    "lb lh lw lbu lhu sb sh sw ecall".split()
)


@dataclass(frozen=True)
class Program:
    """A thread's program, how many bytes of stack it uses at most, and with how many of them used each of its functions
    is entered."""

    lines: list[Line]
    stack: int
    entries: frozenset[tuple[str, int]] = frozenset()


@dataclass(frozen=True)
class Caller:
    """What a copy has to know of the functions that it is called by: where it goes on after the return, the place of
    the call, their names, the registers that they keep values in, and the bytes of stack that they use."""

    after: str | None = None
    place: Place | None = None
    names: tuple[str, ...] = ()
    held: frozenset[str] = frozenset()
    depth: int = 0


@dataclass(frozen=True)
class Copy:
    """A function that is being copied: the labels of its addresses, its caller, itself as the caller of others, and the
    registers that it need not save, each with its place on the stack."""

    function: Function
    labels: dict[int, str]
    caller: Caller
    itself: Caller
    dropped: dict[str, str]


def program_of(linked: Linked, entry: str) -> Program:
    """The program of the thread that starts in the function `entry`, which is the label of its first instruction."""
    copier = Copier(linked)
    copier.pending.append(entry)
    copier.copy(linked.addresses[entry], Caller())
    lines, stack = without(copier.lines, leads_on), copier.stack
    if not any("x2" in registers_in(it.words) for it in lines if not moves_stack(it.words)):
        lines, stack = without(lines, lambda line, _: moves_stack(line.words)), 0
    drop_labels(lines, entry)
    return Program(lines, stack, frozenset(copier.entries))


class Returned(Fault):
    """The thread's function returns; the place is that of its end."""


class Copier:
    """Copies functions one into another, and collects the lines."""

    def __init__(self, linked: Linked) -> None:
        self.linked = linked
        self.lines: list[Line] = []
        self.copies: Counter[str] = Counter()
        self.labels = 0
        self.pending: list[str] = []
        self.note = ""
        self.stack = 0
        self.entries: set[tuple[str, int]] = set()

    def label(self) -> str:
        """A new label."""
        self.labels += 1
        return f"at_{self.labels}"

    def copy(self, address: int, caller: Caller) -> None:
        """Copies the function at the address. What of it has no place of its own has that of the call."""
        function = at_place(self.linked.functions[address], caller.place)
        targets = {it.target for it in function.body}
        saved = saves_of(function)
        itself = Caller(
            place=caller.place,
            names=(*caller.names, function.name),
            held=caller.held | registers_of(function, saved),
            depth=caller.depth + frame_of(function),
        )
        labels = {it.address: self.label() for it in function.body if it.address in targets}
        dropped = {register: place for register, place in saved.items() if register not in caller.held}
        self.copies[function.name] += 1
        self.entries.add((function.name, caller.depth))
        self.stack = max(self.stack, itself.depth)
        if caller.names:
            self.note = f"# {function.name}, called by {caller.names[-1]}\n"
        for instruction in function.body:
            if instruction.address in labels:
                self.pending.append(labels[instruction.address])
            self.add(instruction, Copy(function, labels, caller, itself, dropped))

    def add(self, instruction: Instruction, copy: Copy) -> None:
        """Adds an instruction of a function that is being copied."""
        name = instruction.name
        if name in BRANCHES:
            if instruction.target not in copy.labels:
                raise Fault(instruction.place, f"a branch out of `{copy.function.name}`")
            self.put(instruction.words[:3], instruction, copy.labels[instruction.target])
        elif name == "jal":
            self.jump(instruction, copy)
        elif name == "jalr":
            self.leave(instruction, copy)
        elif name == "fence":
            self.put(["fence"], instruction)
        elif name not in PLAIN:
            raise Fault(instruction.place, refusal_of(name))
        elif not is_save(instruction, copy.dropped):
            self.put(instruction.words, instruction)

    def put(self, words: list[str], instruction: Instruction, target: str | None = None) -> None:
        """Adds a line with the labels that wait for one."""
        if len(self.lines) > 2 * LONGEST:
            most = ", ".join(f"{name} {count} times" for name, count in self.copies.most_common(3))
            raise Fault(instruction.place, f"the program has more than {LONGEST} instructions; copied were {most}")
        if instruction.is_of_assert and words == ["ecall"]:
            self.note += f"{ASSERT_FAILED}\n"
        self.lines.append(Line(words, instruction.place, target, self.pending, self.note))
        self.pending, self.note = [], ""

    def jump(self, instruction: Instruction, copy: Copy) -> None:
        """A jump within the function, a call, or a call in the place of a return."""
        target, is_call = instruction.target, instruction.operands[0] == "x1"
        if not is_call and target in copy.labels:
            self.put(["jal", "x0"], instruction, copy.labels[target])
            return
        if target not in self.linked.functions:
            raise Fault(instruction.place, f"a jump out of `{copy.function.name}`")
        after = self.label() if is_call else copy.caller.after
        self.call(target, instruction, copy, after)
        if is_call and after:
            self.pending.append(after)

    def call(self, target: int, instruction: Instruction, copy: Copy, after: str | None) -> None:
        """Copies the function that is called there, which goes on after its return at a label."""
        called, names = self.linked.functions[target].name, copy.itself.names
        if called in names:
            circle = " calls ".join([*names[names.index(called) :], called])
            raise Fault(instruction.place, f"recursion, which has no bound: {circle}; write a loop")
        self.copy(target, Caller(after, instruction.place, names, copy.itself.held, copy.itself.depth))

    def leave(self, instruction: Instruction, copy: Copy) -> None:
        """A return; every other jump to an address in a register is refused."""
        if instruction.operands == ("x0", "0(x1)"):
            if copy.caller.after is None:
                advice = "returns, and a thread has nowhere to return to: end it with a loop that waits"
                raise Returned(instruction.place, f"`{copy.function.name}` {advice}")
            self.put(["jal", "x0"], instruction, copy.caller.after)
        elif instruction.operands[0] == "x1":
            self.choose(instruction, copy)
        else:
            advice = "write `switch` or `if` in place of `goto *`"
            raise Fault(instruction.place, f"a jump to a computed address: {advice}")

    def choose(self, instruction: Instruction, copy: Copy) -> None:
        """A call through a pointer: a test for each function whose address the program has, and its copy. A pointer
        that is none of these stops the thread, as a failed `assert` does."""
        offset, _, pointer = instruction.operands[1].rstrip(")").partition("(")
        if offset != "0":
            raise Fault(instruction.place, "a call to a computed address")
        scratch, after = "x5" if pointer == "x1" else "x1", self.label()
        for address in self.linked.pointed:
            following = self.label()
            for words in constant(int(scratch[1:]), address):
                self.put(words, instruction)
            self.put(["bne", pointer, scratch], instruction, following)
            self.call(address, instruction, copy, after)
            self.pending.append(following)
        self.put(["jal", "x0"], instruction, STOP)
        self.pending.append(after)


def at_place(function: Function, place: Place | None) -> Function:
    """The function, with the place where an instruction has none."""
    return Function(function.name, [it if it.place else replace(it, place=place) for it in function.body])


def refusal_of(name: str) -> str:
    """What is said of an instruction that no program may have."""
    if name == "ebreak":
        return "a trap: the C has no meaning on this way (as a division by 0 has none), or says __builtin_trap"
    return f"`{name}` is no instruction that a thread may have"


def leads_on(line: Line, following: Line) -> bool:
    """Whether it is a jump to the line after it."""
    return line.words[:2] == ["jal", "x0"] and line.target in following.labels


def drop_labels(lines: list[Line], entry: str) -> None:
    """Drops the labels that nothing leads to."""
    wanted = {line.target for line in lines} | {entry}
    for line in lines:
        line.labels = [label for label in line.labels if label in wanted]
