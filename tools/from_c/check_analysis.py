#!/usr/bin/env python3
"""Runs programs from C, an instruction after another, and looks whether each register and each word of memory is within what
the analysis says of it there.

    tools/from_c/check_analysis.py [FIRST COUNT]

These are the programs of natural/, of programs/ and of programs/before, and COUNT random ones from FIRST on, each as the ways
of attempts.py compile it. What a call answers is random.
"""

from __future__ import annotations

import random
import sys
import tempfile
from collections.abc import Iterator
from pathlib import Path

sys.dont_write_bytecode = True

from analysis import Analysis  # noqa: E402
from attempts import WAYS, in_way, setting_of  # noqa: E402
from building import Folder, built, program_in  # noqa: E402
from description import read  # noqa: E402
from faults import Fault, Refused  # noqa: E402
from random_programs import Writer  # noqa: E402
from ranges import ANSWERS, BRANCHES, IMMEDIATE, LOADS, MOST, SILENT, STORES, signed, value_of  # noqa: E402
from strides import with_strides  # noqa: E402
from words import analysed  # noqa: E402

HERE = Path(__file__).resolve().parent
PREFIX = "riscv64-unknown-elf-"
# Further pages of code, for what is long.
MORE_CODE = (("object data", "object third memory frame\n"), ("map space 0x4000", "map space 0x3000 third 4\n"))
STEPS = 6000
# Those of the ways whose programs differ most.
LOOKED_AT = (0, 1, 4, 8)


def descriptions(first: int, count: int, room: Path) -> Iterator[Path]:
    """The texts of the programs, each beside its source."""
    sources = [it.read_text() for folder in ("natural", "programs", "programs/before") for it in sorted((HERE / folder).glob("*.c"))]
    text = (HERE / "programs/thread.txt").read_text()
    for before, more in MORE_CODE:
        text = text.replace(before, more + before)
    for number, source in enumerate([*sources, *(Writer(seed).program() for seed in range(first, first + count))]):
        (room / f"p{number}.c").write_text(source)
        (room / f"p{number}.txt").write_text(text.replace("NAME", f"p{number}"))
        yield room / f"p{number}.txt"


def holds(low: int, high: int, value: int) -> bool:
    """Whether a word is in a range."""
    return low <= value <= high or low <= value - (1 << 32) <= high


class Run:
    """A program's run: where it is, its registers and its bytes."""

    def __init__(self, known: Analysis, source: random.Random) -> None:
        self.known, self.source, self.line = known, source, 0
        self.registers = [0] * 32
        for register, value in {2: known.stack, **known.registers}.items():
            self.registers[register] = value
        self.bytes = {it.start + at: byte for it in known.memory.regions for at, byte in enumerate(it.content)}

    def word(self, address: int, width: int) -> int:
        """What lies there; elsewhere than in its own memory anything."""
        return sum(self.bytes.get((address + at) & MOST, self.source.randrange(256)) << 8 * at for at in range(width))

    def fault(self) -> str | None:
        """What is not as it is said to be before the next instruction."""
        state = self.known.states[self.line]
        if state is None:
            return f"line {self.line} is not reached, it is said"
        for register, (low, high) in enumerate(state.registers):
            if not holds(low, high, self.registers[register]):
                return f"line {self.line}: x{register} is {self.registers[register]:#x}, and {low:#x} to {high:#x} is said"
        for (address, width), (low, high) in state.cells.items():
            if not holds(low, high, self.word(address, width)):
                return f"line {self.line}: the word at {address:#x} is outside of {low:#x} to {high:#x}"
        return None

    def step(self) -> None:
        """Runs an instruction."""
        it, x = self.known.operations[self.line], self.registers
        following = self.line + 1
        if it.name in BRANCHES:
            a, b = x[it.rs1], x[it.rs2]
            tests = {"beq": a == b, "bne": a != b, "bltu": a < b, "bgeu": a >= b}
            taken = tests[it.name] if it.name in tests else (signed(a) < signed(b)) == (it.name == "blt")
            following = next(target for is_taken, target in self.known.targets_of(self.line) if is_taken == taken)
        elif it.name == "jal":
            [following] = self.known.next_lines(self.line)
        elif it.name in LOADS:
            value = self.word(x[it.rs1] + it.constant & MOST, it.width)
            if it.name in ("lb", "lh") and value >> 8 * it.width - 1:
                value -= 1 << 8 * it.width
            x[it.rd] = value & MOST
        elif it.name in STORES:
            for at in range(it.width):
                if (address := x[it.rs1] + it.constant + at & MOST) in self.bytes:
                    self.bytes[address] = x[it.rs2] >> 8 * at & 0xFF
        elif it.name == "ecall" and x[17] not in SILENT:
            for register in ANSWERS:
                x[register] = self.source.choice((0, 1, self.source.randrange(1 << 32)))
        elif it.name == "lui":
            x[it.rd] = it.constant & MOST
        elif it.name in IMMEDIATE:
            x[it.rd] = value_of(IMMEDIATE[it.name], x[it.rs1], it.constant & MOST)
        elif it.name != "ecall":
            x[it.rd] = value_of(it.name, x[it.rs1], x[it.rs2])
        x[0] = 0
        self.line = following


def fault_of(known: Analysis, seed: int) -> str | None:
    """What is not as it is said to be in a run of a program."""
    run = Run(known, random.Random(seed))
    for _ in range(STEPS):
        if found := run.fault():
            return found
        run.step()
        if run.line >= len(known.lines):
            break
    return None


def faults_in(text: Path, seed: int) -> list[str]:
    """What is not as it is said to be of a program in any way."""
    described, folder, found = read(text.read_text(), text.name), Folder(text.parent, PREFIX), list[str]()
    try:
        [plain] = built(described, folder)
    except (Fault, Refused):
        return []
    for number in LOOKED_AT:
        way = WAYS[number]
        if plain.thread.wanted:
            it = in_way(program_in(plain.thread, plain.thread.wanted, described, folder, way.flags), way, described)
            known = analysed(it.program.lines, setting_of(it, described))
            for what in (known, with_strides(known)):
                if said := fault_of(what, seed):
                    found.append(f"{text.stem}, way {number}: {said}")
    return found


def main(first: int = 0, count: int = 20) -> int:
    """Goes over the programs."""
    faults, number = 0, 0
    with tempfile.TemporaryDirectory() as room:
        for number, text in enumerate(descriptions(first, count, Path(room)), 1):
            for said in faults_in(text, number):
                print(said, flush=True)
                faults += 1
    print(f"{number} programs, in {len(LOOKED_AT)} ways each: {faults} values are outside of what is said")
    return bool(faults)


if __name__ == "__main__":
    sys.exit(main(*(int(it) for it in sys.argv[1:])))
