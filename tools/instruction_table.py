#!/usr/bin/env python3
"""Makes crates/program_tests/src/assembling/instruction_table.rt: lines of programs, and the words of another assembler.

Each of the 40 instructions of RV32I that the text form knows, with 32 choices of operands each where it has
some: the ends of each operand's range, each register at least once in each place, and what a generator with a
fixed seed chooses. The words come from clang (`--target=riscv32 -march=rv32i -mno-relax`); nothing of this
repository takes part. The table is committed, so no other tool of the repository needs clang.

    tools/instruction_table.py > crates/program_tests/src/assembling/instruction_table.rt
"""
import random
import subprocess
import tempfile
from pathlib import Path

CHOICES = 32
# How far a branch may lead within the table, in words: less than its range of 1,024.
REACH = 1000
REGISTERS = "add sub sll slt sltu xor srl sra or and".split()
IMMEDIATES = "addi slti sltiu xori ori andi".split()
SHIFTS = "slli srli srai".split()
LOADS = "lb lh lw lbu lhu jalr".split()
STORES = "sb sh sw".split()
BRANCHES = "beq bne blt bge bltu bgeu".split()
UPPER = "lui auipc".split()
PLAIN = "ecall ebreak fence".split()


def label(row):
    """The name of a row; the program begins at the first."""
    return f"p{row}" if row else "start"


class Choices:
    """Operands for one instruction after another, the same in each run."""

    def __init__(self):
        self.random = random.Random(32)

    def registers(self):
        """Each register once, in an order of its own."""
        return self.random.sample(range(32), 32)

    def numbers(self, low, high):
        """32 numbers of a range: both ends, what is next to them, -1, 0 and 1 where they lie in it, and others."""
        first = {low, low + 1, high - 1, high} | {n for n in (-1, 0, 1) if low <= n <= high}
        rest = [self.random.randint(low, high) for _ in range(CHOICES - len(first))]
        chosen = sorted(first) + rest
        self.random.shuffle(chosen)
        return chosen

    def targets(self, at, count):
        """The label of a row within reach for each of the 32 rows from this one on."""
        rows = range(at, at + CHOICES)
        chosen = [self.random.randint(max(0, row - REACH), min(count - 1, row + REACH)) for row in rows]
        chosen[0] = at  # to itself
        chosen[1] = at + 2  # to the next
        return [label(row) for row in chosen]


def lines():
    """The lines of the program, without labels."""
    choices = Choices()
    count = CHOICES * sum(map(len, (REGISTERS, IMMEDIATES, SHIFTS, LOADS, STORES, BRANCHES, UPPER))) + CHOICES + len(PLAIN)
    made = []

    def rows(form, *operands):
        made.extend(form.format(*chosen) for chosen in zip(*operands, strict=True))

    for name in REGISTERS:
        rows(name + " x{}, x{}, x{}", choices.registers(), choices.registers(), choices.registers())
    for name in IMMEDIATES:
        rows(name + " x{}, x{}, {}", choices.registers(), choices.registers(), choices.numbers(-2048, 2047))
    for name in SHIFTS:
        rows(name + " x{}, x{}, {}", choices.registers(), choices.registers(), choices.random.sample(range(32), 32))
    for name in LOADS + STORES:
        rows(name + " x{}, {}(x{})", choices.registers(), choices.numbers(-2048, 2047), choices.registers())
    for name in BRANCHES:
        rows(name + " x{}, x{}, {}", choices.registers(), choices.registers(), choices.targets(len(made), count))
    rows("jal x{}, {}", choices.registers(), choices.targets(len(made), count))
    for name in UPPER:
        rows(name + " x{}, {}", choices.registers(), choices.numbers(0, 0xFFFFF))
    made.extend(PLAIN)
    assert len(made) == count
    return [f"{label(row)}: {line}" for row, line in enumerate(made)]


def words(program):
    """What clang makes of the program: a word for each line."""
    with tempfile.TemporaryDirectory() as folder:
        source, code = Path(folder, "table.s"), Path(folder, "table.o")
        source.write_text("\n".join(program) + "\n")
        flags = ["--target=riscv32", "-march=rv32i", "-mno-relax", "-c"]
        subprocess.run(["clang", *flags, source, "-o", code], check=True)
        text = Path(folder, "table.bin")
        subprocess.run(["llvm-objcopy", "-O", "binary", "-j", ".text", code, text], check=True)
        made = text.read_bytes()
    return [int.from_bytes(made[at : at + 4], "little") for at in range(0, len(made), 4)]


def main():
    program = lines()
    made = words(program)
    assert len(made) == len(program)
    print("//! Lines of a program and the words that another assembler (clang) makes of them.")
    print("//!")
    print("//! Made by `tools/instruction_table.py`.")
    print()
    print("/// Each instruction with 32 choices of its operands: word and line.")
    print('pub(crate) const ROWS: &str = "')
    for word, line in zip(made, program):
        print(f"    0x{word:08X} {line}")
    print('";')


main()
