#!/usr/bin/env python3
"""Makes crates/kernel_tests/src/machine/table.rt: words and results of RV32I instructions.

The words come from GNU as and ld, the results from a run of the linked program under QEMU's user
mode. Nothing of this repository takes part. Debian packages: binutils-riscv64-unknown-elf and
qemu-user. The table is committed, so no other tool of the repository needs either.

    tools/rv32i_table.py > crates/kernel_tests/src/machine/table.rt

Each row is one instruction at its own address. Before it x5 and x6 hold the row's operands, x7 holds
what x5 does, and memory at BASE holds the two words MEMORY. After it are x7, the address where
the program went on, and the two words of memory. What does not go by its address has PLACE for it in
the table.
"""
import re
import struct
import subprocess
import tempfile
from pathlib import Path

PREFIX = "riscv64-unknown-elf-"
BASE = 0x20000
PLACE = 0x1000
MEMORY = (0x80FF7F01, 0x8001FE7F)

WORDS = [(0, 0), (1, 0xFFFFFFFF), (0x80000000, 1), (0x7FFFFFFF, 0x80000000), (0xFFFFFFFF, 31), (0x80000001, 33)]
REGISTER_OPS = "add sub sll slt sltu xor srl sra or and".split()
IMMEDIATE_OPS = "addi slti sltiu xori ori andi".split()
IMMEDIATES = [(0, 0), (0x7FFFFFFF, 2047), (0x80000000, -2048), (0xFFFFFFFF, -1), (0x1000, 1)]
SHIFTS = [(0x80000001, 0), (0x80000001, 1), (0x7FFFFFFF, 31), (0x80000000, 31)]
BRANCHES = "beq bne blt bge bltu bgeu".split()
COMPARED = [(5, 5), (1, 0xFFFFFFFF), (0xFFFFFFFF, 1), (0x80000000, 0x7FFFFFFF)]
JUMPS = [*BRANCHES, "jal", "jalr", "auipc"]
LOADS = {"lb": [0, 1, 3, 7], "lbu": [1, 3], "lh": [0, 2, 3], "lhu": [0, 2, 3], "lw": [0, 1, 4]}
STORES = {"sb": [0, 3, 7], "sh": [0, 3, 6], "sw": [0, 1, 4]}


def instructions():
    """The instructions: (text, value of x5, value of x6)."""
    for op in REGISTER_OPS:
        for a, b in WORDS:
            yield f"{op} x7, x5, x6", a, b
    for op in IMMEDIATE_OPS:
        for a, immediate in IMMEDIATES:
            yield f"{op} x7, x5, {immediate}", a, 0
    for op in ("slli", "srli", "srai"):
        for a, amount in SHIFTS:
            yield f"{op} x7, x5, {amount}", a, 0
    for op in ("lui", "auipc"):
        for immediate in (0, 1, 0x80000, 0xFFFFF):
            yield f"{op} x7, {immediate}", 0, 0
    for op in BRANCHES:
        for side, (a, b) in enumerate(COMPARED):
            yield f"{op} x5, x6, {'forward' if side % 2 else 'backward'}", a, b
    yield "jal x7, forward", 0, 0
    yield "jal x7, backward", 0, 0
    yield "jalr x7, 0(x5)", "forward", 0
    yield "jalr x7, -7(x5)", "backward + 8", 0
    yield "jalr x7, 2047(x5)", "forward - 2046", 0
    yield "jalr x7, 0(x7)", "forward", 0
    for op, offsets in LOADS.items():
        for offset in offsets:
            yield f"{op} x7, {offset - 16}(x5)", BASE + 16, 0
    for op, offsets in STORES.items():
        for offset in offsets:
            yield f"{op} x6, {offset + 32}(x5)", BASE - 32, 0xC4C3C2C1
    yield "fence", 0, 0
    for text in ("add x0, x5, x6", "addi x0, x5, 1", "lui x0, 1", "lw x0, 0(x5)"):
        yield text, BASE, 1


def program(rows):
    """A program that runs each row and writes, for each, x5, x6, x7, the address and two words."""
    lines = [".option norvc", ".option norelax", ".text", ".globl _start", "_start:", "la x9, results"]
    for n, (text, a, b) in enumerate(rows):
        text = text.replace("forward", f"forward{n}").replace("backward", f"backward{n}")
        place = lambda v: re.sub(r"(forward|backward)", rf"\g<1>{n}", v)
        set_a = f"la x5, {place(a)}" if isinstance(a, str) else f"li x5, {a}"
        lines += [
            f"la x10, memory", f"li x11, {MEMORY[0]}", "sw x11, 0(x10)", f"li x11, {MEMORY[1]}", "sw x11, 4(x10)",
            set_a, f"li x6, {b}", "mv x7, x5", "sw x5, 0(x9)", "sw x6, 4(x9)",
            f"j row{n}",
            f"backward{n}:", f"la x8, backward{n}", f"j done{n}",
            f"row{n}: {text}",
            f"next{n}:", f"la x8, next{n}", f"j done{n}",
            f"forward{n}:", f"la x8, forward{n}",
            f"done{n}:", "la x10, memory",
            "sw x7, 8(x9)", "sw x8, 12(x9)",
            "lw x11, 0(x10)", "sw x11, 16(x9)", "lw x11, 4(x10)", "sw x11, 20(x9)", "addi x9, x9, 24",
        ]
    size = 24 * len(rows)
    lines += ["li a0, 1", "la a1, results", f"li a2, {size}", "li a7, 64", "ecall", "li a0, 0", "li a7, 93", "ecall"]
    lines += ['.section .memory, "aw"', "memory: .zero 4096", ".bss", f"results: .zero {size}"]
    return "\n".join(lines) + "\n"


def run(rows):
    """For each row: address and word; x5 and x6 before it; x7, the pc and memory after it."""
    with tempfile.TemporaryDirectory() as folder:
        path = Path(folder)
        (path / "rows.s").write_text(program(rows))
        call = lambda *words: subprocess.run(words, cwd=folder, check=True, capture_output=True).stdout
        call(PREFIX + "as", "-march=rv32i", "-mabi=ilp32", "-o", "rows.o", "rows.s")
        call(PREFIX + "ld", "-melf32lriscv", "-Ttext=0x100000", f"--section-start=.memory={BASE:#x}", "-o", "rows", "rows.o")
        call(PREFIX + "objcopy", "-O", "binary", "-j", ".text", "rows", "rows.bin")
        addresses = {}
        for line in call(PREFIX + "nm", "rows").decode().splitlines():
            address, _, name = line.split()
            addresses[name] = int(address, 16)
        text = (path / "rows.bin").read_bytes()
        results = call("qemu-riscv32", "./rows")
        for n in range(len(rows)):
            pc = addresses[f"row{n}"]
            (word,) = struct.unpack_from("<I", text, pc - 0x100000)
            yield (pc, word) + struct.unpack_from("<6I", results, 24 * n)


def printed(rows):
    """The rows of the table: numbers, and after them the instruction's text."""
    for (text, _, _), (pc, word, a, b, c, behind, low, high) in zip(rows, run(rows)):
        op = text.split()[0]
        assert op in STORES or (low, high) == MEMORY
        if op not in JUMPS:
            assert behind == pc + 4
            pc, behind = PLACE, PLACE + 4
        yield " ".join(f"0x{n:08X}" for n in (word, pc, a, b, c, behind, low, high)) + f" | {text}"


def main():
    rows = list(printed(list(instructions())))
    print("//! Words and results of RV32I instructions, made by tools/rv32i_table.py with")
    for tool in (PREFIX + "as", "qemu-riscv32"):
        version = subprocess.run([tool, "--version"], check=True, capture_output=True, text=True).stdout
        print(f"//! {version.splitlines()[0]}.")
    print()
    print("/// The word and its address; x5 and x6; behind it x7, the pc, and the two words of memory.")
    print('pub(crate) const ROWS: &str = "\\')
    print("\n".join(rows) + '";')


main()
