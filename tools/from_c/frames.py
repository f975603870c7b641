"""What a function does with the stack and with the registers that it has to give back."""

from __future__ import annotations

import re

from faults import Fault
from machine_code import BRANCHES, STORES, Function, Instruction

# The registers that a function gives back as it found them, and the one that holds its return address.
SAVED = {"x1", "x8", "x9", *(f"x{number}" for number in range(18, 28))}
NOT_CONSTANT = "a stack of no constant size: an array of a length that is not constant, or an alignment above 16"


def registers_in(words: list[str]) -> set[str]:
    """The registers that the words of an instruction name."""
    return set(re.findall(r"\bx\d+\b", " ".join(words)))


def moves_stack(words: list[str]) -> bool:
    """Whether an instruction writes the stack pointer."""
    return words[0] not in STORES and words[0] not in BRANCHES and words[1:2] == ["x2"]


def moves_back(words: list[str]) -> bool:
    """Whether an instruction that writes the stack pointer gives stack back."""
    return words[1] == words[2] == "x2" and (words[0] == "add" or words[0] == "addi" and not words[3].startswith("-"))


def head_of(function: Function) -> list[Instruction]:
    """The instructions before the first call, branch or jump, and before the first target of one."""
    targets = {it.target for it in function.body}
    head: list[Instruction] = []
    for instruction in function.body:
        leaves = instruction.name in BRANCHES or instruction.name in ("jal", "jalr", "ecall")
        if leaves or head and instruction.address in targets:
            break
        head.append(instruction)
    return head


def frame_of(function: Function) -> int:
    """How many bytes of stack the function takes by itself: what it moves the stack pointer by at its beginning, by
    constants. After that it may only move it back."""
    head = head_of(function)
    values = {"x0": 0, "x2": 0}
    for instruction in head:
        step(values, instruction)
    later = [it for it in function.body[len(head) :] if moves_stack(it.words) and not moves_back(it.words)]
    for instruction in sorted(later, key=lambda it: it.name != "sub"):
        raise Fault(instruction.place, NOT_CONSTANT)
    if "x2" not in values:
        raise Fault(function.body[0].place, NOT_CONSTANT)
    moved = values["x2"] & 0xFFFF_FFFF
    return (1 << 32) - moved if moved else 0


def step(values: dict[str, int], instruction: Instruction) -> None:
    """Brings the values that are known of registers after an instruction of a function's beginning."""
    if not instruction.operands or instruction.name in STORES:
        return
    name, (rd, *rest) = instruction.name, instruction.operands
    if name == "lui":
        values[rd] = int(rest[0], 16) << 12
    elif name == "addi" and rest[0] in values:
        values[rd] = values[rest[0]] + int(rest[1])
    elif name == "add" and rest[0] in values and rest[1] in values:
        values[rd] = values[rest[0]] + values[rest[1]]
    else:
        values.pop(rd, None)


def saves_of(function: Function) -> dict[str, str]:
    """The registers that the function saves at its beginning, each with its place on the stack, as `12(x2)`. None are
    given for a function that moves the stack pointer down more than once, since places are not comparable there."""
    down = [it for it in function.body if moves_stack(it.words) and not moves_back(it.words)]
    if len(down) > 1 or any(it.name != "addi" for it in function.body if moves_stack(it.words)):
        return {}
    written: set[str] = set()
    saved: dict[str, str] = {}
    for it in head_of(function):
        if it.name == "sw" and it.operands[0] in SAVED - written and it.operands[1].endswith("(x2)"):
            saved[it.operands[0]] = it.operands[1]
        elif it.name not in STORES and it.operands:
            written.add(it.operands[0])
    if "x1" in registers_of(function, saved):
        saved.pop("x1", None)
    return saved


def registers_of(function: Function, saved: dict[str, str]) -> set[str]:
    """The registers that the function uses, but for saving and restoring them, for calling and for returning."""
    used: set[str] = set()
    for it in function.body:
        if it.name not in ("jal", "jalr") and not is_save(it, saved):
            used |= registers_in(it.words)
    return used


def is_save(instruction: Instruction, saved: dict[str, str]) -> bool:
    """Whether it saves or restores one of the registers at its place."""
    return instruction.name in ("sw", "lw") and saved.get(instruction.operands[0]) == instruction.operands[1]
