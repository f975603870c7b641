"""Ranges of 32-bit words: what instructions make of them, and what a branch shows of those that it compares.

A range is the least and the greatest value, as numbers without a sign, or, where that is less, as numbers with one: the
least is then below 0. It is a promise of this analysis alone: nothing of what is proved rests on it.
"""

from __future__ import annotations

from dataclasses import dataclass
from functools import lru_cache

Range = tuple[int, int]

MOST = (1 << 32) - 1
HALF = 1 << 31
ANY: Range = (0, MOST)
LOADS = {"lb": 1, "lh": 2, "lw": 4, "lbu": 1, "lhu": 2}
STORES = {"sb": 1, "sh": 2, "sw": 4}
BRANCHES = {"beq", "bne", "blt", "bge", "bltu", "bgeu"}
IMMEDIATE = {"addi": "add", "slti": "slt", "sltiu": "sltu", "xori": "xor", "ori": "or", "andi": "and", "slli": "sll",
             "srli": "srl", "srai": "sra"}
# The registers that an ECALL may write.
ANSWERS = (10, 11, 12, 13, 14, 15, 18, 19, 20, 21)
# The numbers of the calls that write none: Send, NBSend, Reply, Yield and PutChar.
SILENT = {3, 4, 6, 7, 9}


@dataclass(frozen=True)
class Operation:
    """An instruction taken apart: the registers that it writes and reads (0 where there is none), and its constant."""

    name: str
    rd: int = 0
    rs1: int = 0
    rs2: int = 0
    constant: int = 0

    @property
    def width(self) -> int:
        """How many bytes it loads or stores; 0 where it does neither."""
        return LOADS.get(self.name, 0) or STORES.get(self.name, 0)

    @property
    def reads(self) -> tuple[int, ...]:
        """The registers that it reads, as far as they are named."""
        return tuple(it for it in (self.rs1, self.rs2) if it)


def operation(words: list[str]) -> Operation:
    """An instruction of the text form."""
    return parsed(tuple(words))


@lru_cache(maxsize=None)
def parsed(words: tuple[str, ...]) -> Operation:
    """The same, kept."""
    name, rest = words[0], words[1:]
    if name in LOADS or name in STORES:
        offset, _, base = rest[1].rstrip(")").partition("(")
        data, address, constant = register(rest[0]), register(base), int(offset, 0)
        return Operation(name, data, address, 0, constant) if name in LOADS else Operation(name, 0, address, data, constant)
    if name in BRANCHES:
        return Operation(name, 0, register(rest[0]), register(rest[1]))
    if name in IMMEDIATE:
        return Operation(name, register(rest[0]), register(rest[1]), 0, int(rest[2], 0))
    if name == "lui":
        return Operation(name, register(rest[0]), 0, 0, int(rest[1], 0) << 12)
    if len(rest) == 3:
        return Operation(name, register(rest[0]), register(rest[1]), register(rest[2]))
    return Operation(name)


def register(word: str) -> int:
    """The number of a register."""
    return int(word[1:])


def signed(value: int) -> int:
    """The word as a number with a sign."""
    return value - (1 << 32) if value >= HALF else value


def value_of(name: str, a: int, b: int) -> int:
    """What an instruction on two words gives."""
    by = b & 31
    values = {
        "add": lambda: a + b,
        "sub": lambda: a - b,
        "and": lambda: a & b,
        "or": lambda: a | b,
        "xor": lambda: a ^ b,
        "sll": lambda: a << by,
        "srl": lambda: a >> by,
        "sra": lambda: signed(a) >> by,
        "slt": lambda: int(signed(a) < signed(b)),
        "sltu": lambda: int(a < b),
    }
    return values[name]() & MOST


def normal(low: int, high: int) -> Range:
    """The range of words that are these numbers but for multiples of 2^32."""
    if high - low >= MOST:
        return ANY
    turns = low >> 32
    low, high = low - (turns << 32), high - (turns << 32)
    if high <= MOST:
        return low, high
    low, high = low - (1 << 32), high - (1 << 32)
    return (low, high) if low >= -HALF and high < HALF else ANY


def plain(range: Range) -> Range:
    """The range as numbers without a sign."""
    return range if range[0] >= 0 else ANY


def with_sign(range: Range) -> Range:
    """The range as numbers with a sign."""
    low, high = range
    if high < HALF:
        return range
    return (low - (1 << 32), high - (1 << 32)) if low >= HALF else (-HALF, HALF - 1)


def result(name: str, x: Range, y: Range) -> Range:
    """The range of what an instruction on two words gives."""
    if x[0] == x[1] and y[0] == y[1]:
        value = value_of(name, x[0] & MOST, y[0] & MOST)
        return value, value
    if name == "add":
        return normal(x[0] + y[0], x[1] + y[1])
    if name == "sub":
        return normal(x[0] - y[1], x[1] - y[0])
    by = y[0] & 31 if y[0] == y[1] else None
    if name in ("sll", "sra") and by is not None and with_sign(x) != (-HALF, HALF - 1):
        low, high = with_sign(x)
        return normal(low << by, high << by) if name == "sll" else normal(low >> by, high >> by)
    return of_bits(name, plain(x), plain(y), by)


def of_bits(name: str, x: Range, y: Range, by: int | None) -> Range:
    """The same of instructions on bits; `by` is how far is shifted, where that is known."""
    (a, b), (c, d) = x, y
    all_ones = (1 << max(b, d).bit_length()) - 1
    if name == "and":
        return 0, min(b, d)
    if name == "or":
        return max(a, c), all_ones
    if name == "xor":
        return 0, all_ones
    if name == "sll":
        return (a << by, b << by) if by is not None and b << by <= MOST else ANY
    if name == "srl":
        return (a >> by, b >> by) if by is not None else (0, b)
    if name == "sra":
        return (0, b) if b < HALF else normal(-HALF >> by, HALF - 1 >> by) if by is not None else ANY
    return 0, 1


def loaded(name: str) -> Range:
    """What is known of a loaded value by the instruction alone."""
    return {"lbu": (0, 0xFF), "lhu": (0, 0xFFFF), "lb": (-0x80, 0x7F), "lh": (-0x8000, 0x7FFF)}.get(name, ANY)


def united(x: Range, y: Range) -> Range:
    """The least range that has both."""
    (a, b), (c, d) = plain(x), plain(y)
    (e, f), (g, h) = with_sign(x), with_sign(y)
    one, other = (min(a, c), max(b, d)), (min(e, g), max(f, h))
    return normal(*other) if other[1] - other[0] < one[1] - one[0] else one


def shown(name: str, taken: bool, x: Range, y: Range) -> tuple[Range, Range] | None:
    """What is known of two words that a branch compares, where it is taken or is not; nothing where that cannot be."""
    if name in ("beq", "bne"):
        if (name == "beq") != taken:
            return differing(x, y)
        one, other = met(x, y), met(y, x)
        return (one, other) if one and other else None
    view = with_sign if name in ("blt", "bge") else plain
    (a, b), (c, d) = view(x), view(y)
    if (name in ("blt", "bltu")) == taken:
        one, other = (a, min(b, d - 1)), (max(c, a + 1), d)
    else:
        one, other = (max(a, c), b), (c, min(d, b))
    if one[0] > one[1] or other[0] > other[1]:
        return None
    first, second = met(x, normal(*one)), met(y, normal(*other))
    return (first, second) if first and second else None


def differing(x: Range, y: Range) -> tuple[Range, Range] | None:
    """What is known of two words that are not equal."""
    if x[0] == x[1] == y[0] == y[1]:
        return None
    return without(x, y), without(y, x)


def met(x: Range, y: Range) -> Range | None:
    """What two ranges have in common, or a range that has it; nothing where that is nothing."""
    best: Range | None = None
    for view in (plain, with_sign):
        (a, b), (c, d) = view(x), view(y)
        low, high = max(a, c), min(b, d)
        if low > high:
            return None
        found = normal(low, high)
        if best is None or found[1] - found[0] < best[1] - best[0]:
            best = found
    return best


def without(x: Range, y: Range) -> Range:
    """The range but for a value at one of its ends."""
    low, high = x
    if y[0] == y[1] and low < high:
        low += (low - y[0]) & MOST == 0
        high -= (high - y[0]) & MOST == 0
    return normal(low, high)
