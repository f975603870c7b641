#!/usr/bin/env python3
"""Writes random programs in C, one a seed, which have a meaning by the standard and by `-fwrapv`.

    tools/from_c/random_programs.py FOLDER FIRST COUNT

Each is a thread that waits for its bell, computes with variables, arrays, structs and functions, and puts what comes of it.
Loops count; indices are counters, masked, tested or remainders; divisors are not 0; shifts are below the width; nothing
rests on the order of arguments, on the size of `long` or on whether `char` has a sign.
"""

from __future__ import annotations

import random
import sys
from pathlib import Path

TYPES = ("uint8_t", "int8_t", "uint16_t", "int16_t", "uint32_t", "int32_t", "int", "unsigned")
SIZES = (2, 4, 5, 7, 8, 10, 16)


class Writer:
    """A program as it is written."""

    def __init__(self, seed: int) -> None:
        self.random = random.Random(seed)
        self.lines: list[str] = []
        self.arrays: list[tuple[str, int]] = []
        self.variables: list[str] = []
        self.counters: list[tuple[str, int]] = []
        self.functions: list[tuple[str, int]] = []
        self.count = 0

    def name(self, prefix: str) -> str:
        """A new name."""
        self.count += 1
        return f"{prefix}{self.count}"

    def pick(self, *choices: str) -> str:
        """One of some texts."""
        return self.random.choice(choices)

    def chance(self, percent: int) -> bool:
        """Whether something of that probability happens."""
        return self.random.randrange(100) < percent

    def put(self, depth: int, text: str) -> None:
        """Writes a line."""
        self.lines.append("    " * depth + text)

    def program(self) -> str:
        """The whole program."""
        self.put(0, '#include "microsys.h"')
        self.globals()
        for _ in range(self.random.randrange(4)):
            self.function()
        self.thread()
        return "\n".join(self.lines) + "\n"

    def globals(self) -> None:
        """Variables of the file, with first values."""
        for _ in range(self.random.randint(1, 4)):
            name, size = self.name("a"), self.random.choice(SIZES)
            values = ", ".join(str(self.random.randrange(100)) for _ in range(size))
            first = f" = {{{values}}}" if self.chance(70) else ""
            self.put(0, f"static {self.random.choice(TYPES)} {name}[{size}]{first};")
            self.arrays.append((name, size))
        for _ in range(self.random.randint(1, 4)):
            name = self.name("g")
            volatile = "volatile " if self.chance(15) else ""
            self.put(0, f"static {volatile}{self.random.choice(TYPES)} {name} = {self.random.randrange(50)};")
            self.variables.append(name)
        if self.chance(40):
            self.put(0, "static struct { uint8_t x; int16_t y; uint32_t z; } s;")
            self.variables += ["s.x", "s.y", "s.z"]

    def function(self) -> None:
        """A function of some arguments."""
        name, count = self.name("f"), self.random.randrange(4)
        arguments = [self.name("p") for _ in range(count)]
        heads = ", ".join(f"{self.random.choice(TYPES)} {it}" for it in arguments) or "void"
        outside = "__attribute__((noinline)) " if self.chance(30) else ""
        self.put(0, f"{outside}static {self.random.choice(TYPES)} {name}({heads}) {{")
        kept = list(self.variables), list(self.arrays)
        self.variables += arguments
        self.locals(1)
        self.statements(1, self.random.randint(1, 4), 2)
        self.put(1, f"return {self.expression(3)};")
        self.put(0, "}")
        self.variables, self.arrays = kept
        self.functions.append((name, count))

    def locals(self, depth: int) -> None:
        """Variables of a function."""
        for _ in range(self.random.randint(1, 5)):
            name = self.name("v")
            self.put(depth, f"{self.random.choice(TYPES)} {name} = {self.expression(1)};")
            self.variables.append(name)
        if self.chance(30):
            name, size = self.name("b"), self.random.choice(SIZES)
            self.put(depth, f"{self.random.choice(TYPES)} {name}[{size}] = {{{self.random.randrange(9)}}};")
            self.arrays.append((name, size))

    def thread(self) -> None:
        """The thread's function."""
        self.put(0, "THREAD main(void) {")
        if self.chance(50):
            self.locals(1)
        self.put(1, "for (;;) {")
        self.put(2, "sys_wait(CAP_BELL);")
        self.locals(2)
        self.statements(2, self.random.randint(3, 9), 3)
        for it in self.random.sample(self.variables, min(3, len(self.variables))):
            self.put(2, f"sys_put_char({it});")
        name, size = self.random.choice(self.arrays)
        self.put(2, f"for (int i = 0; i < {size}; i++)")
        self.put(3, f"sys_put_char({name}[i]);")
        self.put(2, "handler_ack(CAP_LINE);")
        self.put(1, "}")
        self.put(0, "}")

    def statements(self, depth: int, count: int, most: int) -> None:
        """Some statements, with others in them to some depth."""
        for _ in range(count):
            kind = self.random.randrange(100)
            if kind < 45 or most == 0:
                self.assignment(depth)
            elif kind < 60:
                self.put(depth, f"if ({self.condition()}) {{")
                self.statements(depth + 1, self.random.randint(1, 3), most - 1)
                if self.chance(40):
                    self.put(depth, "} else {")
                    self.statements(depth + 1, self.random.randint(1, 2), most - 1)
                self.put(depth, "}")
            elif kind < 82:
                self.loop(depth, most)
            elif kind < 90:
                self.switch(depth, most)
            else:
                self.put(depth, f"sys_put_char({self.expression(2)});")

    def loop(self, depth: int, most: int) -> None:
        """A loop that counts."""
        name, bound = self.name("i"), self.random.choice(SIZES)
        kind = self.random.randrange(4)
        kept = list(self.variables)
        if kind == 0:
            self.put(depth, f"for ({self.pick('int', 'uint32_t', 'unsigned')} {name} = 0; {name} < {bound}; {name}++) {{")
        elif kind == 1:
            self.put(depth, f"for (uint32_t {name} = 0; {name} < {bound}; {name} += {self.random.randint(1, 3)}) {{")
        elif kind == 2:
            self.put(depth, f"for (int {name} = {bound - 1}; {name} >= 0; {name}--) {{")
        else:
            limit = f"(uint32_t)({self.expression(1)}) % {bound}"
            self.put(depth, f"for (uint32_t {name} = 0, n = {limit}; {name} < n; {name}++) {{")
        self.counters.append((name, bound))
        self.statements(depth + 1, self.random.randint(1, 3), most - 1)
        if self.chance(25):
            self.put(depth + 1, f"if ({self.condition()})")
            self.put(depth + 2, self.pick("break;", "continue;"))
            self.assignment(depth + 1)
        self.counters.pop()
        self.put(depth, "}")
        self.variables = kept

    def switch(self, depth: int, most: int) -> None:
        """A switch of few cases."""
        self.put(depth, f"switch ({self.expression(1)} & 3) {{")
        for case in range(self.random.randint(2, 4)):
            self.put(depth, f"case {case}:")
            self.statements(depth + 1, 1, most - 1)
            if self.chance(85):
                self.put(depth + 1, "break;")
        self.put(depth, "}")

    def assignment(self, depth: int) -> None:
        """An assignment to a variable or an element; calls are made alone, since they change variables."""
        if self.functions and self.chance(15):
            self.put(depth, f"{self.random.choice(self.variables)} = {self.call()};")
            return
        self.put(depth, f"{self.place()} {self.pick('=', '=', '+=', '-=', '^=', '|=', '&=')} {self.expression(3)};")

    def place(self) -> str:
        """What can be assigned to."""
        if self.arrays and self.chance(40):
            return self.element()
        return self.random.choice(self.variables)

    def element(self) -> str:
        """An element of an array, with an index that is below its length."""
        name, size = self.random.choice(self.arrays)
        near = [it for it, bound in self.counters if bound <= size]
        if near and self.chance(70):
            return f"{name}[{self.random.choice(near)}]"
        if size & (size - 1) == 0 and self.chance(60):
            return f"{name}[({self.expression(1)}) & {size - 1}]"
        if self.chance(50):
            return f"{name}[below({size}, (uint32_t)({self.expression(1)}) % {size})]"
        return f"{name}[{self.random.randrange(size)}]"

    def condition(self) -> str:
        """A comparison."""
        return f"{self.expression(2)} {self.pick('<', '>', '==', '!=', '<=', '>=')} {self.expression(1)}"

    def expression(self, depth: int) -> str:
        """An expression without an effect."""
        kind = self.random.randrange(100)
        if depth == 0 or kind < 25:
            return self.leaf()
        if kind < 62:
            return f"({self.expression(depth - 1)} {self.pick('+', '-', '&', '|', '^')} {self.expression(depth - 1)})"
        if kind < 70:
            return f"({self.expression(depth - 1)} {self.pick('<', '==', '>=')} {self.leaf()})"
        if kind < 78:
            return f"((uint32_t)({self.expression(depth - 1)}) {self.pick('<<', '>>')} {self.random.randrange(1, 13)})"
        if kind < 84:
            return f"({self.expression(depth - 1)} * {self.random.randint(2, 9)})"
        if kind < 88:
            return f"((uint32_t)({self.expression(depth - 1)}) {self.pick('/', '%')} {self.random.randint(2, 30)}u)"
        if kind < 91:
            return f"((uint32_t)({self.leaf()}) * (uint32_t)({self.leaf()}))"
        return f"(~{self.leaf()})"

    def call(self) -> str:
        """A call of a function with simple arguments."""
        name, count = self.random.choice(self.functions)
        return f"{name}({', '.join(self.leaf() for _ in range(count))})"

    def leaf(self) -> str:
        """A constant, a variable, a counter or an element."""
        kind = self.random.randrange(100)
        if kind < 25 or not self.variables:
            return str(self.random.choice((0, 1, 2, 3, 7, 10, 100, 255, 1000, 70000)))
        if kind < 40 and self.counters:
            return self.random.choice(self.counters)[0]
        if kind < 60 and self.arrays:
            name, size = self.random.choice(self.arrays)
            near = [it for it, bound in self.counters if bound <= size]
            return f"{name}[{self.random.choice(near)}]" if near else f"{name}[{self.random.randrange(size)}]"
        return self.random.choice(self.variables)


def main(folder: str, first: str, count: str) -> None:
    """Writes the programs."""
    for seed in range(int(first), int(first) + int(count)):
        (Path(folder) / f"random_{seed}.c").write_text(Writer(seed).program())


if __name__ == "__main__":
    if len(sys.argv) != 4:
        sys.exit(__doc__)
    main(*sys.argv[1:])
