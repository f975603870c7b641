"""The bytes of an image from its text, by the text form and the format alone (docs/MANUAL.md), apart from the product.

It takes texts that are right: what a wrong one is refused for is not asked.
"""

import struct

KINDS = {name: number for number, name in enumerate("untyped tcb endpoint notification cnode frame table root".split(), 1)}
ALL_ONES = 2**32 - 1

ALU = {"add": (0, 0), "sub": (0, 32), "sll": (1, 0), "slt": (2, 0), "sltu": (3, 0), "xor": (4, 0), "srl": (5, 0), "sra": (5, 32), "or": (6, 0),
    "and": (7, 0)}
BRANCHES = {"beq": 0, "bne": 1, "blt": 4, "bge": 5, "bltu": 6, "bgeu": 7}
LOADS = {"lb": 0, "lh": 1, "lw": 2, "lbu": 4, "lhu": 5}
STORES = {"sb": 0, "sh": 1, "sw": 2}


def number(word):
    return int(word, 16 if word.lower().startswith("0x") else 10)


def register(word):
    return int(word[1:])


def words(*numbers):
    return struct.pack(f"<{len(numbers)}I", *(n & ALL_ONES for n in numbers))


def encoded(name, operands, point, labels):
    """The word of an instruction."""
    field = lambda value, bits, low=0: (value >> low) % 2**bits
    if name == "ecall":
        return 0x73
    if name in ("lui", "auipc"):
        return number(operands[1]) << 12 | register(operands[0]) << 7 | {"lui": 0x37, "auipc": 0x17}[name]
    if name == "jal":
        by = 4 * (labels[operands[1]] - point)
        return field(by, 1, 20) << 31 | field(by, 10, 1) << 21 | field(by, 1, 11) << 20 | field(by, 8, 12) << 12 | register(operands[0]) << 7 | 0x6F
    if name in BRANCHES:
        by = 4 * (labels[operands[2]] - point)
        high, low = field(by, 1, 12) << 31 | field(by, 6, 5) << 25, field(by, 4, 1) << 8 | field(by, 1, 11) << 7
        return high | register(operands[1]) << 20 | register(operands[0]) << 15 | BRANCHES[name] << 12 | low | 0x63
    if name in LOADS or name in STORES:
        by, base = operands[1].rstrip(")").split("(")
        by, base, other = number(by), register(base) << 15, register(operands[0])
        if name in LOADS:
            return field(by, 12) << 20 | base | LOADS[name] << 12 | other << 7 | 0x03
        return field(by, 7, 5) << 25 | other << 20 | base | STORES[name] << 12 | field(by, 5) << 7 | 0x23
    to, first = register(operands[0]) << 7, register(operands[1]) << 15
    if name in ALU:
        kind, high = ALU[name]
        return high << 25 | register(operands[2]) << 20 | first | kind << 12 | to | 0x33
    kind, high = ALU["sltu" if name == "sltiu" else name[:-1]]
    return (high << 25 | field(number(operands[2]), 12) << 20) | first | kind << 12 | to | 0x13


class Thread:
    """The lines of a thread, up to its end."""

    def __init__(self, operands, names):
        self.names = names
        tcb, cnode, guard, root, priority, budget, fault, self.entry, base = operands
        self.head = [names[tcb], names[cnode], number(guard), names[root], number(priority)], number(budget), [number(fault)], number(base)
        self.registers, self.code, self.labels, self.records, self.buffer = [], [], {}, [], None

    def line(self, first, rest):
        if first == "buffer":
            self.buffer = self.names[rest[0]]
        elif first.endswith(":"):
            self.labels[first[:-1]] = len(self.code)
            if rest:
                self.line(rest[0], rest[1:])
        elif first == "reg":
            self.registers.append((register(rest[0]), number(rest[1])))
        elif first == "measure":
            terms = sorted((register(rest[at]), number(rest[at + 1])) for at in range(1, len(rest), 2))
            self.records.append((len(self.code), number(rest[0]), [], [], terms))
        elif first == "range":
            self.records[-1][2].append((register(rest[0]), number(rest[1]), number(rest[2])))
        elif first == "slot":
            cnode, index, low, high, parent, place = rest
            above = (ALL_ONES, ALL_ONES) if parent == "boot" else (self.names[parent], number(place))
            self.records[-1][3].append((self.names[cnode], number(index), number(low), number(high), *above))
        else:
            self.code.append((first, rest))

    def spelled(self, version):
        first, budget, fault, base = self.head
        counts = len(self.registers), len(self.code), len(self.records)
        buffer = [ALL_ONES if self.buffer is None else self.buffer] if version >= 3 else []
        said = words(*first) + struct.pack("<Q", budget) + words(*fault, *buffer, self.labels[self.entry], base, *counts)
        for entry in sorted(self.registers):
            said += words(*entry)
        for point, (name, rest) in enumerate(self.code):
            said += words(number(rest[0]) if name == "word" else encoded(name, rest, point, self.labels))
        for point, constant, ranges, slots, terms in self.records:
            said += words(point, len(ranges), len(slots), len(terms)) + struct.pack("<q", constant)
            for entry in sorted(ranges) + sorted(slots) + terms:
                said += words(*entry)
        return said


def promised(content):
    """The badges, how many words are promised, and the range of each."""
    low, high, *ranges = map(number, content)
    return low, high, len(ranges) // 2, *ranges


def assembled(text):
    """The bytes of the image that a text describes."""
    names, lines, threads, thread = {}, {}, [], None
    declared = {kind: [] for kind in ("untyped", "object", "cap", "irq", "table", "map", "data", "promise")}
    for line in text.split("\n"):
        first, *rest = line.split("#")[0].replace("\t", " ").replace(",", " ").split() or [""]
        if thread is not None:
            if first == "end":
                threads.append(thread)
                thread = None
            elif first:
                thread.line(first, rest)
        elif first == "thread":
            thread = Thread(rest, names)
        elif first == "memory":
            memory = number(rest[0]), number(rest[1])
        elif first in ("untyped", "object"):
            names[rest[0]] = len(declared[first])
            size = number(rest[3]) if len(rest) > 3 else 0
            declared[first].append((names[rest[1]], KINDS[rest[2]], size) if first == "object" else (number(rest[1]), number(rest[2])))
        elif first == "irq":
            lines[rest[0]] = number(rest[1])
            declared["irq"].append((number(rest[1]), names[rest[2]], number(rest[3])))
        elif first:
            declared[first].append(rest)
    # a handler comes after the objects, by the order of the lines
    order = sorted(lines.values())
    source = lambda name: len(declared["object"]) + order.index(lines[name]) if name in lines else names[name]
    sections = [
        declared["untyped"],
        declared["object"],
        sorted((names[c], number(i), source(s), number(r), number(d)) for c, i, s, r, d in declared["cap"]),
        sorted(declared["irq"]),
        sorted((names[root], number(address), names[table]) for root, address, table in declared["table"]),
        sorted((names[root], number(address), names[frame], number(rights)) for root, address, frame, rights in declared["map"]),
        sorted((names[frame], len(content), *map(number, content)) for frame, *content in declared["data"]),
    ]
    # version 2 is the first that has promises, version 3 the first that has buffers, and version 4 the first that has device pages
    has_devices = any(entry[1:] == (KINDS["frame"], 1) for entry in declared["object"])
    version = 4 if has_devices else 3 if any(it.buffer is not None for it in threads) else 2 if declared["promise"] else 1
    if version > 1:
        sections.append(sorted((names[endpoint], *promised(content)) for endpoint, *content in declared["promise"]))
    said = b"MSYS" + words(version, *memory, *(len(section) for section in sections), len(threads))
    for section in sections:
        for entry in section:
            said += words(*entry)
    return said + b"".join(it.spelled(version) for it in threads)
