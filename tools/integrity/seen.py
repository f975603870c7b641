"""What a record shows of a machine, and what an event changed of it."""

import functools
import os
import sys

HERE = os.path.dirname(os.path.realpath(__file__))
sys.path[:0] = [f"{HERE}/../damage", f"{HERE}/../traces"]
sys.dont_write_bytecode = True
from rules import ALL_ONES, CNODE, FRAME, unpacked  # noqa: E402

WRITE, READ, EXECUTE = 1, 2, 4
# an empty slot: no capability, and nothing that it was derived from
EMPTY = None, None


class Wrong(Exception):
    """Why an event is refused."""


@functools.lru_cache(maxsize=None)
def capability_of(first, second):
    """The capability of two words, or None where there is none."""
    if (first, second) == (0, 0):
        return None
    found = unpacked(first, second)
    if found is None:
        raise Wrong(f"no capability: {first:08x} {second:08x}")
    return found


def words_of(capability):
    """The two words of a capability."""
    if capability is None:
        return 0, 0
    kind, place, *rest = capability
    detail, second = (rest + [0, 0])[:2] if kind < 9 else (0, rest[0])
    if kind == FRAME:
        root, page, given = second or (0, 0, 0)
        return kind | detail << 4 | given << 9 | place // 16 << 12, second and 1 | root // 4096 << 1 | page << 13 or 0
    if kind in (2, 7, 8):
        return kind | place // 16 << 12, detail
    return kind | detail << 4 | place // 16 << 12, second


def slot_said(held):
    capability, parent = held
    first, second = words_of(capability)
    above = "- -" if parent is None else f"{parent[0]:08x} {parent[1]}"
    return f"{first:08x} {second:08x} {above}"


def slot_read(words):
    first, second, holder, index = words
    parent = None if holder == "-" else (int(holder, 16), int(index))
    return capability_of(int(first, 16), int(second, 16)), parent


def byte_said(byte):
    return "--" if byte is None else f"{byte:02x}"


def byte_read(word):
    return None if word == "--" else int(word, 16)


def read_line(line):
    """What a line says that has changed: each thing, with what it was and what it is."""
    kind, *words = line.split()
    if kind == "reg" and len(words) == 4:
        yield ("reg", int(words[0], 16), int(words[1])), int(words[2], 16), int(words[3], 16)
    elif kind == "slot" and len(words) == 10:
        yield ("slot", int(words[0], 16), int(words[1])), slot_read(words[2:6]), slot_read(words[6:])
    elif kind == "bytes" and len(words) == 4:
        for place in range(int(words[0], 16), int(words[0], 16) + int(words[1])):
            yield ("byte", place), byte_read(words[2]), byte_read(words[3])
    else:
        raise Wrong(f"no change: {line}")


def read_changes(lines):
    """All that some lines say has changed."""
    found = {}
    for line in lines:
        for key, old, new in read_line(line):
            if key in found or old == new:
                raise Wrong(f"said twice, or no change: {line}")
            found[key] = old, new
    return found


def said_changes(changes):
    """The lines that say so."""
    for key, (old, new) in changes.items():
        if key[0] == "reg":
            yield f"reg {key[1]:08x} {key[2]} {old:08x} {new:08x}"
        elif key[0] == "slot":
            yield f"slot {key[1]:08x} {key[2]} {slot_said(old)} {slot_said(new)}"
        else:
            yield f"bytes {key[1]:08x} 1 {byte_said(old)} {byte_said(new)}"


def blocks(lines):
    """The lines before the first event, and then each event's label with the lines of what it changed."""
    label, found = None, []
    for line in lines:
        if line.startswith("> "):
            yield label, found
            label, found = line[2:], []
        else:
            found.append(line)
    yield label, found


class View:
    """A machine as it was seen."""

    def __init__(self, size, threads):
        self.bytes = [None] * size
        self.slots = {}
        self.registers = {thread: [0] * 32 for thread in threads}
        self.mapped = None

    def now(self, key):
        """What is seen there."""
        if key[0] == "reg":
            return self.registers[key[1]][key[2]]
        return self.slots.get(key[1:], EMPTY) if key[0] == "slot" else self.bytes[key[1]]

    def take(self, changes):
        """Goes on to what is seen after some changes."""
        for key, (_, new) in changes.items():
            if key[0] == "reg":
                self.registers[key[1]][key[2]] = new
            elif key[0] == "byte":
                self.bytes[key[1]] = new
            elif new == EMPTY:
                self.slots.pop(key[1:], None)
            else:
                self.slots[key[1:]] = new
            if key[0] == "slot":
                self.mapped = None

    def held(self, slot):
        """The capability that a slot holds."""
        return self.slots.get(slot, EMPTY)[0]

    def pages(self):
        """The pages that capabilities map: the frame and the rights, by root table and number."""
        if self.mapped is None:
            found = (capability for capability, _ in self.slots.values() if capability[0] == FRAME and capability[3])
            self.mapped = {mapping[:2]: (place, mapping[2]) for _, place, _, mapping in found}
        return self.mapped

    def place_of(self, root, address, right):
        """Where a byte is in memory that a thread with this root table reaches with a right."""
        address &= ALL_ONES
        frame, rights = self.pages().get((root, address >> 12), (0, 0))
        if not rights & right:
            raise Wrong(f"{address:08x} is not mapped with right {right} under {root:08x}")
        return frame + address % 4096

    def load(self, root, address, width, right=READ):
        return sum(self.bytes[self.place_of(root, address + at, right)] << 8 * at for at in range(width))

    def lookup(self, thread, address, depth=32, node=None):
        """The slot that an address names, from the thread's CNode or from this one."""
        node, bits = node or self.held((thread, 0)), depth
        while True:
            _, offset, radix, guard = node
            size = guard & 31
            if size + radix > bits or (address >> (bits - size)) & (2**size - 1) != guard >> 5:
                raise Wrong(f"{address:08x} names no slot")
            bits -= size + radix
            slot = offset, (address >> bits) & (2**radix - 1)
            held = self.held(slot)
            if bits == 0 or held is None or held[0] != CNODE:
                return slot
            node = held
