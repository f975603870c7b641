"""The variables of a linked program, as gcc describes them for debuggers: where each lies, and whether it is volatile."""

from __future__ import annotations

import re
from collections.abc import Iterator
from dataclasses import dataclass, field


@dataclass(frozen=True)
class Variable:
    """A variable that has one place: an address, or bytes above the frame of a function (`frame`, which is the value of
    the stack pointer where that is called)."""

    name: str
    function: str | None
    place: int
    size: int
    is_volatile: bool

    def at(self, frame: int) -> tuple[int, int]:
        """Its first address and the one after its last, with that frame."""
        start = self.place + (frame if self.function else 0)
        return start, start + self.size


@dataclass
class Entry:
    """An entry of the description: a kind, attributes, and what lies in it."""

    kind: str
    attributes: dict[str, str] = field(default_factory=dict)
    inside: list[Entry] = field(default_factory=list)

    @property
    def type_of(self) -> int | None:
        """The entry of its type."""
        found = re.fullmatch(r"<0x([0-9a-f]+)>.*", self.attributes.get("type", ""))
        return int(found[1], 16) if found else None

    def number(self, name: str) -> int:
        """An attribute that is a number, or 0."""
        found = re.match(r"(0x[0-9a-f]+|\d+)", self.attributes.get(name, ""))
        return int(found[1], 0) if found else 0

    @property
    def name(self) -> str:
        """The name, without what readelf says of where that lies."""
        return re.sub(r"^\(.*?\): ", "", self.attributes.get("name", "")).strip()


def variables_in(listed: str) -> list[Variable]:
    """The variables of what `readelf --debug-dump=info` lists."""
    entries, roots = read(listed)
    return [it for root in roots for it in found_in(root, None, entries)]


def read(listed: str) -> tuple[dict[int, Entry], list[Entry]]:
    """The entries by their numbers, and those that lie in no other."""
    entries: dict[int, Entry] = {}
    roots: list[Entry] = []
    above: list[Entry] = []
    for line in listed.split("\n"):
        if head := re.fullmatch(r" <(\w+)><(\w+)>: Abbrev Number: \d+ \((\w+)\)", line):
            depth, entry = int(head[1], 16), Entry(head[3].removeprefix("DW_TAG_"))
            del above[depth:]
            (above[-1].inside if above else roots).append(entry)
            above.append(entry)
            entries[int(head[2], 16)] = entry
        elif (row := re.fullmatch(r" +<\w+> +DW_AT_(\w+) *: (.*)", line)) and above:
            above[-1].attributes[row[1]] = row[2]
    return entries, roots


def found_in(entry: Entry, function: str | None, entries: dict[int, Entry]) -> Iterator[Variable]:
    """The variables that lie in an entry."""
    if entry.kind == "subprogram":
        function = entry.name or name_of(entry, entries)
    for it in entry.inside:
        if it.kind == "variable":
            yield from variable_of(it, function, entries)
        yield from found_in(it, function, entries)


def variable_of(it: Entry, function: str | None, entries: dict[int, Entry]) -> Iterator[Variable]:
    """The variable of an entry, if it has one place."""
    location = it.attributes.get("location", "")
    fixed = re.search(r"\(DW_OP_addr: ([0-9a-f]+)\)", location)
    above = re.search(r"\(DW_OP_fbreg: (-?\d+)\)", location)
    if fixed or above:
        is_volatile, size = shape_of(type_entry(it, entries), entries)
        place = int(fixed[1], 16) if fixed else int(above[1]) if above else 0
        yield Variable(name_of(it, entries), None if fixed else function, place, size, is_volatile)


def type_entry(it: Entry, entries: dict[int, Entry]) -> int | None:
    """The type of an entry, or of what it is an instance of."""
    return it.type_of if it.type_of is not None else (origin.type_of if (origin := origin_of(it, entries)) else None)


def origin_of(it: Entry, entries: dict[int, Entry]) -> Entry | None:
    """What an entry is an instance of, or completes."""
    for name in ("abstract_origin", "specification"):
        if found := re.fullmatch(r"<0x([0-9a-f]+)>.*", it.attributes.get(name, "")):
            return entries.get(int(found[1], 16))
    return None


def name_of(it: Entry, entries: dict[int, Entry]) -> str:
    """The name of an entry, or of what it is an instance of."""
    origin = origin_of(it, entries)
    return it.name or (name_of(origin, entries) if origin else "")


def shape_of(number: int | None, entries: dict[int, Entry]) -> tuple[bool, int]:
    """Whether some of a type is volatile, and how many bytes it takes."""
    it = entries.get(number) if number is not None else None
    if it is None:
        return False, 0
    if it.kind == "pointer_type":
        return False, 4
    within, size = shape_of(it.type_of, entries)
    is_volatile = within or it.kind == "volatile_type"
    for part in it.inside:
        if part.kind == "subrange_type":
            size *= part.number("upper_bound") + 1 if "upper_bound" in part.attributes else part.number("count")
        elif part.kind == "member":
            is_volatile = is_volatile or shape_of(part.type_of, entries)[0]
    return is_volatile, it.number("byte_size") or size
