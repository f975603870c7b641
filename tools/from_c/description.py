"""The system that a text describes, as far as its threads' programs from C need it: what is mapped and named how.

The text is that of `microsys build`, with a line `program FILE.c .. [checked] [data ADDRESS] [stack ADDRESS]` in a
thread in the place of its instructions. A line that `microsys_tool expand` wrote names the line of the description that it comes from,
and what is said of it is said of that one.
"""

from __future__ import annotations

import re
from dataclasses import dataclass, field

from faults import Fault, Place

PAGE = 4096
WRITE, READ, EXECUTE = 1, 2, 4
# The comment of a line that comes from a description.
ORIGIN = re.compile(r"#[ \t]*(\S+\.sys):([0-9]+)[ \t\r]*$")
# How many empty slots have names.
FREE_SLOTS = 16
# The size of a frame that is a device page.
DEVICE_SIZE = 1
# The types that microsys.h has for slots. All other slots are numbers.
C_TYPES = {"notification": "bell", "endpoint": "door", "handler": "line"}


@dataclass(frozen=True)
class Mapped:
    """A page of an address space, and the line that says so."""

    frame: str
    rights: int
    line: int


@dataclass(frozen=True)
class Held:
    """A slot of a CNode: the object or handler that it names, with which rights, and the line that says so."""

    source: str
    rights: int
    line: int


@dataclass(frozen=True)
class Wanted:
    """A line `program`: its number in the text, its place, the files, the addresses of its data and of its stack's end,
    and whether indices are checked at run time."""

    number: int
    place: Place
    files: tuple[str, ...]
    data: int | None
    stack: int | None
    is_checked: bool = False


@dataclass
class Thread:
    """A thread whose program comes from C."""

    place: Place
    name: str
    cnode: str
    root: str
    entry: str
    base: int
    wanted: Wanted | None = None
    # The value of a line `reg x2`, and those of other lines `reg`.
    stack: int | None = None
    registers: dict[int, int] = field(default_factory=dict)
    # The frame of a line `buffer`, and the line.
    buffer: tuple[str, int] | None = None


@dataclass
class Description:
    """The lines of a text, and what was read of them."""

    lines: list[str]
    threads: list[Thread] = field(default_factory=list)
    pages: dict[str, dict[int, Mapped]] = field(default_factory=dict)
    slots: dict[str, dict[int, Held]] = field(default_factory=dict)
    kinds: dict[str, str] = field(default_factory=dict)
    # How many slots each CNode has.
    sizes: dict[str, int] = field(default_factory=dict)
    filled: set[str] = field(default_factory=set)
    # The lines of the device pages.
    devices: dict[str, int] = field(default_factory=dict)

    def names(self, thread: Thread) -> dict[str, str]:
        """The names that the thread's program may use, each with what it is in C: CAP_NAME, the slot of its CNode with
        the object or handler of that name, and PAGE_NAME, the address of the frame under its root table. What is there
        twice has none. The first slots that are empty are CAP_FREE_1 and so on, but where an object has such a name."""
        held = self.slots.get(thread.cnode, {})
        found: dict[str, list[str]] = {}
        for index, slot in held.items():
            found.setdefault(f"CAP_{slot.source.upper()}", []).append(self.in_c(slot.source, index))
        for address, page in self.pages.get(thread.root, {}).items():
            found.setdefault(f"PAGE_{page.frame.upper()}", []).append(number_in_c(address))
        free = [index for index in range(1, self.sizes.get(thread.cnode, 0)) if index not in held][:FREE_SLOTS]
        for number, index in enumerate(free, 1):
            found.setdefault(f"CAP_FREE_{number}", [number_in_c(index)])
        return {name: values[0] for name, values in found.items() if len(values) == 1}

    def in_c(self, source: str, index: int) -> str:
        """The slot of an object or handler as microsys.h has it: what is a bell is of another type than a door."""
        kind = C_TYPES.get(self.kinds.get(source, ""))
        return f"((struct {kind}){{{number_in_c(index)}}})" if kind else number_in_c(index)

    def bell(self, thread: Thread) -> int | None:
        """What a failed `assert` waits for: the slot of a notification that the thread may read, or else of an
        endpoint. Every thread that is accepted has one of them, since it waits."""
        for kind in ("notification", "endpoint"):
            for index, slot in sorted(self.slots.get(thread.cnode, {}).items()):
                if self.kinds.get(slot.source) == kind and slot.rights & READ:
                    return index
        return None

    def buffer(self, thread: Thread) -> int | None:
        """The lowest address at which the thread has its message buffer, if it has one there."""
        pages = self.pages.get(thread.root, {}).items()
        return min((address for address, page in pages if thread.buffer and page.frame == thread.buffer[0]), default=None)

    def definitions(self, thread: Thread) -> dict[str, str]:
        """All names that the thread's program is compiled with: those of the description, MICROSYS_BELL and
        MICROSYS_BUFFER."""
        own = {"MICROSYS_BELL": self.bell(thread), "MICROSYS_BUFFER": self.buffer(thread)}
        return {**self.names(thread), **{name: number_in_c(it) for name, it in own.items() if it is not None}}


def read(text: str, file: str) -> Description:
    """Reads a description."""
    described = Description(text.split("\n"))
    thread: Thread | None = None
    for number, line in enumerate(described.lines, 1):
        words = re.split(r"[ \t,]+", line.split("#")[0].strip(" \t\r,"))
        place = place_of(line, Place(file, number))
        try:
            if thread is None:
                thread = declaration(words, place, described)
            elif words[0] == "program":
                thread.wanted = wanted(words, number, place)
            elif words[0] == "reg" and words[1] == "x2":
                thread.stack = number_of(words[2])
            elif words[0] == "reg":
                thread.registers[int(words[1].removeprefix("x"))] = number_of(words[2]) & 0xFFFF_FFFF
            elif words[0] == "buffer":
                thread.buffer = words[1], place.line
            elif words[0] == "end":
                thread = None
        except (IndexError, ValueError) as error:
            raise Fault(place, f"not understood: {line.strip()}") from error
    return described


def place_of(line: str, place: Place) -> Place:
    """The place that a line is reported by: that of the description's line that it comes from, where its comment names
    one."""
    origin = ORIGIN.search(line)
    return Place(origin[1], int(origin[2])) if origin else place


def declaration(words: list[str], place: Place, described: Description) -> Thread | None:
    """Notes a line outside threads; the thread that it begins, if it begins one."""
    if words[0] == "map":
        page = Mapped(words[3], number_of(words[4]), place.line)
        described.pages.setdefault(words[1], {})[number_of(words[2])] = page
    elif words[0] == "cap":
        slot = Held(words[3], number_of(words[4]), place.line)
        described.slots.setdefault(words[1], {})[number_of(words[2])] = slot
    elif words[0] == "object":
        described.kinds[words[1]] = words[3]
        if words[3] == "cnode":
            described.sizes[words[1]] = 1 << number_of(words[4])
        if words[3] == "frame" and len(words) > 4 and number_of(words[4]) == DEVICE_SIZE:
            described.devices[words[1]] = place.line
    elif words[0] == "irq":
        described.kinds[words[1]] = "handler"
    elif words[0] == "data":
        described.filled.add(words[1])
    elif words[0] == "thread":
        thread = Thread(place, words[1], words[2], words[4], words[8], number_of(words[9]))
        described.threads.append(thread)
        return thread
    return None


def wanted(words: list[str], number: int, place: Place) -> Wanted:
    """Reads a line `program`."""
    files: list[str] = []
    addresses: dict[str, int] = {}
    is_checked = False
    rest = iter(words[1:])
    for word in rest:
        if word in ("data", "stack"):
            addresses[word] = number_of(next(rest, ""))
        elif word == "checked":
            is_checked = True
        else:
            files.append(word)
    if not files:
        raise Fault(place, "the line is `program FILE.c .. [checked] [data ADDRESS] [stack ADDRESS]`")
    if addresses.get("data", 0) % PAGE or addresses.get("stack", 0) % 16:
        raise Fault(place, "data begin at a multiple of 4096, and a stack ends at a multiple of 16")
    return Wanted(number, place, tuple(files), addresses.get("data"), addresses.get("stack"), is_checked)


def number_in_c(number: int) -> str:
    """A number as C has it."""
    return f"{number:#x}u"


def number_of(word: str) -> int:
    """A number of the text form."""
    return int(word, 16) if word[:2] in ("0x", "0X") else int(word)
