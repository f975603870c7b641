"""Where a thread's program, its data and its stack lie, and what must not lie there."""

from __future__ import annotations

from dataclasses import dataclass

from copying import LONGEST, Program
from description import EXECUTE, PAGE, READ, WRITE, Description, Thread
from faults import Fault, Place


@dataclass(frozen=True)
class Part:
    """Some bytes of a thread's address space: what they are for, the first address and the one after the last."""

    what: str
    start: int
    end: int

    @property
    def size(self) -> int:
        """How many bytes there are."""
        return self.end - self.start

    def __str__(self) -> str:
        return f"{self.what}, {self.size} bytes from {self.start:#x} to {self.end - 1:#x},"

    def pages(self) -> range:
        """The addresses of the pages that the bytes lie in."""
        return range(self.start // PAGE * PAGE, self.end, PAGE)


def check_code(thread: Thread, program: Program, described: Description) -> None:
    """The pages that the program lies in are mapped to execute."""
    length = len(program.lines)
    if length > LONGEST:
        raise Fault(thread.place, f"the program of {thread.name} has {length} instructions, and {LONGEST} are the most")
    part = Part(f"the program of {thread.name}", thread.base, thread.base + 4 * length)
    check_mapped(thread, part, EXECUTE, described)


def data_part(thread: Thread, size: int, described: Description) -> Part:
    """Where the constants and variables lie: in mapped pages that are the thread's alone. `program` has said where."""
    at = wanted_place(thread)
    start = thread.wanted.data if thread.wanted else None
    if size and start is None:
        what = f"the program of {thread.name} has {size} bytes of constants and variables"
        raise Fault(at, f"{what}: say `data ADDRESS` here")
    part = Part(f"the data of {thread.name}", start or 0, (start or 0) + size)
    check_mapped(thread, part, READ, described)
    check_alone(thread, part, described)
    return part


def stack_part(thread: Thread, size: int, described: Description) -> Part:
    """Where the stack lies: in mapped pages that are the thread's alone, below the address that `program` or a line
    `reg x2` has said."""
    at = wanted_place(thread)
    said = thread.wanted.stack if thread.wanted else None
    if said is not None and thread.stack is not None:
        raise Fault(at, f"the end of the stack is said here and by `reg x2 {thread.stack:#x}`: say it once")
    end = said if said is not None else thread.stack
    if size and end is None:
        what = f"the program of {thread.name} has {size} bytes of stack"
        raise Fault(at, f"{what}: say `stack ADDRESS` here, the address behind its last byte")
    part = Part(f"the stack of {thread.name}", (end or 0) - size, end or 0)
    if part.start < 0 and size:
        raise Fault(at, f"{part.what} has {size} bytes, and there are fewer below {part.end:#x}")
    check_mapped(thread, part, READ | WRITE, described)
    check_alone(thread, part, described)
    return part


def check_apart(thread: Thread, data: Part, stack: Part) -> None:
    """The stack does not reach into the data, nor the data into the stack."""
    if data.size and stack.size and data.start < stack.end and stack.start < data.end:
        advice = "end the stack further on, in a page of its own"
        raise Fault(wanted_place(thread), f"{data} and {stack} overlap: {advice}")


def check_mapped(thread: Thread, part: Part, rights: int, described: Description) -> None:
    """The pages of the part are mapped with the rights."""
    pages = described.pages.get(thread.root, {})
    for address in part.pages() if part.size else ():
        if address not in pages or pages[address].rights & rights != rights:
            line = f"`map {thread.root} {address:#x} FRAME {rights}`"
            whose = f"{part.what} from {part.start:#x} to {part.end - 1:#x}"
            raise Fault(thread.place, f"{line} is missing, for {whose}")


def check_alone(thread: Thread, part: Part, described: Description) -> None:
    """The frames of the part are mapped there alone, no thread can map them elsewhere, and neither messages nor words of
    the world are written there."""
    at = wanted_place(thread)
    for address in part.pages() if part.size else ():
        frame = described.pages[thread.root][address].frame
        advice = f"give {part.what} a frame of its own"
        if frame in described.devices:
            said = f"the device page of line {described.devices[frame]}"
            raise Fault(at, f"{part} and {said} share the frame {frame}: {advice}")
        for root, pages in described.pages.items():
            for other, page in pages.items():
                if page.frame == frame and (root, other) != (thread.root, address):
                    again = f"`map {root} {other:#x} {frame} {page.rights}` of line {page.line}"
                    raise Fault(at, f"{part} and {again} share the frame {frame}: {advice}")
        for cnode, slots in described.slots.items():
            for index, slot in slots.items():
                if slot.source == frame:
                    held = f"`cap {cnode} {index} {frame}` of line {slot.line}, which can be mapped elsewhere,"
                    raise Fault(at, f"{part} and {held} share the frame {frame}: {advice}")
        for other in described.threads:
            if other.buffer and other.buffer[0] == frame:
                said = f"`buffer {frame}` of line {other.buffer[1]}"
                raise Fault(at, f"{part} and {said} share the frame {frame}: {advice}")


def wanted_place(thread: Thread) -> Place:
    """The place of the thread's line `program`."""
    return thread.wanted.place if thread.wanted else thread.place
