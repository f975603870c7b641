"""The programs that a description wants, compiled and put in line, and its text with these in their places."""

from __future__ import annotations

import struct
import tempfile
from dataclasses import dataclass, replace
from pathlib import Path

from copying import Program, Returned, program_of
from description import PAGE, Description, Thread, Wanted
from faults import Fault, Note
from layout import Part, check_apart, check_code, data_part, stack_part, wanted_place
from lines import Line, with_stop, within_reach
from turns import NoRegister, with_turns
from machine_code import Linked, NoCompiler, Order, compile_and_link, return_of

# Registers that gcc leaves for counters, where they need more than are unused.
RESERVED = ("-ffixed-t3", "-ffixed-t4", "-ffixed-t5", "-ffixed-t6")


@dataclass(frozen=True)
class Built:
    """A thread's program, compiled and put in line, what is noted on it, and what to write where it is certified in no
    way."""

    thread: Thread
    program: Program
    linked: Linked
    notes: tuple[Note, ...] = ()
    advice: tuple[Note, ...] = ()

    @property
    def data(self) -> bytes:
        """Its constants and variables."""
        return self.linked.data

    def with_lines(self, lines: list[Line], notes: tuple[Note, ...] = ()) -> Built:
        """The same with other instructions and further notes."""
        return replace(self, program=replace(self.program, lines=lines), notes=self.notes + notes)


@dataclass(frozen=True)
class Folder:
    """Where sources are, and what the names of gcc's programs begin with."""

    path: Path
    prefix: str


def built(described: Description, folder: Folder) -> list[Built]:
    """The programs that the description wants."""
    return [program_in(it, it.wanted, described, folder) for it in described.threads if it.wanted]


def program_in(thread: Thread, wanted: Wanted, described: Description, folder: Folder, flags: tuple[str, ...] = ()) -> Built:
    """The program of a thread, compiled with these flags, too."""
    sources = tuple(folder.path / name for name in wanted.files)
    order = Order(sources, thread.entry, wanted.data, described.definitions(thread), wanted.place, flags)
    with tempfile.TemporaryDirectory() as room:
        linked = compile_and_link(order, Path(room), folder.prefix)
        try:
            program = program_of(linked, thread.entry)
        except Returned as fault:
            begin = linked.functions[linked.addresses[thread.entry]].body[0].place
            raise Fault(return_of(order, begin, fault.place, Path(room), folder.prefix), fault.text) from fault
    try:
        lines, notes = with_turns(program.lines, set(thread.registers))
    except NoRegister:
        if set(RESERVED) <= set(flags):
            raise
        return program_in(thread, wanted, described, folder, (*flags, *RESERVED))
    return Built(thread, replace(program, lines=lines), linked, tuple(notes))


def written(described: Description, programs: list[Built]) -> str:
    """The text of a description with these programs in their places."""
    filled = set(described.filled)
    placed = {it.thread.wanted.number: lines_of(it, described, filled) for it in programs if it.thread.wanted}
    lines: list[str] = []
    contents: list[str] = []
    for number, line in enumerate(described.lines, 1):
        if number in placed:
            lines += [it for it in placed[number] if not it.startswith("data ")]
            contents += [it for it in placed[number] if it.startswith("data ")]
        else:
            lines.append(line)
            if contents and line.split("#")[0].strip() == "end":
                lines, contents = lines + contents, []
    return "\n".join(lines)


def lines_of(it: Built, described: Description, filled: set[str]) -> list[str]:
    """The lines of a thread's program, and those of its data, whose frames are filled with them."""
    program = placed_program(it, described)
    check_code(it.thread, program, described)
    data = data_part(it.thread, len(it.data), described)
    stack = stack_part(it.thread, it.program.stack, described)
    check_apart(it.thread, data, stack)
    begins = [f"reg x2 {stack.end:#x}"] if stack.size and it.thread.stack is None else []
    return [*begins, *(line.text() for line in program.lines), *data_lines(it, data, described, filled)]


def placed_program(it: Built, described: Description) -> Program:
    """The program as it is written: what a failed check leads to is there, and branches reach where they lead."""
    lines = [replace(line, labels=list(line.labels), origin=number) for number, line in enumerate(it.program.lines)]
    return replace(it.program, lines=within_reach(with_stop(lines, described.bell(it.thread))))


def data_lines(it: Built, part: Part, described: Description, filled: set[str]) -> list[str]:
    """The lines `data` of the frames that constants and variables lie in."""
    lines: list[str] = []
    for address in part.pages() if it.data else ():
        frame = described.pages[it.thread.root][address].frame
        bytes_of_page = it.data[address - part.start :][:PAGE].rstrip(b"\0")
        words = struct.unpack(f"<{-(-len(bytes_of_page) // 4)}I", bytes_of_page + bytes(-len(bytes_of_page) % 4))
        if frame in filled:
            advice = "give each thread frames of its own for its data"
            raise Fault(wanted_place(it.thread), f"the frame {frame} has data already: {advice}")
        filled.add(frame)
        if words:
            lines.append(f"data {frame} " + " ".join(f"{word:#x}" for word in words))
    return lines
