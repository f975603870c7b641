"""How many pages programs from C take in a description, for the program itself, its data and its stack."""

from __future__ import annotations

import re
from dataclasses import dataclass

from description import PAGE
from faults import Fault, Place
from building import Built

# What a line says of sizes, in this order, and how many pages there are where it says nothing.
WORDS = {"pages": 1, "data": 0, "stack": 0}


@dataclass(frozen=True)
class ProgramLine:
    """A line `program FILE.c .. [checked] [pages N] [data N] [stack N]`."""

    files: list[str]
    said: dict[str, int]
    comment: str
    is_checked: bool


def program_line(line: str) -> ProgramLine | None:
    """The line, if it is one of that form."""
    text, mark, comment = line.partition("#")
    words = [word for word in re.split(r"[ \t,\r]+", text) if word]
    if words[:1] != ["program"]:
        return None
    files = [word for word in words[1:] if word.endswith(".c")]
    rest = words[1 + len(files) :]
    is_checked = "checked" in rest
    rest = [word for word in rest if word != "checked"]
    said = dict(zip(rest[::2], rest[1::2]))
    is_form = files and words[1 : 1 + len(files)] == files and 2 * len(said) == len(rest) and set(said) <= set(WORDS)
    if not is_form or not all(number.isdigit() for number in said.values()):
        return None
    return ProgramLine(files, {word: int(number) for word, number in said.items()}, mark + comment, is_checked)


@dataclass(frozen=True)
class Need:
    """What a program has of something, and how many pages that takes."""

    what: str
    pages: int


def needs_of(it: Built) -> dict[str, Need]:
    """What a program needs, by the words that say how many pages there are of it."""
    instructions, data, stack = len(it.program.lines), len(it.data), it.program.stack
    return {
        "pages": Need(f"{instructions} instructions", pages_of(4 * instructions)),
        "data": Need(f"{data} bytes of constants and variables", pages_of(data)),
        "stack": Need(f"{stack} bytes of stack", pages_of(stack)),
    }


def pages_of(count: int) -> int:
    """How many pages so many bytes take."""
    return -(-count // PAGE)


def said_in(content: str) -> dict[int, dict[str, int]]:
    """How many pages the lines `program` of a description say, by the numbers of the lines."""
    lines = enumerate(content.split("\n"), 1)
    return {number: {**WORDS, **line.said} for number, text in lines if (line := program_line(text))}


def checked_in(content: str) -> set[int]:
    """The numbers of the lines `program` that say `checked`."""
    lines = enumerate(content.split("\n"), 1)
    return {number for number, text in lines if (line := program_line(text)) and line.is_checked}


def with_sizes(content: str, sizes: dict[int, dict[str, int]]) -> str:
    """The description with these numbers of pages in its lines `program`, and without the word `checked`, which the program
    does not have."""
    lines = content.split("\n")
    for number, counts in sizes.items():
        if line := program_line(lines[number - 1]):
            words = [*line.files, *(f"{word} {count}" for word, count in counts.items())]
            lines[number - 1] = f"program {' '.join(words)} {line.comment}"
    return "\n".join(lines)


def grown(content: str, sizes: dict[int, dict[str, int]], programs: list[Built]) -> dict[int, dict[str, int]]:
    """How many pages each program is to have: as many as its line says, or else as there were, or more where these are
    too few."""
    lines = content.split("\n")
    larger = dict(sizes)
    for it in programs:
        place = it.thread.wanted.place if it.thread.wanted else it.thread.place
        if line := program_line(lines[place.line - 1]):
            needs, before = needs_of(it), sizes[place.line]
            check_said(line, needs, it.thread.name, place)
            larger[place.line] = {word: line.said.get(word, max(before[word], needs[word].pages)) for word in WORDS}
    return larger


def check_said(line: ProgramLine, needs: dict[str, Need], name: str, place: Place) -> None:
    """What a line says of sizes is enough."""
    for word, count in line.said.items():
        if count < needs[word].pages:
            wanted = f"say `{word} {needs[word].pages}`, or leave it out"
            raise Fault(place, f"`{word} {count}` is too little for {name}, which has {needs[word].what}: {wanted}")
