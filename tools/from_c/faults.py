"""Places in sources, and what is said of them."""

from __future__ import annotations

from dataclasses import dataclass


@dataclass(frozen=True)
class Place:
    """A line of a file, from 1."""

    file: str
    line: int

    def __str__(self) -> str:
        return f"{self.file}:{self.line}"


@dataclass(frozen=True)
class Remark:
    """What the compiler says of a place: an error, a warning or a note."""

    place: Place
    kind: str
    text: str

    @property
    def is_error(self) -> bool:
        """Whether it stops the conversion."""
        return "error" in self.kind

    def __str__(self) -> str:
        return f"{self.place}: {self.kind}: {self.text}"


@dataclass(frozen=True)
class Note:
    """What is noted on a place of a source, and stops nothing."""

    place: Place | None
    text: str

    def __str__(self) -> str:
        return f"{self.place}: note: {self.text}"


class Refused(Exception):
    """What stops the conversion has been said."""


class Fault(Exception):
    """What stops the conversion: a place, and what is wrong there."""

    def __init__(self, place: Place | str | None, text: str) -> None:
        super().__init__(f"{place}: {text}")
        self.place = place
        self.text = text
