"""A system that runs while Python is the world outside of it."""

from __future__ import annotations

import os
import re
import shutil
import subprocess
import tempfile
from pathlib import Path
from types import TracebackType
from typing import Iterable, Iterator, NoReturn, Sequence

# What an image begins with.
MAGIC = b"MSYS"
# How many steps one line asks for at most, and how many words a page has.
MOST_STEPS, PAGE_WORDS = 1_000_000, 1024
# How many lines are asked before they are answered: so many answers fit into the smallest pipe, of a page, and the
# program never waits to be read while it is written to.
AT_ONCE = 128
READ_SIZE = 1 << 16
# What the last line begins with where the program goes no further.
LAST_WORDS = re.compile(rb"(source|refused|boot|events) [^\n]*\n\Z")
# Where programs are in a folder that this module is in: as they are installed, or in the repository.
PLACES = {"microsys": ("bin", "crates/microsys/out"), "microsys_tool": ("bin", "tools/make_system")}
PUT = re.compile(rb" byte ([0-9a-f]{2})\n")
# The type, in a class that has a property of this name.
Bytes = bytes


class Ended(Exception):
    """The program goes no further.

    `words` are its own: `refused 20 MeasureNotFalling 0 2` where the image is not accepted, `events line 7` where the
    seventh event is malformed or outside of the device pages, what it said on standard error, or nothing where it was
    stopped. `status` is that of the program, below 0 where a signal stopped it.
    """

    def __init__(self, words: str, status: int) -> None:
        super().__init__(words or f"the program is gone: status {status}")
        self.words = words
        self.status = status


class System:
    """A system that runs over a pipe.

    `path` is an image, or a text or description whose device pages and interrupts have names; parts in C need the
    compiler (docs/FROM_C.md). `command` is what runs it, without its words `run PATH -`: a list, or the path of a
    program. Without it that is `microsys` for images and `microsys_tool` for all else: as the variables MICROSYS and
    MICROSYS_TOOL name them, as they are built or installed beside this module, or as they are found in PATH.

    A page is named, or given by its physical address, which `microsys_tool list` prints. Words are below 2^32.

    Each call raises `Ended` where the program goes no further, and ValueError where what it is given is out of range.
    """

    def __init__(self, path: str | os.PathLike[str], command: str | os.PathLike[str] | Sequence[str] | None = None) -> None:
        words = _command(Path(path), command)
        self._last = b""
        self._put = bytearray()
        self._errors = tempfile.TemporaryFile()
        try:
            self._program = subprocess.Popen(words, stdin=subprocess.PIPE, stdout=subprocess.PIPE, stderr=self._errors, bufsize=0)
        except BaseException:
            self._errors.close()
            raise
        assert self._program.stdin and self._program.stdout
        self._input, self._output = self._program.stdin, self._program.stdout

    def __enter__(self) -> System:
        return self

    def __exit__(self, kind: type[BaseException] | None, error: BaseException | None, trace: TracebackType | None) -> None:
        if kind is None:
            self.close()
        else:
            self._stop()

    # ---- events

    def step(self, count: int = 1) -> list[str]:
        """Makes so many steps, and gives their lines of the trace."""
        if count < 0:
            raise ValueError(f"{count} steps")
        self._begin()
        for steps in _parts(count):
            self._ask([f"step {steps}"], steps)
        return self.lines

    def settle(self, most: int = MOST_STEPS) -> bool:
        """Makes steps until no thread is left to run, but at most so many; whether none is left."""
        if most < 1:
            raise ValueError(f"{most} steps")
        self._begin()
        for steps in _parts(most):
            if self._ask([f"settle {steps}"], steps, may_settle=True):
                return True
        return False

    def tick(self) -> None:
        """A tick of the clock by which threads of one priority take turns."""
        self._begin()
        self._ask(["tick"], 1)

    def irq(self, line: int | str) -> None:
        """Raises an interrupt, by the number of its line, 0 to 63, or by its name."""
        if not _is_name(line) if isinstance(line, str) else not 0 <= line < 64:
            raise ValueError(f"line {line!r}")
        self._begin()
        self._ask([f"irq {line}"], 1)

    def write(self, page: int | str, index: int, word: int) -> None:
        """Writes a word of a device page, by its number in the page, 0 to 1023."""
        self.write_words(page, index, [word])

    def write_words(self, page: int | str, index: int, words: Iterable[int]) -> None:
        """Writes words of a device page that follow each other."""
        words = list(words)
        for word in words:
            if not 0 <= word < 2**32:
                raise ValueError(f"word {word}")
        self._ask_all([f"write {place} {word}" for place, word in zip(_places(page, index, len(words)), words)])

    def read(self, page: int | str, index: int) -> int:
        """The word of a device page, by its number in the page, 0 to 1023."""
        return self.read_words(page, index, 1)[0]

    def read_words(self, page: int | str, index: int, count: int) -> list[int]:
        """So many words of a device page, from one on."""
        self._ask_all([f"read {place}" for place in _places(page, index, count)])
        # the words of each line are `read`, the address and the word
        return [int(word, 16) for word in self._last.split()[2::3]]

    # ---- what was seen

    @property
    def lines(self) -> list[str]:
        """The lines of the trace that the last call gave."""
        return self._last.decode().splitlines()

    @property
    def bytes(self) -> Bytes:
        """What threads have put by PutChar since the start, or since `take`."""
        return bytes(self._put)

    @property
    def last_bytes(self) -> Bytes:
        """What threads have put in the last call."""
        return _put_in(self._last)

    def take(self) -> Bytes:
        """What threads have put since the last `take`, which is kept no longer."""
        taken = bytes(self._put)
        self._put.clear()
        return taken

    def close(self) -> None:
        """Ends the run. Raises `Ended` where the program had ended before, or does not end well."""
        if self._errors.closed:
            return
        try:
            self._input.close()
            rest = self._output.read()
            if self._program.wait() != 0:
                self._fail(rest)
        finally:
            self._stop()

    # ---- the pipe

    def _begin(self) -> None:
        """A call begins: what the last one gave is forgotten."""
        if self._errors.closed:
            raise Ended("the run is closed", 0)
        self._last = b""

    def _ask_all(self, asked: list[str]) -> None:
        """Asks for events that have a line each."""
        self._begin()
        for first in range(0, len(asked), AT_ONCE):
            part = asked[first:first + AT_ONCE]
            self._ask(part, len(part))

    def _ask(self, asked: list[str], count: int, may_settle: bool = False) -> bool:
        """Asks for events, and takes up their lines: so many, or up to the first `idle`; whether that came."""
        try:
            answer = self._answer(asked, count, may_settle)
        except BaseException:
            # half an answer is no answer: who interrupts a call ends the run
            self._stop()
            raise
        self._last += answer
        self._put += _put_in(answer)
        return answer.endswith(b"idle\n")

    def _answer(self, asked: list[str], count: int, may_settle: bool) -> Bytes:
        """Writes lines of events, and reads those of their answers."""
        data = memoryview("".join(f"{line}\n" for line in asked).encode())
        try:
            while data:
                data = data[self._input.write(data):]
        except BrokenPipeError:
            self._fail(self._output.read())
        found, left = bytearray(), count
        while left > 0 and not (may_settle and found.endswith(b"idle\n")):
            part = self._output.read(READ_SIZE)
            if not part:
                self._fail(bytes(found))
            left -= part.count(b"\n")
            found += part
        answer = bytes(found)
        if LAST_WORDS.search(answer[-256:]):
            self._fail(answer)
        return answer

    def _fail(self, said: Bytes) -> NoReturn:
        """The program has ended, or is about to: raises its words."""
        self._input.close()
        said += self._output.read()
        status = self._program.wait()
        last = LAST_WORDS.search(said)
        self._errors.seek(0)
        words = [it.decode(errors="replace").strip() for it in (last[0] if last else b"", self._errors.read())]
        self._stop()
        raise Ended("\n".join(it for it in words if it), status)

    def _stop(self) -> None:
        """Stops the program where it still runs."""
        if self._errors.closed:
            return
        for end in (self._input, self._output):
            end.close()
        if self._program.poll() is None:
            self._program.kill()
            self._program.wait()
        self._errors.close()


def _command(path: Path, command: str | os.PathLike[str] | Sequence[str] | None) -> list[str]:
    """The words that run a system."""
    with open(path, "rb") as file:
        is_image = file.read(len(MAGIC)) == MAGIC
    if command is None:
        command = _program("microsys" if is_image else "microsys_tool")
    words = [os.fspath(command)] if isinstance(command, (str, os.PathLike)) else list(command)
    return [*words, "run", str(path), "-", *([] if is_image else ["--plain"])]


def _program(name: str) -> str:
    """Where a program is. Beside this module `microsys_tool` is the script that compiles parts in C, which calls the
    program that MICROSYS_TOOL names."""
    beside = [folder / place / name for folder in Path(__file__).resolve().parents for place in PLACES[name]]
    named = [Path(os.environ[name.upper()])] if name.upper() in os.environ else []
    for place in [*named, *beside] if name == "microsys" else [*beside, *named]:
        if place.is_file() and os.access(place, os.X_OK):
            return str(place)
    found = shutil.which(name)
    if found is None:
        raise FileNotFoundError(f"{name} is not there: name it by {name.upper()}, or put its folder into PATH")
    return found


def _parts(steps: int) -> Iterator[int]:
    """Steps in parts of which a line can ask."""
    while steps > 0:
        yield min(steps, MOST_STEPS)
        steps -= MOST_STEPS


def _places(page: int | str, index: int, count: int) -> list[str]:
    """How events name so many words of a device page, from one on."""
    if not 0 <= index <= index + count <= PAGE_WORDS:
        raise ValueError(f"words {index} to {index + count - 1} of a page of {PAGE_WORDS}")
    if isinstance(page, str):
        if not _is_name(page):
            raise ValueError(f"page {page!r}")
        return [f"{page} {at}" for at in range(index, index + count)]
    if page % 4 or not 0 <= page <= 2**32 - 4 * (index + count):
        raise ValueError(f"address {page:#x}")
    return [f"{at:#x}" for at in range(page + 4 * index, page + 4 * (index + count), 4)]


def _is_name(name: str) -> bool:
    """Whether it is one word of a line."""
    return re.fullmatch(r"[^\s#]+", name) is not None


def _put_in(lines: bytes) -> bytes:
    """What threads put, by lines of the trace."""
    return bytes.fromhex(b"".join(PUT.findall(lines)).decode()) if b" byte " in lines else b""
