#!/usr/bin/env python3
"""The program for makers, with systems whose parts are in C.

    tools/make_system/microsys_tool WORD ..

Where a word of the program takes a system, and that has a part in C, the system is expanded, its programs are compiled
by tools/from_c, and the program gets the text. All else goes to the program as it is. docs/FROM_C.md has the whole.
"""

from __future__ import annotations

import os
import re
import subprocess
import sys
import tempfile
from collections.abc import Sequence
from dataclasses import dataclass, replace
from pathlib import Path

sys.dont_write_bytecode = True
sys.path.insert(0, str(Path(__file__).resolve().parents[1] / "from_c"))

import machine_code  # noqa: E402
from attempts import Certifier, accepted  # noqa: E402
from building import Built, Folder, built, written  # noqa: E402
from cases import certified, request_of, run_cases  # noqa: E402
from coverage import NotCovered, covered, put  # noqa: E402
from description import Description, read  # noqa: E402
from failed import failed_in, failed_over, put as put_failed, run_live, stops_of  # noqa: E402
from faults import Fault, Refused  # noqa: E402
from machine_code import NoCompiler  # noqa: E402
from sizes import checked_in, grown, said_in, with_sizes  # noqa: E402
from symbols import write_symbols  # noqa: E402

# Which of the words after each word of the program are systems, and how many there are at least and at most.
SYSTEMS = {
    "make": ((0,), 2, 2),
    "expand": ((0,), 2, 2),
    "certify": ((0,), 2, 2),
    "explain": ((0,), 1, 1),
    "draw": ((0,), 1, 1),
    "test": ((0,), 3, 3),
    "run": ((0,), 2, 2),
    "gdb": ((0,), 1, 2),
    "chart": ((1,), 2, 2),
    "diff": ((0, 1), 2, 2),
    "cover": ((0,), 2, 1000),
    "parts": ((0,), 1, 1),
    "response": ((0,), 1, 193),
    "alone": ((0,), 1, 66),
    "report": ((0,), 2, 1000),
}
# The words whose last file is written, and the one whose second file is.
WRITERS, REPORT = {"make", "expand", "certify", "alone"}, "report"
# The words that have one more after them.
OPTIONS = {"--from", "--to", "--bytes-of", "--info", "--part", "--rate", "-D"}
# What asks `make` for symbols; the file that gets them follows.
SYMBOLS = "--symbols"
STANDARD = "-"
# What asks `run` for other lines than those by names, and what has it run what is not accepted.
OTHER_LINES, UNVERIFIED = {"--plain", "--bytes", "--bytes-of", "--by-part"}, "--unverified"
# What debugs a system. It gets its certificates before, which are shown, and files are named from the folder in which it was started.
DEBUG = "gdb"
# With this word what is noted is refused.
STRICT = "--strict"
# What sources that are not named by a description end in: headers of C, and parts of others.
SUFFIXES = {".c", ".h"}
# What a description begins with.
DECLARATIONS = {"page", "device", "bell", "door", "promise", "let", "include", "part"}
PREFIX = "riscv64-unknown-elf-"
# In how many rounds the sizes of programs are found: an address may be longer to write than the last one.
ROUNDS = 8
REFUSED, USAGE, FAILED = 1, 2, 3


class Ended(Exception):
    """The program has said why it goes no further; its status."""

    def __init__(self, status: int) -> None:
        super().__init__()
        self.status = status


@dataclass(frozen=True)
class Source:
    """A system as it was given: the name by which it is reported, the folder that its files are named from, and what
    it says."""

    name: str
    folder: Path
    content: str

    @property
    def stem(self) -> str:
        """The name without its ending."""
        return Path(self.name).stem

    @property
    def is_description(self) -> bool:
        """Whether its name ends as that of one, or it begins as one does."""
        first = next((words for line in self.content.split("\n") if (words := words_of(line))), [""])
        return self.name.endswith(".sys") or first[0] in DECLARATIONS

    def files(self) -> list[Path]:
        """The file that it was read from, and those that it names, as far as there are such."""
        named = [word for line in self.content.split("\n") for word in words_of(line)[1:] if "." in word]
        return [self.folder / self.name, *(self.folder / word for word in named)]

    @property
    def has_c(self) -> bool:
        """Whether the program of a part is C."""
        return any(words_of(line)[:1] == ["program"] for line in self.content.split("\n"))


@dataclass(frozen=True)
class Text:
    """The text of a system, the notes on its description, and what to write where programs are certified in no way."""

    name: str
    content: str
    notes: str
    advice: str = ""


def words_of(line: str) -> list[str]:
    """The words of a line."""
    return [word for word in re.split(r"[ \t,\r]+", line.split("#")[0]) if word]


def program() -> str:
    """The program that this one stands before."""
    return os.environ["MICROSYS_TOOL"]


def source_of(name: str, given: bytes | None) -> Source | None:
    """The system of this name, or of what was read of standard input; nothing where the program is to say why it is none, or
    where it can be read but once."""
    try:
        if given is not None:
            return Source("stdin", Path(), given.decode())
        if not Path(name).is_file():
            return None
        return Source(Path(name).name, Path(name).parent, Path(name).read_text("utf-8"))
    except (OSError, UnicodeDecodeError):
        return None


def named_from(folder: Path, content: str) -> str:
    """The description with the files that it names as they are named from anywhere."""
    lines = content.split("\n")
    for number, line in enumerate(lines):
        words = words_of(line)
        if words[:1] == ["include"] and len(words) == 2:
            lines[number] = f"include {(folder / words[1]).absolute()}"
        elif words[:1] in (["page"], ["device"]) and "from" in words[2:-1]:
            file = (folder / words[-1]).absolute()
            lines[number] = " ".join([*words[:-1], str(file)])
    return "\n".join(lines)


def expanded(source: Source, content: str, room: Path, given: Sequence[str] = ()) -> Text:
    """The text of a description, by the program, with these numbers for its names."""
    described, name = f"{source.stem}.sys", f"{source.stem}.text"
    (room / described).write_text(named_from(source.folder, content), "utf-8")
    words = [program(), "expand", described, name, *(word for it in given if it[:1].islower() for word in ("-D", it))]
    ran = subprocess.run(words, cwd=room, stdout=subprocess.PIPE, text=True, check=False)
    if ran.returncode:
        raise Ended(ran.returncode)
    return Text(name, (room / name).read_text("utf-8"), ran.stdout)


class Grown(Exception):
    """Programs have become too large; how many pages they need."""

    def __init__(self, sizes: dict[int, dict[str, int]]) -> None:
        super().__init__()
        self.sizes = sizes


def compiled(source: Source, room: Path, given: Sequence[str] = ()) -> Text:
    """The text of a system, with its programs from C in their places."""
    folder = Folder(source.folder, PREFIX)
    if not source.is_description:
        described = read(source.content, source.name)
        programs = accepted(built(described, folder), described, folder, Certifier(program(), source.stem))
        return text_with(described, programs, Text(f"{source.stem}.text", source.content, ""))
    sizes = said_in(source.content)
    for _ in range(ROUNDS):
        text = expanded(source, with_sizes(source.content, sizes), room, given)
        try:
            return in_pages(source, sizes, text, folder)
        except Grown as larger:
            sizes = larger.sizes
    raise Fault(f"{source.stem}.sys", "its programs grow with their addresses: say `pages`, `data` and `stack`")


def in_pages(source: Source, sizes: dict[int, dict[str, int]], text: Text, folder: Folder) -> Text:
    """The text of a description, with programs that these numbers of pages are enough for."""
    described = read(text.content, text.name)
    for thread in described.threads:
        if thread.wanted and thread.wanted.place.line in checked_in(source.content):
            thread.wanted = replace(thread.wanted, is_checked=True)

    def fits(programs: list[Built]) -> None:
        needed = grown(source.content, sizes, programs)
        if needed != sizes:
            raise Grown(needed)

    programs = built(described, folder)
    fits(programs)
    return text_with(described, accepted(programs, described, folder, Certifier(program(), source.stem), fits), text)


def text_of(source: Source, room: Path, given: Sequence[str]) -> Text:
    """The text of a system, whether it has parts in C or not."""
    if source.has_c:
        return compiled(source, room, given)
    if source.is_description:
        return expanded(source, source.content, room, given)
    return Text(source.name, source.content, "")


def text_with(described: Description, programs: list[Built], text: Text) -> Text:
    """The text of a system with these programs in their places, and what is noted on them."""
    notes = "".join(f"{note}\n" for it in programs for note in it.notes)
    advice = "".join(f"{note}\n" for it in programs for note in it.advice)
    return Text(text.name, written(described, programs), text.notes + notes, advice)


def given_in(words: list[str]) -> tuple[list[str], list[str]]:
    """What is given for names, each as `NAME=NUMBER`, and the other words."""
    given, others, rest = [], [], iter(words)
    for word in rest:
        if word == "-D":
            given.append(next(rest, ""))
        elif word.startswith("-D"):
            given.append(word.removeprefix("-D"))
        else:
            others.append(word)
    return given, others


def places_of(words: list[str]) -> list[int]:
    """The places of the words that are files."""
    places: list[int] = []
    is_value = False
    for place, word in enumerate(words):
        if is_value:
            is_value = False
        elif word in OPTIONS:
            is_value = True
        elif word == STANDARD or not word.startswith("-"):
            places.append(place)
    return places


def systems_of(word: str, words: list[str]) -> list[int]:
    """The places of the words that are systems, or none where the words are for the program to judge."""
    if word not in SYSTEMS or "--help" in words or "-h" in words:
        return []
    which, least, most = SYSTEMS[word]
    places = places_of(words)
    return [places[it] for it in which] if least <= len(places) <= most else []


def run_on(word: str, words: list[str], texts: dict[int, Text], room: Path) -> int:
    """Has the program carry out a word on texts, which are written into the room. Files are named from there."""
    named = list(words)
    for place in places_of(words):
        if text := texts.get(place):
            named[place] = text.name if place == min(texts) else f"second_{text.name}"
            (room / named[place]).write_text(text.content, "utf-8")
            if word == DEBUG:
                named[place] = certified(program(), str(room / named[place]), room)
        elif words[place] != STANDARD:
            named[place] = str(Path(words[place]).absolute())
    command = [program(), word, *named]
    if word == "run" and STANDARD in words and not OTHER_LINES & set(words):
        status = run_live(command, room, [stop for it in texts.values() for stop in stops_of(it.content, it.name)])
    else:
        status = subprocess.run(command, cwd=None if word == DEBUG else room, check=False).returncode
    return status if status >= 0 else FAILED


def report_failed(word: str, words: list[str], texts: dict[int, Text], room: Path) -> None:
    """Reports which parts wait where an `assert` or a check of theirs failed, in a run over a list of events or in a trace."""
    [(system, text)] = texts.items()
    others = [words[place] for place in places_of(words) if place != system]
    if not others or others[0] == STANDARD or not Path(others[0]).is_file():
        return
    if word == "chart":
        lines = Path(others[0]).read_text("utf-8", errors="replace")
        put_failed(failed_in(stops_of(text.content, text.name), lines))
    else:
        put_failed(failed_over(program(), room, text.name, text.content, Path(others[0]), UNVERIFIED in words))


def check_target(word: str, target: str, sources: list[Source]) -> None:
    """What is written is to take the place of no source."""
    if word not in {*WRITERS, REPORT} or target == STANDARD or not Path(target).exists():
        return
    read_files = [path for it in sources for path in it.files()]
    if any(path.is_file() and path.samefile(target) for path in read_files) or Path(target).suffix in SUFFIXES:
        print(f"file {target}: it is one of the sources, which are not overwritten", file=sys.stderr)
        raise Ended(FAILED)


def put_text(text: Text, target: str) -> int:
    """Writes the text of a system where it is wanted, and puts the notes, as the program does."""
    if target == STANDARD:
        print(text.content, end="")
        print(text.notes, end="", file=sys.stderr)
        return 0
    Path(target).write_text(text.content, "utf-8")
    print(text.notes, end="")
    return 0


def test_cases(words: list[str]) -> int | None:
    """Runs the cases of a folder, where the words after `test` name one."""
    given, others = given_in(words)
    request = request_of(others)
    if request is None:
        return None
    source = source_of(request.system, None)
    with tempfile.TemporaryDirectory(prefix="microsys.") as room_name:
        room, system = Path(room_name), request.system
        if source and (source.has_c or source.is_description):
            text = text_of(source, room, given)
            system = str(room / text.name)
            Path(system).write_text(text.content, "utf-8")
            return run_cases(program(), system, request, lambda it: failed_over(program(), room, text.name, text.content, it, False))
        return run_cases(program(), system, request)


def option_in(option: str, words: list[str]) -> tuple[str | None, list[str]]:
    """The word after an option, if that is there, and the other words."""
    if option not in words[:-1]:
        return None, words
    at = words.index(option)
    return words[at + 1], words[:at] + words[at + 2 :]


def put_symbols(text: Text, source: Source, target: str) -> None:
    """Writes the files of symbols of a system, and puts their names where there is one for each part."""
    files = write_symbols(text.content, text.name, source.folder, Path(target), PREFIX)
    if files != [Path(target)]:
        print(f"symbols {' '.join(str(it) for it in files)}")


def carry_out(word: str, words: list[str], sources: dict[int, Source], symbols: str | None = None) -> int:
    """Carries out a word on systems that have parts in C, or whose symbols are wanted. Numbers that are given for names are for
    the compiler, too, and those of names that begin with a capital letter for it alone."""
    given, words = given_in(words)
    machine_code.FLAGS = (*machine_code.FLAGS, *(f"-D{it}" for it in given))
    target = words[places_of(words)[1 if word == REPORT else -1]]
    check_target(word, target, list(sources.values()))
    with tempfile.TemporaryDirectory(prefix="microsys.") as room_name:
        room = Path(room_name)
        sources = {place: source for place, source in zip(systems_of(word, words), sources.values())}
        texts = {place: text_of(source, room, given) for place, source in sources.items()}
        if STRICT in words and any(it.notes for it in texts.values()):
            print("".join(it.notes for it in texts.values()), end="", file=sys.stderr)
            return REFUSED
        if word == "expand":
            [text] = texts.values()
            return put_text(text, target)
        status = run_on(word, words, texts, room)
        if word in ("run", "test", "chart"):
            report_failed(word, words, texts, room)
        if status:
            print("".join(it.advice for it in texts.values()), end="", file=sys.stderr)
        notes = "".join(it.notes for it in texts.values()) if word == "make" and status == 0 else ""
        print(notes, end="", file=sys.stderr if target == STANDARD else sys.stdout)
        if symbols and status == 0:
            [(place, text)] = texts.items()
            put_symbols(text, sources[place], symbols)
        return status


def cover(words: list[str]) -> int:
    """Says what of a system ran over lists of events, and writes it for lcov where `--info FILE` says so."""
    info, words = option_in("--info", words)
    if len(words) < 2 or "--help" in words:
        print("usage: microsys_tool cover SYSTEM EVENTS .. [--info FILE]", file=sys.stderr)
        return 0 if "--help" in words else USAGE
    source = source_of(words[0], None)
    if source is None:
        print(f"file {words[0]}: no description and no text", file=sys.stderr)
        return FAILED
    with tempfile.TemporaryDirectory(prefix="microsys.") as room_name:
        room = Path(room_name)
        text = text_of(source, room, ())
        put(covered(program(), room, text.name, text.content, [Path(it) for it in words[1:]]), source.folder, info)
    return 0


def hand_over(words: list[str], given: bytes | None) -> int:
    """The program takes the place of this one, with the standard input that was read."""
    if given is not None:
        with tempfile.TemporaryFile() as kept:
            kept.write(given)
            kept.seek(0)
            os.dup2(kept.fileno(), 0)
    os.execv(program(), ["microsys_tool", *words])


def main(words: list[str]) -> int:
    """The command."""
    word, rest = (words[0], words[1:]) if words else ("", [])
    symbols, rest = option_in(SYMBOLS, rest) if word == "make" else (None, rest)
    places = systems_of(word, rest)
    given = sys.stdin.buffer.read() if any(rest[place] == STANDARD for place in places) else None
    found = {place: source_of(rest[place], given if rest[place] == STANDARD else None) for place in places}
    sources = {place: source for place, source in found.items() if source and (source.has_c or symbols or word == DEBUG)}
    try:
        if word == "cover":
            return cover(rest)
        if word == "test" and (status := test_cases(rest)) is not None:
            return status
        if not sources:
            return hand_over(words, given)
        return carry_out(word, rest, sources, symbols)
    except (Ended, NotCovered) as ended:
        return ended.status
    except Fault as fault:
        print(fault, file=sys.stderr)
        return 1
    except Refused:
        return 1
    except NoCompiler as missing:
        print(missing, file=sys.stderr)
        return FAILED
    except (BrokenPipeError, KeyboardInterrupt):
        return FAILED
    except OSError as error:
        print(f"file {error.filename}: {error.strerror}", file=sys.stderr)
        return FAILED


if __name__ == "__main__":
    sys.exit(main(sys.argv[1:]))
