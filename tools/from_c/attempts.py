"""Ways to compile a program until it is certified: as it is, and then by passes and flags that leave more to be seen.

The first way that the certifier takes is the one, so what is accepted as it is stays as it is. Whatever comes of it, the
verifier sees instructions: nothing rests on what is done here, but that the program does what its C says.
"""

from __future__ import annotations

import re
import subprocess
import tempfile
from collections.abc import Callable, Generator, Iterator
from dataclasses import dataclass, replace
from pathlib import Path

from advice import Refused, advice_on, sources_of
from analysis import Memory, Region
from building import RESERVED, Built, Folder, placed_program, program_in, written
from checks import with_checks
from description import Description, Thread
from lines import Line, with_stop
from ranges import operation
from rewriting import SCRATCH
from turns import with_found_turns
from variables import Variable
from words import Setting, analysed, with_guards, with_known_words

# How often checks and counters are put into a program before a way is given up, and how many counters at once.
ROUNDS, MOST_LOOPS = 12, 8
# What is said in the place of a rule where more can be wrong than is said.
MORE = "More"
# Remainders are shown to be below their divisors, by a test.
SHOWN = ("-DMICROSYS_SHOWN_REMAINDERS",)
KEEP_LOOPS = (*SHOWN, "-fno-move-loop-invariants")
# What else keeps values near their use; it costs instructions.
KEEP_MORE = (*KEEP_LOOPS, "-fno-tree-pre", "-fno-gcse", "-fno-tree-loop-im", "-fno-tree-dominator-opts", "-fno-cse-follow-jumps")


@dataclass(frozen=True)
class Way:
    """A way to compile: gcc's flags, and whether words of memory whose value is known become constants and registers,
    and whether the ranges of others are kept."""

    flags: tuple[str, ...] = ()
    knows_words: bool = False
    keeps_ranges: bool = False


WAYS = (
    Way(),
    Way(KEEP_LOOPS),
    Way(KEEP_LOOPS, True),
    Way(SHOWN, True),
    Way(SHOWN, True, True),
    Way(KEEP_LOOPS, True, True),
    Way((*SHOWN, *RESERVED), True, True),
    Way((*KEEP_LOOPS, *RESERVED), True, True),
    Way((*KEEP_MORE, *RESERVED), True, True),
)


@dataclass(frozen=True)
class Refusal:
    """A line of a thread's program that is refused, by its number, and the rule."""

    thread: str
    line: int
    rule: str


@dataclass(frozen=True)
class Certifier:
    """The program that certifies, and the name that texts have."""

    program: str
    stem: str

    def refusals(self, text: str) -> list[Refusal]:
        """What is refused of a text; nothing where it is certified."""
        with tempfile.TemporaryDirectory() as room:
            name = f"{self.stem}.text"
            (Path(room) / name).write_text(text, "utf-8")
            words = [self.program, "certify", name, "certified"]
            said = subprocess.run(words, cwd=room, capture_output=True, text=True, check=False).stderr
        places = points_of(text)
        found = re.findall(rf"^(?:\S+: )?{re.escape(name)}:(\d+): (\w+): thread (\w+)", said, re.MULTILINE)
        return [Refusal(thread, places.get(int(line), -1), rule) for line, rule, thread in found]


def points_of(text: str) -> dict[int, int]:
    """The numbers of instructions within their programs, by the lines of a text."""
    points: dict[int, int] = {}
    count: int | None = None
    for number, line in enumerate(text.split("\n"), 1):
        words = line.split("#")[0].split()
        if words[:1] == ["thread"]:
            count = 0
        elif words[:1] == ["end"]:
            count = None
        elif count is not None and words and words[0] not in ("reg", "buffer", "data", "program") and words[0][-1] != ":":
            points[number] = count
            count += 1
    return points


Attempt = Generator[Built, list[Refusal], Built]


def accepted(
    programs: list[Built],
    described: Description,
    folder: Folder,
    certifier: Certifier,
    fits: Callable[[list[Built]], None] = lambda _: None,
) -> list[Built]:
    """The programs in the first ways in which all are certified; of one that is certified in no way, the one in which the
    least is refused. `fits` may end this where a program has become too large."""
    attempts = {it.thread.name: attempts_at(it, described, folder) for it in programs}
    current = {name: next(it) for name, it in attempts.items()}
    while attempts:
        fits(list(current.values()))
        refused = certifier.refusals(written(described, list(current.values())))
        names = {it.thread for it in refused} & set(attempts)
        if not names:
            break
        for name in names:
            try:
                current[name] = attempts[name].send(at_origins(refused, current[name], described))
            except StopIteration as ended:
                current[name] = ended.value
                del attempts[name]
    return list(current.values())


def attempts_at(plain: Built, described: Description, folder: Folder) -> Attempt:
    """The ways to compile a program, one after another: it is given what of each is refused."""
    wanted = plain.thread.wanted
    least, best = list[Refusal](), plain
    compiled: dict[tuple[str, ...], Built] = {(): plain}
    if not has_scratch(plain.program.lines):
        yield plain
        return plain
    for way in WAYS:
        if way.flags not in compiled and wanted:
            compiled[way.flags] = program_in(plain.thread, wanted, described, folder, way.flags)
        it, before = in_way(compiled[way.flags], way, described), None
        for _ in range(ROUNDS):
            said = yield it
            if not least or len(said) < len(least):
                least, best = said, it
            mended = mended_at(it, said, described) if goes_on(before, said) else None
            if mended is None:
                break
            it, before = mended, said
    found = [(refusal.line, refusal.rule) for refusal in least]
    text_at, is_checked = sources_of(folder, wanted.files if wanted else ()), wanted is not None and wanted.is_checked
    refused = Refused(best.program.lines, found, setting_of(best, described), names_in(best), text_at, is_checked)
    return replace(best, advice=advice_on(refused))


def goes_on(before: list[Refusal] | None, said: list[Refusal]) -> bool:
    """Whether a way is followed further: less is refused than before, or more than is said."""
    return before is None or len(said) < len(before) or any(it.rule == MORE for it in said)


def at_origins(refused: list[Refusal], it: Built, described: Description) -> list[Refusal]:
    """What is refused of a program by the numbers of its lines, where the text has more of them: branches that lead far take two."""
    placed = placed_program(it, described).lines
    own = [refusal for refusal in refused if refusal.thread == it.thread.name]
    return [replace(refusal, line=origin_of(refusal.line, placed)) for refusal in own]


def origin_of(number: int, placed: list[Line]) -> int:
    """The number of the line that a line of the text is of; -1 where there is none."""
    origin = placed[number].origin if 0 <= number < len(placed) else None
    return -1 if origin is None else origin


def has_scratch(lines: list[Line]) -> bool:
    """Whether the register is free that limits are put into; gcc uses it in no program, but an `asm` may."""
    return all(SCRATCH not in (it.rd, it.rs1, it.rs2) for it in (operation(line.words) for line in lines))


def in_way(it: Built, way: Way, described: Description) -> Built:
    """The program as a way has it."""
    lines, setting = it.program.lines, setting_of(it, described)
    if way.knows_words:
        lines = with_known_words(stopped(lines, setting), setting)
    if way.keeps_ranges:
        lines = with_guards(lines, setting)
    return it.with_lines(stopped(lines, setting))


def mended_at(it: Built, refused: list[Refusal], described: Description) -> Built | None:
    """The program with counters for loops that are refused, and with checks where loads and stores are; nothing where
    neither helps."""
    setting, wanted = setting_of(it, described), it.thread.wanted
    lines = stopped(it.program.lines, setting)
    turns = [refusal.line for refusal in refused if refusal.rule == "NoMeasure" and refusal.line >= 0]
    loads = sorted({refusal.line for refusal in refused if refusal.rule == "NotMapped" and refusal.line >= 0})
    is_counted = False
    for _ in range(MOST_LOOPS if turns else 0):
        counted = with_found_turns(lines, turns, analysed(lines, setting), set(setting.registers))
        if counted is None:
            break
        lines, is_counted = stopped(counted.lines, setting), True
        turns, loads = [counted.moved(at) for at in turns], [counted.moved(at) for at in loads]
    checked = with_checks(lines, loads, setting, wanted is not None and wanted.is_checked) if loads else None
    if checked:
        return it.with_lines(stopped(checked.lines, setting), tuple(checked.notes))
    return it.with_lines(lines) if is_counted else None


def stopped(lines: list[Line], setting: Setting) -> list[Line]:
    """The program with what a failed check leads to, if there is a check."""
    return with_stop(lines, setting.bell)


def setting_of(it: Built, described: Description) -> Setting:
    """What a program runs in."""
    thread, used = it.thread, it.program.stack
    wanted = thread.wanted
    data, stack = wanted.data if wanted and wanted.data is not None else 0, stack_end(thread)
    hidden: list[tuple[int, int]] = []
    frames: dict[int, set[tuple[int, int]]] = {}
    for variable, start, end in placed_variables(it):
        hidden += [(start, end)] if variable.is_volatile else []
        if variable.function and end > start:
            frames.setdefault(start, set()).add((start, end))
    memory = Memory((Region(data, it.data), Region(stack - used, bytes(used))), tuple(hidden))
    return Setting(memory, stack, thread.registers, described.bell(thread), it.linked.owners, frames)


def stack_end(thread: Thread) -> int:
    """The address after the last byte of a thread's stack."""
    wanted = thread.wanted
    return wanted.stack if wanted and wanted.stack is not None else thread.stack or 0


def placed_variables(it: Built) -> Iterator[tuple[Variable, int, int]]:
    """The variables of a program, each with its first address and the one after its last: those of a function once for each
    depth of the stack that it is entered at."""
    for variable in it.linked.variables:
        for function, depth in it.program.entries if variable.function else [(None, 0)]:
            if function == variable.function:
                yield variable, *variable.at(stack_end(it.thread) - depth)


def names_in(it: Built) -> dict[int, str]:
    """The names of a program's variables, by their first addresses."""
    return {start: variable.name for variable, start, _ in placed_variables(it)}
