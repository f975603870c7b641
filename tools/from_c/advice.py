"""What to write instead, by variables and lines of C, where a program is certified in no way.

The instructions that are refused say which line of C it is; what is meant there is read from that line.
"""

from __future__ import annotations

import re
from collections.abc import Callable
from dataclasses import dataclass
from functools import lru_cache
from pathlib import Path

from building import Folder
from checks import limits_of, sums_at
from faults import Note, Place
from lines import Line
from loops import loops
from machine_code import HERE
from ranges import MOST, operation
from words import Setting, analysed

# The text of a line of C, if it is there.
Sources = Callable[[Place], str]
COUNT = "let a counter go to a constant"
AT_MOST = "`AT_MOST(MOST);` first in its body, where MOST is the most turns that there can be"
CHECKED = ", or say `checked` in the line `program`"
# A name that is used as a pointer: before `->` or `[`, or after a `*` that is no product.
POINTERS = r"\b([a-z_]\w*)\s*(?:->|\[)|(?:^|[-+=(,;!&|<>?:{~]|return)\s*\*+\s*(?:\+\+|--)?\s*([a-z_]\w*)"
LONGEST = 60


@dataclass(frozen=True)
class Refused:
    """A program, which instructions of it are refused, by their numbers, and the rules; what it runs in, the names of
    variables by their addresses, the lines of its sources, and whether its line `program` says `checked`."""

    program: list[Line]
    rules: list[tuple[int, str]]
    setting: Setting
    names: dict[int, str]
    text_at: Sources
    is_checked: bool


def sources_of(folder: Folder, files: tuple[str, ...]) -> Sources:
    """The lines of a program's sources, and of the headers beside them."""

    @lru_cache(maxsize=None)
    def lines_of(name: str) -> list[str]:
        named = [folder.path / it for it in files if Path(it).name == name]
        beside = [path.parent / name for it in files if (path := folder.path / it)]
        found = next((it for it in (*named, *beside, HERE / "include" / name, HERE / name) if it.is_file()), None)
        return found.read_text("utf-8", "replace").split("\n") if found else []

    def text_at(place: Place) -> str:
        lines = lines_of(place.file)
        return lines[place.line - 1] if 0 < place.line <= len(lines) else ""

    return text_at


def advice_on(refused: Refused) -> tuple[Note, ...]:
    """A note on each line of C that is refused."""
    lines = refused.program
    found: dict[Note, None] = {}
    for line, rule in refused.rules:
        place = lines[line].place if 0 <= line < len(lines) else None
        if place and rule == "NoMeasure":
            found[loop_note(line, place, refused)] = None
        elif place and rule == "NotMapped":
            found[place_note(line, place, refused)] = None
    return tuple(found)


def loop_note(line: int, place: Place, refused: Refused) -> Note:
    """What to write in the place of a loop, by its first line."""
    head = head_of(line, place, refused)
    if head is None:
        return Note(place, f"nothing shows that this loop ends: {COUNT}, or write {AT_MOST}")
    text = code_of(refused.text_at(head))
    found = re.search(r"\bwhile\s*\(", text)
    condition = within(text, found.end() - 1) if found else ""
    if condition and len(condition) <= LONGEST and condition not in ("1", "true"):
        instead = f"`for (uint32_t turn = 0; turn < MOST && ({condition}); turn++)`"
        return Note(head, f"nothing shows that `while ({condition})` ends: write {AT_MOST}, or {instead}")
    named = text if len(text) <= LONGEST else f"{text[:LONGEST]} .."
    return Note(head, f"nothing shows that the loop `{named}` ends: {COUNT}, or write {AT_MOST}")


def head_of(line: int, place: Place, refused: Refused) -> Place | None:
    """The line of C at which the loop of an instruction begins: the last one before the instruction, of those of the loop."""
    lines = refused.program
    loop = next((it for it in loops(lines) if line in it.body), None)
    places = {at for it in (loop.body if loop else ()) if (at := lines[it].place) and at.file == place.file}
    for number in range(place.line, min((at.line for at in places), default=place.line) - 3, -1):
        at = Place(place.file, number)
        if number > 0 and re.search(r"\b(while|for|do)\b", code_of(refused.text_at(at))):
            return at
    return None


def place_note(line: int, place: Place, refused: Refused) -> Note:
    """What to write in the place of an index or a pointer."""
    setting, asked = refused.setting, "" if refused.is_checked else CHECKED
    known = analysed(refused.program, setting)
    text, it = code_of(refused.text_at(place)), known.operations[line]
    for sum_of in sums_at(line, it.rs1, known) if it.width else ():
        start, end = setting.bounds((sum_of.known + it.constant) & MOST, sum_of.known, True)
        if start in refused.names:
            name = refused.names[start]
            limits = limits_of(line, known, setting)
            below = f"below({limits.high + 1}, ..)" if limits and limits.low == 0 and limits.high < end - start else "below(.., index)"
            index = index_of(name, text)
            said = f"`{index}`, an index of `{name}`," if index else f"this index of `{name}`"
            advice = f"test it with `if`, or write `{below}`{asked}"
            return Note(place, f"nothing shows that {said} is inside of its {end - start} bytes: {advice}")
    at, pointers = pointers_at(line, place, refused)
    named = " or ".join(f"`{it}`" for it in pointers) or "this pointer"
    return Note(at, f"nothing shows where {named} leads: write an array and an index below a constant{asked}")


def pointers_at(line: int, place: Place, refused: Refused) -> tuple[Place, list[str]]:
    """The pointers of a line of C; where it has none, those of a line that moves the register of the address, since gcc loads
    elsewhere than it is written."""
    register = operation(refused.program[line].words).rs1
    writers = [it for it in refused.program if it.place and operation(it.words).rd == register]
    for at in [place, *(it.place for it in writers if it.place)]:
        text = code_of(refused.text_at(at))
        if names := list(dict.fromkeys(name for it in re.finditer(POINTERS, text) for name in it.groups() if name)):
            return at, names
    return place, []


def code_of(text: str) -> str:
    """A line of C without comments and blanks around it."""
    return re.sub(r"/\*.*?(\*/|$)|//.*", "", text).strip().removesuffix("{").strip()


def within(text: str, start: int) -> str:
    """What is between a parenthesis or bracket and the one that closes it; nothing where that is on another line."""
    depth = 0
    for at in range(start, len(text)):
        depth += (text[at] in "([") - (text[at] in ")]")
        if depth == 0:
            return text[start + 1 : at].strip()
    return ""


def index_of(name: str, text: str) -> str:
    """The index of a variable in a line, or the only index there is."""
    brackets = [it.end() - 1 for it in re.finditer(rf"\b{re.escape(name)}\s*\[", text)]
    if not brackets:
        every = [it.start() for it in re.finditer(r"\[", text)]
        brackets = every if len(every) == 1 else []
    return within(text, brackets[0]) if len(brackets) == 1 else ""
