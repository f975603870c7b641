"""Parts that wait for ever where an `assert` or a check of their C failed, found in the lines of a run by names."""

from __future__ import annotations

import re
import subprocess
import sys
from collections.abc import Iterator
from dataclasses import dataclass
from pathlib import Path

from lines import ASSERT_FAILED, CHECK_FAILED
from symbols import Part, parts_of

# A line of a run in which a part ran an instruction.
RAN = re.compile(r"(\S+) ([0-9a-f]{8}) (\S+)")


@dataclass(frozen=True)
class Stop:
    """A wait for ever: the addresses from its first instruction to its call, and whether an `assert` leads there."""

    part: Part
    first: int
    wait: int
    is_assert: bool

    @property
    def line(self) -> str:
        """How a line of a run begins in which the part waits there."""
        return f"{self.part.name} {self.wait:08x} wait"


@dataclass(frozen=True)
class Failed:
    """A part that came to such a wait, from which place of its source, and at which event."""

    stop: Stop
    place: str
    event: int

    def __str__(self) -> str:
        what = "an assert failed" if self.stop.is_assert else "a check failed"
        return f"{self.place}: {what}: {self.stop.part.name} waits here for ever, from event {self.event} on"


def stops_of(text: str, name: str) -> list[Stop]:
    """The waits for ever of a text's parts."""
    return [stop for part in parts_of(text, name) for stop in stops_in(part)]


def stops_in(part: Part) -> Iterator[Stop]:
    """Those of a part. The call of a check's wait is the first one after the note."""
    for point, it in enumerate(part.code):
        if it.note in (ASSERT_FAILED, CHECK_FAILED):
            calls = (at for at in range(point, len(part.code)) if part.code[at].words == ["ecall"])
            wait = next(calls, point)
            yield Stop(part, part.base + 4 * point, part.base + 4 * wait, it.note == ASSERT_FAILED)


def place_of(part: Part, address: int) -> str | None:
    """The file and line that the instruction at an address comes from."""
    point = (address - part.base) // 4
    return f"{part.code[point].file}:{part.code[point].line}" if 0 <= point < len(part.code) else None


class Watcher:
    """Reads a run line by line, and finds which parts fail. Of a check the place is that of the instruction before its wait."""

    def __init__(self, stops: list[Stop]) -> None:
        self.stops = {(it.part.name, it.wait): it for it in stops}
        self.parts = {it.part.name: it.part for it in stops}
        self.blocks = {(it.part.name, pc) for it in stops for pc in range(it.first, it.wait + 4, 4)}
        self.places: dict[str, str] = {}
        self.failed: dict[str, Failed] = {}
        self.events = 0

    def take(self, line: str) -> None:
        """The next line."""
        self.events += 1
        ran = RAN.match(line)
        part = self.parts.get(ran[1]) if ran else None
        if not ran or not part:
            return
        at = (part.name, int(ran[2], 16))
        place = place_of(part, at[1])
        stop = self.stops.get(at)
        if stop and ran[3] == "wait" and part.name not in self.failed:
            known = place if stop.is_assert else self.places.get(part.name, place)
            self.failed[part.name] = Failed(stop, known or part.name, self.events)
        if place and at not in self.blocks:
            self.places[part.name] = place


def failed_in(stops: list[Stop], lines: str) -> list[Failed]:
    """Which parts fail in these lines of a run."""
    if not any(it.line in lines for it in stops):
        return []
    watcher = Watcher(stops)
    for line in lines.splitlines():
        watcher.take(line)
    return list(watcher.failed.values())


def put(failed: list[Failed]) -> None:
    """Reports them."""
    for it in failed:
        print(it, file=sys.stderr)


def failed_over(program: str, room: Path, name: str, text: str, events: Path, is_unverified: bool) -> list[Failed]:
    """Which parts of a text in the room fail over a list of events. What keeps it from being run the program has said."""
    stops = stops_of(text, name)
    if not stops:
        return []
    words = [program, "run", name, str(events.absolute()), *(["--unverified"] if is_unverified else [])]
    ran = subprocess.run(words, cwd=room, capture_output=True, text=True, errors="replace", check=False)
    return failed_in(stops, ran.stdout) if ran.returncode == 0 else []


def run_live(words: list[str], room: Path, stops: list[Stop]) -> int:
    """Runs the program over its standard input, passes on what it puts as it comes, and reports what fails at once."""
    watcher, reported = Watcher(stops), 0
    with subprocess.Popen(words, cwd=room, stdout=subprocess.PIPE) as ran:
        assert ran.stdout
        for line in ran.stdout:
            sys.stdout.buffer.write(line)
            sys.stdout.buffer.flush()
            watcher.take(line.decode(errors="replace"))
            if len(watcher.failed) > reported:
                put(list(watcher.failed.values())[reported:])
                reported = len(watcher.failed)
    return ran.returncode
