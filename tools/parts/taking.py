"""What parts of an image take from one another, the image of a part alone, and what of a run is its own, by their definitions alone
(docs/DEFINITIONS.md), apart from the product.
"""

import os
import sys

HERE = os.path.dirname(os.path.realpath(__file__))
sys.path[:0] = [f"{HERE}/../damage", f"{HERE}/../traces"]
sys.dont_write_bytecode = True
from machine import MEMORY, Machine  # noqa: E402
from programs import ALL_ONES  # noqa: E402
from rules import ENDPOINT, FRAME, kind_of, reach, read, well_formed  # noqa: E402
from texts import number as number_of  # noqa: E402

WRITE, READ = 1, 2


class Uses:
    """The objects that a thread takes, and those that it may change, but for what a wrong definition leaves out."""

    def __init__(self, image, t, without=None):
        held = [c for c in image.capabilities if c[0] in reach(image, t)[0]]
        mapped = [f for f in image.frames if f[0] == t.root]
        buffer = set() if t.buffer == ALL_ONES else {t.buffer}
        handled = {c[2] - len(image.objects) for c in held}
        # by such capabilities one receives, waits or loads; and who sends to an endpoint may wait there
        takes = {
            "maps": {f[2] for f in mapped}, "reads": {c[2] for c in held if c[3] & READ},
            "sends": {c[2] for c in held if c[3] & WRITE and kind_of(image, c[2]) == ENDPOINT}, "buffers": buffer,
        }
        # by such capabilities one sends, signals or stores; and who receives takes what waits there
        changes = {
            "maps": {f[2] for f in mapped if f[3] & WRITE}, "writes": {c[2] for c in held if c[3] & WRITE},
            "reads": {c[2] for c in held if c[3] & READ and kind_of(image, c[2]) != FRAME}, "buffers": buffer,
            "handlers": {notification for number, (_, notification, _) in enumerate(image.interrupts) if number in handled},
        }
        self.takes = set().union(*(found for by, found in takes.items() if without != f"takes without {by}"))
        self.changes = set().union(*(found for by, found in changes.items() if without != f"changes without {by}"))
        self.handlers = handled


class Parts:
    """The parts of an image, which are sets of the numbers of its threads, by the definitions or by a wrong one."""

    def __init__(self, data, wrong=None):
        self.image, self.wrong = read(data), wrong
        well_formed(self.image)
        self.uses = [Uses(self.image, t, wrong) for t in self.image.threads]

    def taken(self, part):
        """What the part takes and others may change: (thread, object, other thread)."""
        others = [it for it in range(len(self.uses)) if it not in part]
        return [(t, it, u) for t in sorted(part) for u in others for it in sorted(self.uses[t].takes & self.uses[u].changes)]

    def takes_nothing(self, part):
        return not self.taken(part)

    def is_above(self, part):
        threads = list(enumerate(self.image.threads))
        least = int(self.wrong != "priorities that are equal")
        return all(t.priority >= u.priority + least for k, t in threads if k in part for n, u in threads if n not in part)

    def is_own(self, part, machine, event):
        """Whether an event is the part's own: its steps and ticks, its lines, and what the world does to pages that it takes."""
        word, *rest = event.split()
        if word == "tick" and self.wrong == "all ticks":
            return True
        if word in ("step", "tick"):
            runner = machine.current()
            return runner is not None and machine.threads.index(runner) in part
        takes = set().union(*(self.uses[it].takes for it in part))
        if word == "irq" and self.wrong == "lines by handlers":
            handlers = set().union(*(self.uses[it].handlers for it in part))
            return any(line == int(rest[0]) and number in handlers for number, (line, _, _) in enumerate(self.image.interrupts))
        if word == "irq":
            return any(line == int(rest[0]) and notification in takes for line, notification, _ in self.image.interrupts)
        return any(self.image.offsets[it] == number_of(rest[0]) - MEMORY & ~4095 for it in takes if kind_of(self.image, it) == FRAME)


def without_threads(text, part):
    """The text without the other threads, all else as it is."""
    kept, number, out = [], -1, False
    for line in text.splitlines():
        word = line.split("#")[0].split()[:1]
        if word == ["thread"]:
            number += 1
            out = number not in part
        if not out:
            kept.append(line)
        if word == ["end"]:
            out = False
    return "".join(f"{line}\n" for line in kept)


def happens(machine, event):
    """The line that an event gives."""
    word, *rest = event.split()
    if word == "step":
        return machine.step()
    if word == "tick":
        return machine.tick()
    if word == "irq":
        return machine.interrupt(int(rest[0]))
    return machine.write(*map(number_of, rest)) if word == "write" else machine.show(number_of(rest[0]))


class Runs:
    """Runs of the whole over the same events, looked at by each of some parts: own events and their lines."""

    def __init__(self, data, parts, events, sets):
        machine, self.own, self.labels, self.all = Machine(data), [[] for _ in sets], [[] for _ in sets], []
        self.woken = [0] * len(sets)
        for event in events:
            owners = [parts.is_own(part, machine, event) for part in sets]
            before, runner = set(map(id, machine.ready)), machine.current()
            line = happens(machine, event)
            self.all.append(line)
            woke = [number for number, it in enumerate(machine.threads) if id(it) not in before and it in machine.ready]
            for number, part in enumerate(sets):
                if owners[number]:
                    self.own[number].append(event)
                    self.labels[number].append(line)
                    if event == "step" and runner and any(it not in part for it in woke):
                        self.woken[number] += 1


def run_alone(data, events):
    machine = Machine(data)
    return [happens(machine, event) for event in events]


def threads_by_place(image):
    """The number of the thread that a line of a trace begins with, by that word."""
    return {f"{MEMORY + image.offsets[t.tcb]:08x}": number for number, t in enumerate(image.threads)}


def without_others(parts, part, lines):
    """The lines as the part alone has them: a step of another thread is none, and of a word that it does not take nothing is seen."""
    places, takes = threads_by_place(parts.image), set().union(*(parts.uses[it].takes for it in part))
    pages = {parts.image.offsets[it] for it in takes}
    said = []
    for line in lines:
        word, *rest = line.split()
        if word in places and places[word] not in part:
            said.append("idle")
        elif word == "read" and number_of("0x" + rest[0]) - MEMORY & ~4095 not in pages:
            said.append(f"read {rest[0]} 00000000")
        else:
            said.append(line)
    return said
