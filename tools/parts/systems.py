#!/usr/bin/env python3
"""Writes systems of several parts at random, and compares each part that takes nothing from the others with the same part alone.

  tools/parts/systems.py write SEED FOLDER      writes SEED.txt and SEED.events
  tools/parts/systems.py reckon COUNT           until COUNT systems are accepted
  tools/parts/systems.py compare PROGRAM COUNT  the same, and what `microsys_tool parts` and `alone` of PROGRAM say of them

A system is two or three systems of `tools/devices`, `tools/buffers` and `tools/promises`, side by side, of which some have a thread more that
tells another one something: it rings its bell, writes a page of it, sends a message without waiting, or acknowledges its line. Some are told
something both ways. Over 300 events, of which some are what the world does to device pages, the lines of each set of parts that takes nothing
are to be those of the set alone, over its own events; and once more with its priorities above all others, line by line over all events. What
is taken is reckoned by `taking.py`, verdicts by `tools/damage`, and runs by `tools/traces`, all apart from the product. Of the sets that take
something those are counted whose lines differ.
"""

import collections
import importlib.util
import itertools
import os
import random
import subprocess
import sys
import tempfile

HERE = os.path.dirname(os.path.realpath(__file__))
sys.path[:0] = [HERE]
sys.dont_write_bytecode = True
from taking import Parts, Runs, run_alone, without_others, without_threads  # noqa: E402
from beside import written  # noqa: E402
from machine import MEMORY  # noqa: E402
from reckon import verdict  # noqa: E402
from rules import is_device  # noqa: E402
from texts import assembled  # noqa: E402

EVENTS = 300
# where the first untyped of a part is, and how far apart two are; each of the systems below has one, of this size
ROOM = 0x80000
LINES = 16
MEMORY_LINE = "memory 22 11"
# the words of a line that are names, by its first word: those at these places
NAMES = {
    "untyped": (1,), "object": (1, 2), "irq": (1, 3), "cap": (1, 3), "table": (1, 3), "map": (1, 3), "data": (1,), "promise": (1,),
    "thread": (1, 2, 4), "buffer": (1,), "slot": (1, 5),
}


def maker(name):
    """The module of the systems of another folder."""
    spec = importlib.util.spec_from_file_location(f"{name}_systems", f"{HERE}/../{name}/systems.py")
    module = importlib.util.module_from_spec(spec)
    spec.loader.exec_module(module)
    return module


MAKERS = [maker(name) for name in ("devices", "buffers", "promises")]


class Lone:
    """A system of another folder as a part: its lines, with names and lines of the machine of its own."""

    def __init__(self, chance, number):
        text = chance.choice(MAKERS).system(chance.randrange(10**6))[0]
        self.number, self.lines, self.threads = number, [], []
        section = []
        for line in text.splitlines():
            words = self.renamed(line.split())
            if words[:1] == ["thread"] or section:
                section.append(" ".join(words))
                if words == ["end"]:
                    self.threads.append(section)
                    section = []
            elif words and words[0] != "memory":
                self.lines.append(" ".join(words))

    def name(self, word):
        return word if word == "boot" else f"p{self.number}_{word}"

    def renamed(self, words):
        if words[:1] == ["untyped"]:
            return ["untyped", self.name(words[1]), hex(ROOM * (self.number + 1)), "19"]
        if words[:1] == ["irq"]:
            words = [*words[:2], str(LINES * self.number + int(words[2])), *words[3:]]
        if words[0] == "cap" and words[3] == "boot":
            return words
        return [self.name(word) if at in NAMES.get(words[0], ()) else word for at, word in enumerate(words)]

    def named(self, kind, without=()):
        """Its objects of this kind, and of a frame that may be written whether it is a device page."""
        return [words[1] for words in map(str.split, self.lines) if words[0] == "object" and words[3] == kind and words[1] not in without]

    def handlers(self):
        """The names of its lines of the machine of whose handler no capability is wanted twice."""
        return [words[1] for words in map(str.split, self.lines) if words[0] == "irq"]

    def free_line(self):
        return LINES * self.number + LINES - 1

    def pages(self):
        """Frames that hold no program, no device page and no buffer."""
        buffers = {section_line.split()[1] for section in self.threads for section_line in section if section_line.startswith("buffer ")}
        code = {words[3] for words in map(str.split, self.lines) if words[0] == "map" and int(words[4]) & 4}
        device = {words[1] for words in map(str.split, self.lines) if words[0] == "object" and words[3] == "frame" and len(words) == 5}
        return self.named("frame", buffers | code | device)


def teller(chance, number, part, other):
    """The lines of a thread of a part that tells another something each time that its line rings, its objects, and by what."""
    name = f"p{part.number}_tell{number}"
    by = chance.choice(["ring", "ring", "ring", "page", "send", "send", "acknowledge"])
    objects = [f"object {name}_{kind} p{part.number}_u {kind}" for kind in ("frame", "root", "table", "tcb", "notification")]
    objects += [f"object {name}_cs p{part.number}_u cnode 4", f"irq {name}_line {part.free_line() - number} {name}_notification 1"]
    caps = [f"cap {name}_cs 1 {name}_notification 2 0", f"cap {name}_cs 2 {name}_line 0 0"]
    caps += [f"table {name}_root 0 {name}_table", f"map {name}_root 0x1000 {name}_frame 4"]
    acts = []
    target = None
    if by == "ring" and other.named("notification"):
        target = chance.choice(other.named("notification"))
        caps += [f"cap {name}_cs 3 {target} 1 {chance.choice([1, 2, 4])}"]
        acts = ["addi x10 x0 3", "addi x17 x0 3", "ecall"]
    elif by == "page" and other.pages():
        target = chance.choice(other.pages())
        caps += [f"map {name}_root 0x2000 {target} 3"]
        acts = ["addi x5 x5 1", "lui x6 2", f"sb x5 {4 * chance.randrange(64)}(x6)"]
    elif by == "send" and other.named("endpoint"):
        target = chance.choice(other.named("endpoint"))
        caps += [f"cap {name}_cs 3 {target} 1 {chance.randrange(4)}"]
        acts = [f"addi x11 x0 {chance.choice([0, 1, 4])}", "addi x12 x5 0", "addi x10 x0 3", "addi x17 x0 4", "ecall"]
    else:
        by, target = "acknowledge", chance.choice(other.handlers())
        caps += [f"cap {name}_cs 3 {target} 0 0"]
        acts = ["addi x10 x0 3", "lui x11 18", "addi x11 x11 0", "addi x17 x0 3", "ecall"]
    code = ["addi x10 x0 1", "addi x17 x0 5", "ecall", "addi x10 x0 2", "lui x11 18", "addi x11 x11 0", "addi x17 x0 3", "ecall", *acts, "jal x0 start"]
    first = f"thread {name}_tcb {name}_cs 28 {name}_root {chance.choice([99, 100, 101, 102, 103])} {len(code)} 0 start 0x1000"
    return objects, caps, [first, "measure 3", "start:", *code, "end"], by


def system(seed):
    """The text of a system and the sets of threads that are its parts."""
    chance = random.Random(seed)
    parts = [Lone(chance, number) for number in range(chance.choice([2, 2, 3]))]
    pairs = chance.choice([[(0, 1)], [(1, 0)], [(0, 1), (1, 0)], [(0, 1), (0, 1)], [(0, 1), (0, 1), (0, 1)], []])
    ways = collections.Counter()
    more = [([], [], []) for _ in parts]
    for number, (one, two) in enumerate(pairs):
        objects, caps, thread, by = teller(chance, number, parts[one], parts[two])
        ways[by] += 1
        more[one][0].extend(objects)
        more[one][1].extend(caps)
        more[one][2].append(thread)
    said = [MEMORY_LINE]
    of_kind = lambda lines, *kinds: [line for line in lines if line.split()[0] in kinds]
    for it, (objects, _, _) in zip(parts, more):
        said += of_kind(it.lines, "untyped")
    for it, (objects, _, _) in zip(parts, more):
        said += of_kind(it.lines, "object") + of_kind(objects, "object")
    for it, (objects, caps, _) in zip(parts, more):
        said += [line for line in it.lines if line.split()[0] not in ("untyped", "object")] + of_kind(objects, "irq")
    for _, caps, _ in more:
        said += caps
    sections = [(it.number, section) for it, (_, _, threads) in zip(parts, more) for section in [*it.threads, *threads]]
    chance.shuffle(sections)
    sets = [{at for at, (number, _) in enumerate(sections) if number == it.number} for it in parts]
    said += [line for _, section in sections for line in section]
    return "".join(f"{line}\n" for line in said), sets


def events_of(chance, parts):
    image = parts.image
    lines = [line for line, _, _ in image.interrupts]
    # those of the threads that tell something
    tellers = [line for line in lines if line % LINES > LINES // 2] or lines
    pages = [place for number, place in enumerate(image.offsets) if is_device(image, number)]
    found = []
    while len(found) < EVENTS:
        kind = chance.random()
        if pages and kind < 0.15:
            found += [f"write {MEMORY + chance.choice(pages) + 4 * chance.randrange(64):#x} {chance.choice([0, 1, 2**32 - 1, chance.randrange(2**32)])}"]
        elif pages and kind < 0.2:
            found += [f"read {MEMORY + chance.choice(pages) + 4 * chance.randrange(64):#x}"]
        elif kind < 0.35:
            found += [chance.choice(["tick", f"irq {chance.choice(lines)}", f"irq {chance.choice(tellers)}", f"irq {chance.choice(tellers)}"])]
        else:
            found += ["step"] * chance.randrange(1, 20)
    return found[:EVENTS]


def raised(text, part):
    """The text with the priorities of a part above all others."""
    said, number = [], -1
    for line in text.splitlines():
        words = line.split()
        if words[:1] == ["thread"]:
            number += 1
            words[5] = str(int(words[5]) // 2 + (128 if number in part else 0))
        said.append(" ".join(words))
    return "".join(f"{line}\n" for line in said)


def sets_of(sets, threads, chance):
    """Every set of parts but that of all, and some random sets of threads."""
    found = [set().union(*some) for size in range(1, len(sets)) for some in itertools.combinations(sets, size)]
    for _ in range(2):
        some = {it for it in range(threads) if chance.random() < 0.5}
        if some and len(some) < threads and some not in found:
            found.append(some)
    return found


class Counts(collections.Counter):
    def said(self):
        return ", ".join(f"{number} {what}" for what, number in self.items())


def above_lines(text, part, events):
    """Asserts that a set whose priorities are above all others' is as alone, line by line."""
    text = raised(text, part)
    data = assembled(text)
    parts = Parts(data)
    assert parts.is_above(part)
    whole, alone = run_alone(data, events), run_alone(assembled(without_threads(text, part)), events)
    assert without_others(parts, part, whole) == without_others(parts, part, alone), f"disturbed: {sorted(part)}"


def checked(seed, text, sets, counts):
    """The parts of an accepted system, of which those that take nothing do what they do alone."""
    chance, data = random.Random(seed), assembled(text)
    parts = Parts(data)
    events, all_sets = events_of(chance, parts), sets_of(sets, len(parts.uses), chance)
    run = Runs(data, parts, events, all_sets)
    for number, part in enumerate(all_sets):
        alone = assembled(without_threads(text, part))
        assert verdict(alone) == "accepted", f"{seed}: {sorted(part)} alone"
        same = run.labels[number] == run_alone(alone, run.own[number])
        counts["sets"] += 1
        if not parts.takes_nothing(part):
            counts["sets that take something"] += 1
            counts["of them that leak"] += not same
            continue
        assert same, f"{seed}: {sorted(part)} does something else alone"
        above_lines(text, part, events)
        counts["sets that take nothing"] += 1
        counts["own events of these"] += len(run.own[number])
        counts["of the world"] += sum(it.startswith(("write", "read")) for it in run.own[number])
        counts["steps that wake another part's thread"] += run.woken[number]


def names_in(text):
    return [line.split()[1] for line in text.splitlines() if line.startswith("thread ")]


def check_product(program, seed, text, sets):
    """Asserts that the product says of each part what the definitions do, and writes it as it is alone."""
    parts, threads = Parts(assembled(text)), names_in(text)
    with tempfile.TemporaryDirectory() as folder:
        name = written(seed, folder, text, "")
        said = subprocess.run([program, "parts", f"{name}.txt"], capture_output=True, check=False, text=True)
        assert said.returncode == 0, f"{seed}: {said.stderr}"
        free = [line.split(" take")[0].split(", ") for line in said.stdout.splitlines() if " take nothing " in line or " takes nothing " in line]
        for group in free:
            assert parts.takes_nothing({threads.index(it) for it in group}), f"{seed}: {group}"
        for part in sets:
            out, words = f"{folder}/alone.txt", [threads[it] for it in sorted(part)]
            ran = subprocess.run([program, "alone", f"{name}.txt", *words, out], capture_output=True, check=False, text=True)
            assert ran.returncode == 0, f"{seed}: {ran.stderr}"
            assert ("not as in the whole" in ran.stdout) == (not parts.takes_nothing(part)), f"{seed}: {words}"
            with open(out, encoding="ascii") as file:
                assert file.read() == without_threads(text, part), f"{seed}: {words} alone"


def main():
    task, *rest = sys.argv[1:]
    if task == "write":
        text, _ = system(int(rest[0]))
        events = events_of(random.Random(int(rest[0])), Parts(assembled(text)))
        written(rest[0], rest[1], text, "".join(f"{event}\n" for event in events))
        return 0
    program, count = rest[0] if task == "compare" else None, int(rest[-1])
    found, counts, seed = collections.Counter(), Counts(), 0
    while found["accepted"] < count:
        text, sets = system(seed)
        wanted = verdict(assembled(text))
        found[wanted.split()[0] if wanted == "accepted" else wanted.split()[2]] += 1
        if wanted == "accepted":
            checked(seed, text, sets, counts)
            if program:
                check_product(program, seed, text, sets)
        seed += 1
        if seed % 50 == 0:
            print(f".. {seed} systems", file=sys.stderr)
    assert count < 20 or counts["sets that take nothing"] and counts["of them that leak"], counts
    assert count < 1000 or counts["steps that wake another part's thread"] >= 200, counts
    print(f"as alone: {count} systems, {EVENTS} events each; {counts.said()}; " + ", ".join(f"{number} {it}" for it, number in sorted(found.items())))
    return 0


if __name__ == "__main__":
    sys.exit(main())
