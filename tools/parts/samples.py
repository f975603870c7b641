#!/usr/bin/env python3
"""Each part of each sample alone: what `microsys_tool alone` writes is accepted, and over the part's own events it puts the part's lines.

  tools/parts/samples.py PROGRAM

Of a part that takes nothing these are its lines in the whole, and of another one those that the reference has of it alone. They are reckoned
apart from the product. The key store is run beside the controller besides, as one system, in which each is a part.
"""

import itertools
import os
import subprocess
import sys
import tempfile

HERE = os.path.dirname(os.path.realpath(__file__))
sys.path[:0] = [HERE]
sys.dont_write_bytecode = True
from taking import Parts, Runs, run_alone, without_threads  # noqa: E402
from beside import written  # noqa: E402
from texts import assembled  # noqa: E402

SAMPLES = f"{HERE}/../../samples"
NAMES = ["worker", "client_server", "promise", "buffers", "report", "gallery/controller", "gallery/gateway", "gallery/key_store"]
# the words of a line that are names, by its first word: those at these places
NAMES_IN = {
    "untyped": (1,), "object": (1, 2), "irq": (1, 3), "cap": (1, 3), "table": (1, 3), "map": (1, 3), "data": (1,), "promise": (1,),
    "thread": (1, 2, 4), "buffer": (1,), "slot": (1, 5),
}
# how far the lines of the machine and the memory of the second system are from those of the first
OWN_LINES, OWN_MEMORY = 8, 0x10000


def spread(events):
    """The events, each a line of its own."""
    found = []
    for line in events.splitlines():
        word, *rest = line.split("#")[0].split() or [""]
        if word == "step":
            found += ["step"] * int(rest[0] if rest else 1)
        elif word:
            found.append(" ".join([word, *rest]))
    return found


def answered(program, *words):
    ran = subprocess.run([program, *words], capture_output=True, check=False, text=True)
    assert ran.returncode == 0, f"{words}: {ran.stdout}{ran.stderr}"
    return ran.stdout


def threads_of(text):
    return [line.split()[1] for line in text.splitlines() if line.startswith("thread ")]


class Counts:
    def __init__(self):
        self.parts, self.free, self.lines = 0, 0, 0


def check_part(program, folder, name, text, part, run, counts):
    """The product's part alone is accepted, and does what the reference says."""
    parts, own, lines = run
    threads = threads_of(text)
    words = [threads[it] for it in sorted(part)]
    said = answered(program, "alone", f"{folder}/whole.txt", *words, f"{folder}/alone.txt")
    free = parts.takes_nothing(part)
    assert (said.splitlines()[-1] != "not as in the whole") == free, f"{name}: {words}: {said}"
    answered(program, "build", f"{folder}/alone.txt", f"{folder}/alone.img")
    assert answered(program, "verify", f"{folder}/alone.img") == "accepted\n", f"{name}: {words}"
    written("own", folder, "", "".join(f"{event}\n" for event in own))
    got = answered(program, "run", f"{folder}/alone.img", f"{folder}/own.events", "--plain").splitlines()
    assert got == run_alone(assembled(without_threads(text, part)), own), f"{name}: {words}: other lines than the reference"
    assert not free or got == lines, f"{name}: {words}: other lines than in the whole"
    counts.parts, counts.free, counts.lines = counts.parts + 1, counts.free + free, counts.lines + len(got)


def check_system(program, name, text, events, counts):
    """Every part of a system but the whole."""
    data = assembled(text)
    parts, number = Parts(data), len(threads_of(text))
    all_parts = [set(it) for size in range(1, number) for it in itertools.combinations(range(number), size)]
    runs = Runs(data, parts, spread(events), all_parts)
    with tempfile.TemporaryDirectory() as folder:
        written("whole", folder, text, events)
        before = counts.free
        for at, part in enumerate(all_parts):
            check_part(program, folder, name, text, part, (parts, runs.own[at], runs.labels[at]), counts)
    print(f"{name}: {len(all_parts)} parts alone, {counts.free - before} take nothing")


def beside(first, second):
    """Two texts as one system: the second with names and lines of the machine of its own, in the memory after that of the first."""
    both = [[line.split("#")[0].split() for line in text.splitlines()] for text in (first, second)]
    renamed = []
    for words in filter(None, both[1]):
        if words[0] == "untyped":
            words = [*words[:2], hex(OWN_MEMORY + int(words[2], 0)), *words[3:]]
        if words[0] == "irq":
            words = [*words[:2], str(OWN_LINES + int(words[2])), *words[3:]]
        places = NAMES_IN.get(words[0], ())
        renamed.append([f"second_{word}" if at in places and word != "boot" else word for at, word in enumerate(words)])
    lines = [*filter(None, both[0]), *renamed]
    first = [words for kind in ("untyped", "object") for words in lines if words[0] == kind]
    rest = [words for words in lines if words[0] not in ("memory", "untyped", "object")]
    return "".join(f"{' '.join(words)}\n" for words in [["memory", "18", "7"], *first, *rest])


def moved(event):
    """An event of the second system beside the first."""
    word, *rest = event.split()
    if word == "irq":
        rest = [str(OWN_LINES + int(rest[0]))]
    elif word in ("write", "read"):
        rest = [hex(OWN_MEMORY + int(rest[0], 0)), *rest[1:]]
    return " ".join([word, *rest])


def events_beside(first, second):
    """The events of both, a few of each at a time."""
    both, found = [spread(first), [moved(event) for event in spread(second)]], []
    while any(both):
        for events in both:
            found += events[:5]
            del events[:5]
    return "".join(f"{event}\n" for event in found)


def sample(name):
    with open(f"{SAMPLES}/{name}.txt", encoding="ascii") as text, open(f"{SAMPLES}/{name}.events", encoding="ascii") as events:
        return text.read(), events.read()


def main():
    program, counts = sys.argv[1], Counts()
    for name in NAMES:
        check_system(program, name, *sample(name), counts)
    (one, events), (other, more) = sample("gallery/key_store"), sample("gallery/controller")
    check_system(program, "the key store beside the controller", beside(one, other), events_beside(events, more), counts)
    print(f"as the reference: {counts.parts} parts alone, {counts.free} of them as in the whole, {counts.lines} lines")


if __name__ == "__main__":
    main()
