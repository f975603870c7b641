#!/usr/bin/env python3
"""Small systems of two parts, each for one way in which a part takes something from another, or does not.

  tools/parts/rows.py reckon [ATTEMPTS]  by the definitions: what is taken, and whether the runs of the whole and of the part alone differ
  tools/parts/rows.py wrong [ATTEMPTS]   of wrong definitions: the systems that show that they are, by a part that takes nothing and leaks
  tools/parts/rows.py compare PROGRAM    by `microsys_tool`: what `parts` and `alone` say is what the definitions do

The first line of each says which threads are the part, what it takes, or `none`, and `leak` where some run of it in the whole is other than
alone, `same` where none was found. Events are searched at random, at most ATTEMPTS lists for each, or 400. Certificates are not wanted for
these runs.
Five take something and do not leak: one that could map a page, two that send where nobody receives, and those that only make NBSend or have
the endpoint for their faults, since rights do not tell Send from NBSend.
"""

import os
import random
import subprocess
import sys
import tempfile

HERE = os.path.dirname(os.path.realpath(__file__))
sys.path[:0] = [HERE]
sys.dont_write_bytecode = True
from taking import Parts, Runs, run_alone, without_others, without_threads  # noqa: E402
from texts import assembled  # noqa: E402

ATTEMPTS, EVENTS = 400, 120
WRONG = [
    "changes without reads", "changes without handlers", "changes without buffers", "takes without buffers", "takes without sends",
    "all ticks", "lines by handlers", "priorities that are equal",
]


def rows():
    for name in sorted(os.listdir(f"{HERE}/rows")):
        with open(f"{HERE}/rows/{name}", encoding="ascii") as file:
            text = file.read()
        part, wanted = text.split("\n", 1)[0].removeprefix("# part ").split("; expect ")
        taken, _, outcome = wanted.rpartition(" ")
        yield name, text, {int(it) for it in part.split()}, taken, outcome


def found_differing(text, part, attempts, wrong, differs):
    """Whether there are events over which the runs of the whole and of the part alone differ."""
    data, alone = assembled(text), assembled(without_threads(text, part))
    parts, chance = Parts(data, wrong), random.Random(1)
    lines = [line for line, _, _ in parts.image.interrupts]
    for _ in range(attempts):
        events = [chance.choice(["step", "step", "step", "tick", *[f"irq {it}" for it in lines]]) for _ in range(EVENTS)]
        if differs(data, alone, parts, part, events):
            return True
    return False


def is_other(data, alone, parts, part, events):
    """Whether the part does in the whole what it does not do alone over its own events."""
    run = Runs(data, parts, events, [part])
    return run.labels[0] != run_alone(alone, run.own[0])


def is_disturbed(data, alone, parts, part, events):
    """Whether it does over all events what it does not do alone."""
    return without_others(parts, part, run_alone(data, events)) != without_others(parts, part, run_alone(alone, events))


def differ(text, part, attempts, wrong=None):
    return found_differing(text, part, attempts, wrong, is_other)


def is_shown(text, part, attempts, wrong):
    """Whether a system shows a definition to be wrong: a part takes nothing by it, and does something else alone."""
    parts = Parts(assembled(text), wrong)
    if not parts.takes_nothing(part):
        return False
    if wrong == "priorities that are equal":
        return parts.is_above(part) and found_differing(text, part, attempts, wrong, is_disturbed)
    return differ(text, part, attempts, wrong)


def shown(attempts):
    """Each wrong definition is shown by a system, and the right one by none."""
    for wrong in [None, *WRONG]:
        found = [name for name, text, part, _, _ in rows() if is_shown(text, part, attempts, wrong)]
        assert bool(found) == (wrong in WRONG), f"{wrong}: {found}"
        if found:
            print(f"{wrong}: {', '.join(found)}")
    print(f"shown to be wrong: {len(WRONG)} definitions")


def object_names(text):
    return [line.split()[1] for line in text.splitlines() if line.startswith("object ")]


def reckoned(attempts):
    counts = {"taken": 0, "leak": 0}
    for name, text, part, taken, outcome in rows():
        found = Parts(assembled(text)).taken(part)
        assert bool(found) == (taken != "none"), f"{name}: {found}"
        assert differ(text, part, attempts) == (outcome == "leak"), f"{name}: not {outcome}"
        assert outcome == "same" or found, f"{name}: it takes nothing, and leaks"
        counts["taken"] += bool(found)
        counts["leak"] += outcome == "leak"
        print(f"{name}: {taken}, {outcome}")
    print(f"as expected: {counts['taken']} take something, of which {counts['leak']} leak")


def compared(program):
    """What the product names is what the definitions do."""
    count = 0
    with tempfile.TemporaryDirectory() as folder:
        for name, text, part, _, _ in rows():
            file, out = f"{folder}/{name}", f"{folder}/alone.txt"
            with open(file, "w", encoding="ascii") as source:
                source.write(text)
            threads = [line.split()[1] for line in text.splitlines() if line.startswith("thread ")]
            objects, found = object_names(text), Parts(assembled(text)).taken(part)
            ran = subprocess.run([program, "alone", file, *(threads[it] for it in part), out], capture_output=True, check=False, text=True)
            assert ran.returncode == 0, f"{name}: {ran.stderr}"
            lines = ran.stdout.splitlines()
            for t, it, u in found:
                said = [f"{threads[u]} {way} {threads[t]} by {objects[it]}:" for way in ("->", "<->")] + [f"{threads[t]} <-> {threads[u]} by {objects[it]}:"]
                assert any(line.startswith(tuple(said)) for line in lines), f"{name}: {said[0]} {lines}"
            assert (lines[-1] == "not as in the whole") == bool(found), f"{name}: {lines}"
            with open(out, encoding="ascii") as written:
                kept = written.read()
            assert [line.split()[1] for line in kept.splitlines() if line.startswith("thread ")] == [threads[it] for it in sorted(part)], name
            count += 1
    print(f"as the definitions: {count} systems")


if __name__ == "__main__":
    if sys.argv[1] == "compare":
        compared(sys.argv[2])
    else:
        {"reckon": reckoned, "wrong": shown}[sys.argv[1]](int((sys.argv[2:] or [ATTEMPTS])[0]))
