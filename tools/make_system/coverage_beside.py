#!/usr/bin/env python3
"""Compares what `microsys_tool cover` says of samples of samples/c with what is counted in traces that tools/traces reckons.

  tools/make_system/coverage_beside.py [NAME ..]

The lines of a text with the places of instructions are those of `certify`; the image is that of `make`. Counts, lines and the longest
stretches are found here anew.
"""

import collections
import os
import re
import subprocess
import sys
import tempfile

sys.dont_write_bytecode = True
TOP = os.path.dirname(os.path.dirname(os.path.dirname(os.path.realpath(__file__))))
sys.path.insert(0, os.path.join(TOP, "tools", "traces"))
from machine import MEMORY, Machine, trace  # noqa: E402

TOOL = os.path.join(TOP, "tools", "make_system", "microsys_tool")
SAMPLES = ("ring", "counter", "button")


def places(text):
    """The threads of a text: for each its name, and the place of each instruction."""
    threads, inside = [], False
    for line in text.split("\n"):
        words = line.split("#")[0].split()
        if words[:1] == ["thread"]:
            threads.append((words[1], int(words[9], 0), int(words[6]), []))
            inside = True
        elif words == ["end"]:
            inside = False
        elif inside and words and words[0] not in ("reg", "buffer", "measure", "range", "slot") and not words[-1].endswith(":"):
            threads[-1][3].append(line.rsplit("# ", 1)[1].strip())
    return threads


def counted(image, events, threads):
    """The counts of lines, and what is said of each thread, by the trace of an image."""
    machine = Machine(image)
    tcbs = {f"{MEMORY + runner.tcb:08x}": number for number, runner in enumerate(machine.threads)}
    points, longest, stretch = collections.Counter(), collections.Counter(), collections.Counter()
    for line in trace(machine, events):
        words = line.split()
        if words[0] not in tcbs:
            continue
        number = tcbs[words[0]]
        points[number, (int(words[1], 16) - threads[number][1]) // 4] += 1
        stretch[number] += 1
        longest[number] = max(longest[number], stretch[number])
        if words[2] == "wait":
            stretch[number] = 0
    lines = collections.Counter()
    said = []
    for number, (name, _, budget, code) in enumerate(threads):
        own = {}
        for point, place in enumerate(code):
            own[place] = max(own.get(place, 0), points[number, point])
        lines.update(own)
        ran = sum(1 for point in range(len(code)) if points[number, point])
        said.append(f"{name} {ran} of {len(code)} instructions, longest {longest[number]} of {budget}")
    return {place: lines[place] for place in lines}, said


def told(info):
    """The counts of lines that lcov reads."""
    counts, file = {}, None
    for line in info.split("\n"):
        if line.startswith("SF:"):
            file = os.path.basename(line)
        elif line.startswith("DA:"):
            number, count = line[3:].split(",")
            counts[f"{file}:{number}"] = int(count)
    return counts


def compare(name, room):
    """Whether both say the same of a sample."""
    folder = os.path.join(TOP, "samples", "c", name)
    system, events = os.path.join(folder, f"{name}.sys"), os.path.join(folder, f"{name}.events")
    image, text, info = (os.path.join(room, f"{name}.{it}") for it in ("img", "text", "info"))
    for words in (["make", system, image], ["certify", system, text]):
        subprocess.run([TOOL, *words], check=True, capture_output=True)
    said = subprocess.run([TOOL, "cover", system, events, events, "--info", info], check=True, capture_output=True, text=True).stdout
    with open(image, "rb") as one, open(text) as two, open(events) as three, open(info) as four:
        threads, list_of_events = places(two.read()), three.read()
        lines, wanted = counted(one.read(), list_of_events, threads)
        found = told(four.read())
    # the events are given twice, and add up
    twice = {place: 2 * count for place, count in lines.items()}
    heads = [line for line in said.split("\n") if " instructions, longest " in line]
    missing = {place for place, count in lines.items() if not count}
    named = set(re.findall(r"never at (\S+)", said))
    if found != twice or heads != wanted or not missing <= named:
        print(f"{name}: other than counted")
        print(sorted(set(found.items()) ^ set(twice.items())), heads, wanted, sep="\n")
        return 1
    print(f"{name}: {len(found)} lines and {len(heads)} parts as counted")
    return 0


def main():
    with tempfile.TemporaryDirectory() as room:
        return max(compare(name, room) for name in sys.argv[1:] or SAMPLES)


if __name__ == "__main__":
    sys.exit(main())
