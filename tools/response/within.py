#!/usr/bin/env python3
"""Descriptions with `within`: at the number that `response` says they are accepted, below it refused, by their line and with rows that add up.

  tools/response/within.py TOOL [COUNT [FIRST]]

The descriptions are written at random: parts that wait for a bell with a line, work, acknowledge it, and some ring another part's bell or call
a server. 20 are tried where no COUNT is given. Each list of events that breaks a rate by one interrupt is noted by `test`, and one that keeps
it is not.
"""

import os
import random
import re
import subprocess
import sys
import tempfile

WAIT = ["addi x10 x0 {bell}", "addi x17 x0 5", "ecall"]
ACKNOWLEDGE = ["addi x10 x0 {bell}.line{line}", "lui x11 18", "addi x17 x0 1", "ecall"]
RING = ["addi x10 x0 {other}", "addi x17 x0 3", "ecall"]
CALL = ["addi x10 x0 door", "addi x11 x0 1", "addi x17 x0 1", "ecall"]
SERVE = ["start: addi x10 x0 door", "addi x17 x0 5", "ecall", "again: addi x9 x9 1", "{work}", "addi x10 x0 door", "addi x11 x0 1", "addi x17 x0 2", "ecall", "jal x0 again"]
DEALT = re.compile(r"  line (\d+) \(\w+\): (\w+) rests again within (\d+) instructions")
REFUSED = re.compile(r"(\S+):(\d+): (\w+) rests within (\d+) instructions of line (\d+), not within (\d+)")
ROW = re.compile(r" +(\d+)  \S")


def worked(chance):
    return ["addi x9 x9 1"] * chance.randrange(12)


class Described:
    """A description at random, with the lines of its parts' `within`."""

    def __init__(self, chance):
        self.lines, self.of_part, self.parts = [], {}, chance.randrange(1, 5)
        is_served = chance.random() < 0.5
        self.lines += [f"bell b{number}" for number in range(self.parts)] + ["bell news", "door door"][: 2 if is_served else 1]
        rung = False
        for number in range(self.parts):
            rings = chance.random() < 0.4
            rung = rung or rings
            self.put_part(chance, number, rings, is_served and chance.random() < 0.6)
        if rung:
            self.put("listener", 200, ["waits news"], ["again: addi x9 x9 1", *self.filled(WAIT, bell="news"), *worked(chance), "jal x0 again"])
        if is_served:
            self.put("server", 220, ["serves door"], [line for one in SERVE for line in (worked(chance) if one == "{work}" else [one])])

    def filled(self, lines, **names):
        return [line.format(**names) for line in lines]

    def put(self, name, priority, holds, code):
        self.lines += [f"part {name} {priority}", *(f"  {line}" for line in holds), "  code", *(f"  {line}" for line in code), "end"]

    def put_part(self, chance, number, rings, calls):
        names = {"bell": f"b{number}", "line": number + 1, "other": "news"}
        holds = [f"waits b{number} line {number + 1} every {chance.choice([800, 1500, 4000])} burst {chance.choice([1, 1, 2])}"]
        holds += ["rings news"] if rings else []
        holds += ["calls door"] if calls else []
        code = ["again: addi x9 x9 1", *self.filled(WAIT, **names), *worked(chance), *self.filled(ACKNOWLEDGE, **names)]
        code += self.filled(RING, **names) if rings else []
        code += [*CALL, *worked(chance)] if calls else []
        self.put(f"p{number}", chance.randrange(1, 100), holds, [*code, "jal x0 again"])

    def text(self, within):
        """The description, in which some parts are to deal with their interrupts within so many instructions."""
        found = []
        for line in self.lines:
            if line.strip() == "code" and found[-1:] and self.last_part(found) in within:
                found.append(f"  within {within[self.last_part(found)]}")
                self.of_part[self.last_part(found[:-1])] = len(found)
            found.append(line)
        return "".join(f"{line}\n" for line in found)

    def last_part(self, lines):
        return next(line.split()[1] for line in reversed(lines) if line.startswith("part "))


def answer(tool, *words):
    ran = subprocess.run([tool, *words], stdout=subprocess.PIPE, stderr=subprocess.PIPE, text=True, check=False)
    return ran.returncode, ran.stdout, ran.stderr


def put(folder, name, text):
    path = os.path.join(folder, name)
    with open(path, "w", encoding="ascii") as file:
        file.write(text)
    return path


def dealt_with(tool, path, described):
    """The numbers of the parts by the level of their own priority."""
    status, said, errors = answer(tool, "response", path)
    assert status == 0, errors
    numbers, priority = {}, 0
    priorities = {line.split()[1]: int(line.split()[2]) for line in described.lines if line.startswith("part ")}
    for line in said.splitlines():
        level, dealt = re.match(r"priority (\d+) ", line), DEALT.match(line)
        priority = int(level[1]) if level else priority
        if dealt and priorities[dealt[2]] == priority:
            numbers[dealt[2]] = (int(dealt[1]), int(dealt[3]))
    return numbers


def check_refused(tool, folder, described, name, line, number):
    """Below its number a part is refused, by its line, with rows that add up."""
    path = put(folder, "it.sys", described.text({name: number - 1}))
    status, _, errors = answer(tool, "make", path, os.path.join(folder, "it.img"))
    lines = errors.splitlines()
    at = next(at for at, one in enumerate(lines) if REFUSED.match(one))
    found = REFUSED.match(lines[at])
    assert status == 1 and os.path.basename(found[1]) == "it.sys" and int(found[2]) == described.of_part[name], errors
    assert found[3] == name and int(found[4]) == number and int(found[5]) == line and int(found[6]) == number - 1, errors
    rows = [int(row[1]) for row in map(ROW.match, lines[at + 1 :]) if row]
    assert sum(rows) == number, f"rows {rows} are not {number}"


def check_events(tool, folder, described, counts):
    """Events that keep the rates are not noted, and the first that breaks one is."""
    path, bytes_path = put(folder, "it.sys", described.text({})), put(folder, "it.bytes", "")
    for line in described.lines:
        rate = re.match(r"  waits \w+ line (\d+) every (\d+) burst (\d+)", line)
        if rate:
            number, every, burst = map(int, rate.groups())
            kept = ["step 900"] + [f"irq {number}"] * burst + [f"step {every}", f"irq {number}", "step 500"]
            broken = ["step 900"] + [f"irq {number}"] * burst + [f"step {every - 1}", f"irq {number}", "step 500"]
            for events, is_noted in ((kept, False), (broken, True)):
                list_path = put(folder, "it.events", "".join(f"{event}\n" for event in events))
                _, _, errors = answer(tool, "test", path, list_path, bytes_path)
                noted = [one for one in errors.splitlines() if "comes again after" in one]
                assert len(noted) == is_noted, errors
                if is_noted:
                    assert noted[0].startswith(f"{list_path}:{burst + 3}: note: line {number} comes again after {every - 1} steps"), errors
                    counts["lists that break a rate"] += 1


def main(tool, count=20, first=0):
    counts, seed = {"descriptions": 0, "numbers": 0, "lists that break a rate": 0}, int(first)
    while counts["descriptions"] < int(count):
        described = Described(random.Random(seed))
        with tempfile.TemporaryDirectory() as folder:
            try:
                numbers = dealt_with(tool, put(folder, "it.sys", described.text({})), described)
                if numbers:
                    within = {name: number for name, (_, number) in numbers.items()}
                    path = put(folder, "it.sys", described.text(within))
                    status, said, errors = answer(tool, "make", path, os.path.join(folder, "it.img"))
                    assert status == 0, errors
                    for name, (line, number) in numbers.items():
                        assert f"{name} rests within {number} instructions of line {line}, of {number}\n" in said, said
                        check_refused(tool, folder, described, name, line, number)
                        counts["numbers"] += 1
                    check_events(tool, folder, described, counts)
                    counts["descriptions"] += 1
            except (AssertionError, StopIteration) as wrong:
                sys.exit(f"seed {seed}: {wrong}")
        seed += 1
    print("response: " + ", ".join(f"{number} {what}" for what, number in counts.items()))


if __name__ == "__main__":
    if len(sys.argv) not in (2, 3, 4):
        sys.exit(__doc__)
    main(*sys.argv[1:])
