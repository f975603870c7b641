#!/usr/bin/env python3
"""Runs random systems over interrupts as dense as their rates allow, and compares the longest runs with what `response` says.

  tools/response/systems.py MICROSYS TOOL COUNT [FIRST]

The systems are descriptions of one to seven parts: drivers with one or two lines, some of which are not acknowledged; workers that others ring;
servers, some of which do not answer, and some make as many turns as a promised word says; and parts that never rest. Some have message buffers. They
ring, send, call, poll and yield at random, and some have one priority. Each line has a burst and a period, and there are EVENTS events: a line is
raised nearly as soon as its rate allows, all others are steps and ticks. Of each level, which is a priority and all threads of it or above,
`microsys_tool response` says for how many instructions on end it runs at most, and within how many a line is dealt with. The lines of `microsys run`
say who runs: no run is longer, from the start on. A reference kernel (`tools/traces`) says when a line is dealt with: its thread waits at the bell,
where no word is, and the line is open, with nothing pending. Once the level has rested there are never more steps between two such moments. Counted
are levels with a number, those without one, and how often a number is reached exactly.
"""

import collections
import os
import random
import re
import subprocess
import sys
import tempfile

HERE = os.path.dirname(os.path.realpath(__file__))
sys.path[:0] = [f"{HERE}/../traces", f"{HERE}/../parts"]
sys.dont_write_bytecode = True
from machine import MEMORY, Machine, trace  # noqa: E402
from taking import Parts  # noqa: E402

EVENTS = 2000
PERIODS = [60, 100, 200, 400, 1000, 3000]
BOUND = re.compile(r"priority (\d+) and above: (?:at most (\d+) instructions on end|(no bound))")
LINE = re.compile(r"  line (\d+)[^:]*: \S+ rests again within (\d+) instructions")
THREAD = re.compile(r"([0-9a-f]{8}) [0-9a-f]{8} ")
CALL, REPLY_RECV, SEND, NB_SEND, RECV, REPLY, YIELD, NB_RECV = range(1, 9)


def call(number, name, length=1):
    return [f"addi x10 x0 {name}", f"addi x11 x0 {length}", f"addi x17 x0 {number}", "ecall"]


def acknowledge(bell, line):
    return [f"addi x10 x0 {bell}.line{line}", "lui x11 18", f"addi x17 x0 {CALL}", "ecall"]


class Line:
    """A line of the machine with its rate: any stretch with n steps has at most burst + n div period interrupts."""

    def __init__(self, chance, number):
        self.number, self.burst, self.period = number, chance.choice([1, 1, 1, 2, 3]), chance.choice(PERIODS)
        self.raised = []

    def may_rise(self, steps):
        """Whether each stretch up to now bears one interrupt more, after so many steps."""
        return all(len(self.raised) - at + 1 <= self.burst + (steps - then) // self.period for at, then in enumerate(self.raised))

    def said(self):
        return f"line {self.number} every {self.period} burst {self.burst}"


class Described:
    """A description at random."""

    def __init__(self, chance):
        self.chance, self.lines, self.said = chance, [], []
        kinds = ["driver"] * chance.randrange(1, 4) + ["worker"] * chance.randrange(2) + ["server"] * chance.randrange(3)
        kinds += chance.choice([[], ["never", "echo"]])
        self.names = [f"{kind}{number}" for number, kind in enumerate(kinds)]
        self.bells = [f"b_{name}" for name in self.names if not name.startswith("server")]
        self.doors = [f"d_{name}" for name in self.names if name.startswith("server")]
        self.said += [f"bell {bell}" for bell in self.bells] + [f"door {door}" for door in self.doors]
        self.promised = {door: chance.choice([None, 1, 5]) for door in self.doors} if chance.random() < 0.5 else {}
        self.said += [f"promise {door} 0 {most}" for door, most in self.promised.items() if most]
        self.buffered = [name for name in self.names if chance.random() < 0.6] if chance.random() < 0.5 else []
        self.said += [f"page m_{name}" for name in self.buffered]
        few = chance.sample(range(1, 250), 3)
        for name in self.names:
            self.holds, self.code = [f"buffer m_{name}"] if name in self.buffered else [], []
            getattr(self, name.rstrip("0123456789"))(name)
            held = [f"  {line}" for line in dict.fromkeys(self.holds)]
            self.said += [f"part {name} {chance.choice(few)}", *held, "  code", *(f"  {line}" for line in self.code), "end"]

    def work(self, most=8):
        return ["addi x9 x9 1"] * self.chance.randrange(most)

    def length(self):
        """How many words a message has: more than seven where there are buffers."""
        return self.chance.choice([1, 2, 7, 8, 30, 120]) if self.buffered else self.chance.choice([1, 1, 3])

    def act(self, own):
        """What a part does besides: it rings, sends, calls, polls or yields, each now and then."""
        chance, code = self.chance, []
        others = [bell for bell in self.bells if bell != own]
        for _ in range(chance.choice([0, 0, 1, 1, 2])):
            deed = chance.choice(["ring", "ring", "call", "call", "send", "try", "yield"])
            if deed == "ring" and others:
                bell = chance.choice(others)
                self.holds.append(f"rings {bell}")
                code += call(SEND, bell)
            elif deed in ("call", "send", "try") and self.doors:
                door = chance.choice(self.doors)
                if f"serves {door}" not in self.holds:
                    wanted = "calls" if f"calls {door}" in self.holds or deed == "call" and f"sends {door}" not in self.holds else "sends"
                    self.holds.append(f"{wanted} {door}")
                    code += [f"addi x12 x0 {chance.randrange((self.promised.get(door) or 0) + 1)}"]
                    code += call({"call": CALL if wanted == "calls" else SEND, "send": SEND, "try": NB_SEND}[deed], door, self.length())
            elif deed == "yield":
                code += [f"addi x17 x0 {YIELD}", "ecall"]
            code += self.work(4)
        return code

    def driver(self, name):
        chance, bell = self.chance, f"b_{name}"
        lines = [Line(chance, len(self.lines) + at) for at in range(chance.choice([1, 1, 1, 2]))]
        self.lines += lines
        self.holds.append(f"waits {bell} " + " ".join(line.said() for line in lines))
        self.code += ["again: addi x9 x9 1", *call(RECV, bell), *self.work()]
        for line in lines:
            self.code += acknowledge(bell, line.number) if chance.random() < 0.85 else []
        self.code += [*self.act(bell), "jal x0 again"]

    def worker(self, name):
        bell = f"b_{name}"
        self.holds.append(f"waits {bell}")
        self.code += ["again: addi x9 x9 1", *call(RECV, bell), *self.work(), *self.act(bell), "jal x0 again"]

    def server(self, name):
        door = f"d_{name}"
        self.holds.append(f"serves {door}")
        how = self.chance.choice(["both", "both", "reply", "reply", "silent"])
        first = ["start: addi x9 x9 1", *call(RECV, door)]
        # as many turns as the first word says
        turns = ["turn: beq x12 x0 done", "addi x12 x12 -1", "jal x0 turn", "done: addi x9 x9 1"] if self.promised.get(door) else []
        if how == "both":
            self.code += [*first, "again: addi x9 x9 1", *turns, *self.work(), *self.act(None), *call(REPLY_RECV, door, self.length()), "jal x0 again"]
        else:
            answer = [f"addi x11 x0 {self.length()}", f"addi x17 x0 {REPLY}", "ecall"] if how == "reply" else []
            self.code += [*first, *turns, *self.work(), *self.act(None), *answer, "jal x0 start"]

    def never(self, name):
        """It never rests: another part rings it as soon as it has rung that one."""
        self.keep_going(name, 1)

    def echo(self, name):
        self.keep_going(name, -1)

    def keep_going(self, name, step):
        bell, other = f"b_{name}", self.bells[self.bells.index(f"b_{name}") + step]
        self.holds += [f"waits {bell}", f"rings {other}"]
        self.code += ["again: addi x9 x9 1", *call(SEND, other), *self.act(bell), *call(RECV, bell), "jal x0 again"]

    def text(self):
        return "".join(f"{line}\n" for line in self.said)


def events_of(chance, lines):
    """Events, and the greater part of interrupts that the rates allow."""
    found, steps = [], 0
    eager = chance.choice([0.3, 0.7, 1.0])
    while len(found) < EVENTS:
        ready = [line for line in lines if chance.random() < eager and line.may_rise(steps)]
        if ready:
            line = chance.choice(ready)
            line.raised.append(steps)
            found.append(f"irq {line.number}")
        elif chance.random() < 0.02:
            found.append("tick")
        else:
            found.append("step")
            steps += 1
    return found


def longest_runs(trace, priorities):
    """Of each priority the longest run of steps on end of threads of it or above. Ticks, interrupts and the world's words end none."""
    levels = sorted(set(priorities.values()))
    now, most = collections.Counter(), collections.Counter()
    for line in trace:
        ran = THREAD.match(line)
        if not ran and line != "idle":
            continue
        priority = priorities[int(ran[1], 16)] if ran else -1
        for level in levels:
            now[level] = now[level] + 1 if priority >= level else 0
            most[level] = max(most[level], now[level])
    return most


class Dealing:
    """Whether a line is dealt with soon enough, for a level."""

    def __init__(self, priority, line, most):
        self.priority, self.line, self.most = priority, line, most
        self.has_rested, self.since, self.longest = False, None, 0

    def note(self, machine, is_step, priority):
        """An event, and of a step the priority of who ran, or -1."""
        bell, _ = machine.bound[self.line]
        is_open = self.line not in machine.masked and self.line not in machine.pending
        is_dealt_with = bool(machine.receivers.get(bell)) and not machine.words.get(bell) and is_open
        if self.since is not None:
            self.since += is_step
            self.longest = max(self.longest, self.since)
        self.has_rested = self.has_rested or is_step and priority < self.priority
        if is_dealt_with or not self.has_rested:
            self.since = None
        elif self.since is None:
            self.since = 0


def numbers_of(said):
    """Of each priority its number from the start on, if there is one, and the lines that are dealt with, with their numbers."""
    bounds, lines, priority = {}, [], None
    for line in said.splitlines():
        level, dealt_with = BOUND.match(line), LINE.match(line)
        if level:
            priority = int(level[1])
            bounds[priority] = int(level[2]) if level[2] else None
        elif dealt_with:
            lines.append(Dealing(priority, int(dealt_with[1]), int(dealt_with[2])))
    return bounds, lines


def check_lines(data, events, lines, priorities, counts):
    """Each line is dealt with as soon as it is said."""
    machine = Machine(data)
    for event in events:
        label = next(trace(machine, event))
        ran = THREAD.match(label)
        for line in lines:
            line.note(machine, event == "step", priorities[int(ran[1], 16)] if ran else -1)
    for line in lines:
        assert line.longest <= line.most, f"priority {line.priority}, line {line.line}: {line.longest} steps, and at most {line.most} are said"
        counts["lines that are dealt with"] += 1
        counts["of them as late as is said"] += line.longest == line.most


def answer(*words):
    ran = subprocess.run(words, stdout=subprocess.PIPE, stderr=subprocess.PIPE, text=True, check=False)
    return ran.stdout if ran.returncode == 0 else None


def checked(chance, folder, programs, counts):
    """Compares one system; whether it was accepted."""
    microsys, tool = programs
    described = Described(chance)
    source, path, events_path = (os.path.join(folder, name) for name in ("it.sys", "it.img", "it.events"))
    with open(source, "w", encoding="ascii") as file:
        file.write(described.text())
    if answer(tool, "make", source, path) is None:
        counts["refused"] += 1
        return
    said = answer(tool, "response", source)
    assert said is not None, "no answer"
    with open(path, "rb") as file:
        data = file.read()
    image = Parts(data).image
    bounds, dealt_with = numbers_of(said)
    priorities = {MEMORY + image.offsets[thread.tcb]: thread.priority for thread in image.threads}
    assert set(bounds) == set(priorities.values()), f"priorities {sorted(bounds)}"
    events = events_of(chance, described.lines)
    with open(events_path, "w", encoding="ascii") as file:
        file.write("".join(f"{event}\n" for event in events))
    most = longest_runs(answer(microsys, "run", path, events_path).splitlines(), priorities)
    for priority, bound in bounds.items():
        counts["levels without a number" if bound is None else "levels with a number"] += 1
        if bound is not None:
            assert most[priority] <= bound, f"priority {priority}: a run of {most[priority]}, and at most {bound} is said"
            counts["numbers reached exactly"] += most[priority] == bound
    check_lines(data, events, dealt_with, priorities, counts)
    counts["systems"] += 1
    counts["events"] += EVENTS


def main(microsys, tool, count, first=0):
    counts, seed = collections.Counter(), int(first)
    while counts["systems"] < int(count):
        with tempfile.TemporaryDirectory() as folder:
            try:
                checked(random.Random(seed), folder, (microsys, tool), counts)
            except AssertionError as wrong:
                sys.exit(f"seed {seed}: {wrong}")
        seed += 1
    print("response: " + ", ".join(f"{number} {what}" for what, number in counts.items()))


if __name__ == "__main__":
    if len(sys.argv) not in (4, 5):
        sys.exit(__doc__)
    main(*sys.argv[1:])
