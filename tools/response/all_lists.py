#!/usr/bin/env python3
"""All lists of events that keep the rates, for small systems: the longest run of each level, by a search over the states of a reference kernel
(`tools/traces`) with what the rates still allow, beside what `response` says.

  tools/response/all_lists.py TOOL MICROSYS

States are finite: a register that only counts itself is left out, and so is the rest of a time slice where no two threads have one priority. Of
each level there is a run that is longest from the start on, and one once it has rested: none is above the number that is said, and once rested
those of REACHED are the number. The list of events that leads to each is run by `microsys`, too.
"""

import collections
import os
import subprocess
import sys
import tempfile

HERE = os.path.dirname(os.path.realpath(__file__))
sys.dont_write_bytecode = True
sys.path.insert(0, HERE)
from rows import levels_of  # noqa: E402
from systems import MEMORY, longest_runs  # noqa: E402
from machine import SLICE, Machine  # noqa: E402
from programs import Instruction  # noqa: E402

SAMPLES = f"{HERE}/../../samples"
# The name, its text, the lines with bursts and periods.
SYSTEMS = [
    ("bell", f"{SAMPLES}/bell.txt", {3: (1, 9)}),
    ("controller with watchdog", f"{HERE}/rows/watchdog.sys", {1: (1, 40), 2: (1, 40)}),
    ("equal", f"{HERE}/rows/equal.txt", {1: (1, 20), 2: (1, 20)}),
    ("below", f"{HERE}/rows/below.txt", {1: (1, 20)}),
    ("chain", f"{HERE}/rows/chain.txt", {1: (1, 100)}),
]
# The levels whose number once rested is reached exactly.
REACHED = {("controller with watchdog", 120), ("controller with watchdog", 100), ("equal", 100), ("below", 100), ("chain", 110)}


def counters(image):
    """The registers of each thread that it only counts by themselves, and so never looks at."""
    found = []
    for thread in image.threads:
        looked, counted = set(), set()
        for word in thread.words:
            it = Instruction(word)
            if it.kind == "alu" and it.immediate is not None and it.rd == it.rs1:
                counted.add(it.rd)
            else:
                looked |= {getattr(it, name, 0) or 0 for name in ("rs1", "rs2")}
        # the registers that a call may read
        found.append(counted - looked - set(range(10, 18)) - {18, 19, 20, 21})
    return found


class Search:
    """The states of a system with what its rates allow, and how each came."""

    def __init__(self, data, rates):
        self.machine, self.rates = Machine(data), sorted(rates.items())
        self.threads = self.machine.threads
        self.left_out = counters(self.machine.image)
        self.has_equals = len({it.priority for it in self.threads}) < len(self.threads)
        self.number = {id(it): at for at, it in enumerate(self.threads)}
        self.frames = sorted(self.machine.memory)
        self.edges, self.numbers, self.came = [], {}, []
        self.explore()

    def key(self, due):
        machine, number = self.machine, self.number
        threads = tuple(
            (tuple(0 if at in out else it for at, it in enumerate(one.registers)), one.pc, one.slice if self.has_equals else 0, one.caller and number[id(one.caller)])
            for one, out in zip(self.threads, self.left_out)
        )
        ready = tuple(number[id(it)] for it in machine.ready)
        receivers = tuple(sorted((place, tuple(number[id(it)] for it in some)) for place, some in machine.receivers.items() if some))
        senders = tuple(sorted((place, tuple((number[id(it[0])], *it[1:]) for it in some)) for place, some in machine.senders.items() if some))
        words = tuple(sorted((place, word) for place, word in machine.words.items() if word))
        memory = tuple(bytes(machine.memory[place]) for place in self.frames)
        return threads, ready, receivers, senders, words, frozenset(machine.masked), frozenset(machine.pending), memory, due

    def restore(self, state):
        machine, threads = self.machine, self.threads
        kept, ready, receivers, senders, words, masked, pending, memory, due = state
        for one, (registers, pc, slice_left, caller) in zip(threads, kept):
            one.registers, one.pc, one.slice = list(registers), pc, slice_left or SLICE
            one.caller = None if caller is None else threads[caller]
        machine.ready = [threads[it] for it in ready]
        machine.receivers = {place: [threads[it] for it in some] for place, some in receivers}
        machine.senders = {place: [(threads[it[0]], *it[1:]) for it in some] for place, some in senders}
        machine.words, machine.masked, machine.pending = dict(words), set(masked), set(pending)
        machine.memory = {place: bytearray(some) for place, some in zip(self.frames, memory)}
        return due

    def events(self, due):
        """What may happen: its event, whose step it is, and what is due then."""
        runner = self.machine.current()
        yield "step", runner.priority if runner else -1, tuple(max(0, it - 1) for it in due)
        if self.has_equals:
            yield "tick", None, due
        for at, (line, (burst, period)) in enumerate(self.rates):
            if due[at] + period <= burst * period:
                yield f"irq {line}", None, (*due[:at], due[at] + period, *due[at + 1 :])

    def put(self, state, came):
        if state not in self.numbers:
            self.numbers[state] = len(self.came)
            self.came.append(came)
            self.edges.append([])
            self.open.append(state)
        return self.numbers[state]

    def explore(self):
        self.open = collections.deque()
        self.put(self.key(tuple(0 for _ in self.rates)), None)
        while self.open:
            state = self.open.popleft()
            number, due = self.numbers[state], self.restore(state)
            for event, priority, then in list(self.events(due)):
                self.restore(state)
                if event == "step":
                    self.machine.step()
                elif event == "tick":
                    self.machine.tick()
                else:
                    self.machine.interrupt(int(event.split()[1]))
                self.edges[number].append((event, priority, self.put(self.key(then), (number, event))))

    def longest(self, level, is_from_start):
        """The longest run of a level that begins at the start, or else where it has rested, and the events that lead to its end."""
        most, came = {}, {}
        if is_from_start:
            most[0] = 0
        for edges in self.edges:
            for _, priority, there in edges:
                if priority is not None and priority < level:
                    most[there] = 0
        todo = collections.deque(most)
        while todo:
            here = todo.popleft()
            for event, priority, there in self.edges[here]:
                if priority is not None and priority < level:
                    continue
                run = most[here] + (priority is not None)
                assert run < 10_000, "no end"
                if most.get(there, -1) < run:
                    most[there], came[there] = run, (here, event)
                    todo.append(there)
        end = max(most, key=most.get)
        return most[end], self.way(end, came)

    def way(self, end, came):
        """The events that lead to a state: the run's, and before them those to where it begins."""
        events = []
        while end in came:
            end, event = came[end]
            events.append(event)
        while self.came[end]:
            end, event = self.came[end]
            events.append(event)
        return events[::-1]


def run_by(microsys, data, events, priorities, level):
    with tempfile.TemporaryDirectory() as folder:
        image, path = os.path.join(folder, "it.img"), os.path.join(folder, "it.events")
        with open(image, "wb") as file:
            file.write(data)
        with open(path, "w", encoding="ascii") as file:
            file.write("".join(f"{event}\n" for event in events))
        ran = subprocess.run([microsys, "run", image, path], stdout=subprocess.PIPE, text=True, check=True)
    return longest_runs(ran.stdout.splitlines(), priorities)[level]


def made(tool, path):
    """The image of a text, with its certificates."""
    with tempfile.TemporaryDirectory() as folder:
        image = os.path.join(folder, "it.img")
        subprocess.run([tool, "make", path, image], stdout=subprocess.DEVNULL, check=True)
        with open(image, "rb") as file:
            return file.read()


def check(tool, microsys, name, path, rates):
    words = [str(it) for line, (burst, period) in rates.items() for it in (line, burst, period)]
    said = levels_of(subprocess.run([tool, "response", path, *words], stdout=subprocess.PIPE, text=True, check=True).stdout)
    data = made(tool, path)
    search, wrong = Search(data, rates), 0
    priorities = {MEMORY + it.tcb: it.priority for it in search.threads}
    for level, numbers in said.items():
        if numbers[0] is None:
            continue
        runs = []
        for bound, is_from_start in zip(numbers, (True, False)):
            run, events = search.longest(level, is_from_start)
            reached = run_by(microsys, data, events, priorities, level)
            wrong += run > bound or reached < run
            runs.append(f"{run} of {bound}")
            wrong += not is_from_start and (name, level) in REACHED and run != bound
        print(f"{name}, priority {level}: {runs[0]} from the start, {runs[1]} once rested; {len(search.came):,} states")
    return wrong


def main(tool, microsys):
    wrong = sum(check(tool, microsys, *system) for system in SYSTEMS)
    print(f"response, all lists: {len(SYSTEMS)} systems, {wrong} numbers otherwise")
    return 1 if wrong else 0


if __name__ == "__main__":
    if len(sys.argv) != 3:
        sys.exit(__doc__)
    sys.exit(main(*sys.argv[1:]))
