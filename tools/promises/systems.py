#!/usr/bin/env python3
"""Writes systems with promises of endpoints at random, and compares what the product says of them with what is reckoned.

  tools/promises/systems.py write SEED FOLDER      writes SEED.txt and SEED.events
  tools/promises/systems.py reckon COUNT           until COUNT systems are accepted: verdicts, and runs of 300 events
  tools/promises/systems.py compare PROGRAM COUNT  the same, and the product's bytes, verdicts and traces beside them

Services receive at an endpoint and count down from a promised word, load or store where it says, or only receive. Clients send
constants, or what lies in a range. Some of them miss the promise. Verdicts are reckoned by `tools/damage`, traces by
`tools/traces`, both apart from the product; in each run every message that comes from an endpoint has to keep its promise, and
no line may have a fault or an error.
"""

import collections
import os
import random
import sys

HERE = os.path.dirname(os.path.realpath(__file__))
sys.path[:0] = [f"{HERE}/../damage", f"{HERE}/../traces"]
sys.dont_write_bytecode = True
from beside import check_product, constant, random_events, written  # noqa: E402
from machine import Machine, trace  # noqa: E402
from calls import A0, A1, WORDS  # noqa: E402
from reckon import verdict  # noqa: E402
from texts import assembled  # noqa: E402

SEND, NB_SEND, CALL, RECV, REPLY_RECV, NB_RECV = 3, 4, 1, 5, 2, 8
EVENTS = 300
BUFFER = 0x2000


class Port:
    """An endpoint, and the promise there, if any."""

    def __init__(self, chance, number):
        self.name = f"port{number}"
        self.use = chance.choice(["count", "load", "store", "only"])
        low = chance.randrange(0, 4)
        self.badges = (low, low + chance.randrange(0, 5))
        first = {"count": (0, chance.randrange(1, 12)), "load": (BUFFER, BUFFER + 4092), "store": (BUFFER + 16, BUFFER + 1020)}
        self.words = [first.get(self.use, (5, 9))]
        for _ in range(chance.randrange(0, 8)):
            low = chance.choice([0, 1, 7, 2**31, 2**32 - 1])
            self.words.append((low, chance.randrange(low, 2**32)))
        # who only receives may do so where nothing is promised, or no word
        self.is_promised = self.use != "only" or chance.random() < 0.7
        if self.use == "only" and chance.random() < 0.3:
            self.words, self.badges = [], (0, 2**28 - 1)

    def line(self):
        return f"promise {self.name} " + " ".join(f"{low} {high}" for low, high in [self.badges, *self.words])


class Client:
    """Sends to a port in a loop, and counts its rounds in x28."""

    def __init__(self, chance, port):
        self.port, self.call = port, chance.choice([SEND, SEND, NB_SEND, CALL])
        misses = chance.random() < 0.15
        self.badge = chance.randint(*port.badges)
        self.length = chance.choice([len(port.words), len(port.words), 8, 9, 127])
        if misses and chance.random() < 0.5:
            self.badge, self.length = chance.choice([(port.badges[1] + 1, self.length), (self.badge, max(len(port.words) - 1, 0))])
        self.code = ["addi x28 x28 1"]
        for register, (low, high) in zip(WORDS, port.words):
            step = 4 if port.use in ("load", "store") and register == WORDS[0] else 1
            spread = max(it for it in (0, 1, 3, 7, 15, 31) if low + step * it <= high)
            if spread and chance.random() < 0.6:
                self.code += [f"andi x{register} x28 {spread}", *[f"add x{register} x{register} x{register}"] * (step // 2)]
                self.code += [*constant(29, low), f"add x{register} x{register} x29"]
            else:
                self.code += constant(register, chance.choice([low, low + step * spread]))
        if misses and port.words and chance.random() < 0.5:
            self.code += constant(WORDS[0], (port.words[0][1] + 1) % 2**32)
        self.code += [*constant(A1, chance.randrange(0, 16) << 12 | self.length), "addi x10 x0 1", f"addi x17 x0 {self.call}", "ecall"]
        # a poll is no wait: one that only sends so would run on for ever
        self.code += ["addi x10 x0 2", "addi x17 x0 5", "ecall"] if self.call == NB_SEND else []

    def rights(self):
        return 9 if self.call == CALL else 1

    def budget(self):
        return len(self.code) + 2

    def lines(self):
        return [f"measure {len(self.code)}", f"start: {self.code[0]}", *self.code[1:], "jal x0 start"]


class Service:
    """Receives at a port in a loop, and uses the first word."""

    def __init__(self, chance, port):
        self.port, self.call = port, chance.choice([RECV, REPLY_RECV])
        self.polls = chance.random() < 0.3

    def to_wait(self):
        """How many instructions there are from the start to the end of the wait."""
        return 6 if self.polls else 3

    def budget(self):
        """From after the wait to the next one: three instructions for each round, or one that uses the word and the jump."""
        return self.to_wait() + (1 + 3 * self.port.words[0][1] if self.port.use == "count" else 3)

    def lines(self):
        poll = ["addi x10 x0 1", "addi x17 x0 8", "ecall"] if self.polls else []
        use = {"load": ["lw x5 0(x12)"], "store": ["sw x12 0(x12)"]}.get(self.port.use, [])
        first, *rest = [*poll, "addi x10 x0 1", f"addi x17 x0 {self.call}", "ecall", *use]
        before = [f"measure {self.to_wait()}", f"start: {first}", *rest]
        if self.port.use != "count":
            return [*before, "jal x0 start"]
        most = self.port.words[0][1]
        return [
            *before, f"measure {self.to_wait() + 1} x12 3", f"range x12 0 {most}", "loop: beq x12 x0 start", "addi x12 x12 -1",
            f"measure {self.to_wait() + 2} x12 3", f"range x12 0 {most - 1}", "jal x0 loop",
        ]


def system(seed):
    """The text of a system, and its events."""
    chance = random.Random(seed)
    ports = [Port(chance, number) for number in range(chance.randrange(1, 4))]
    threads = [Service(chance, port) for port in ports]
    threads += [Client(chance, chance.choice(ports)) for _ in range(chance.randrange(1, 5))]
    said = ["memory 20 8", "untyped u 0x80000 19"]
    said += [f"object {port.name} u endpoint" for port in ports] + ["object pause u notification"]
    for number in range(len(threads)):
        said += [f"object {kind}{number} u {kind}" for kind in ("frame", "root", "table", "tcb")] + [f"object cs{number} u cnode 4"]
        said += [f"object data{number} u frame"]
    for number, thread in enumerate(threads):
        rights, badge = (thread.rights(), thread.badge) if isinstance(thread, Client) else (2, 0)
        said += [f"cap cs{number} 1 {thread.port.name} {rights} {badge}", f"cap cs{number} 2 pause 2 0"]
        said += [f"table root{number} 0 table{number}", f"map root{number} 0x1000 frame{number} 4", f"map root{number} {BUFFER} data{number} 3"]
    said += ["irq clock 3 pause 1"] + [port.line() for port in ports if port.is_promised]
    for number, thread in enumerate(threads):
        priority = chance.choice([100, 100, 99])
        said += [f"thread tcb{number} cs{number} 28 root{number} {priority} {thread.budget()} 0 start 0x1000", *thread.lines(), "end"]
    events = random_events(chance, EVENTS, ["tick", "irq 3"])
    return "".join(f"{line}\n" for line in said), "".join(f"{event}\n" for event in events)


class Promising(Machine):
    """A run in which each message from an endpoint keeps its promise."""

    def __init__(self, data):
        super().__init__(data)
        self.promises = {self.image.offsets[endpoint]: content for endpoint, *content in self.image.promises}
        self.place, self.kept = None, 0

    def send(self, runner, call, held):
        self.place = held[1]
        return super().send(runner, call, held)

    def reply(self, runner):
        self.place = None
        super().reply(runner)

    def receive(self, runner, call, held):
        self.place = held[1]
        return super().receive(runner, call, held)

    def deliver(self, sender, receiver, badge):
        super().deliver(sender, receiver, badge)
        if self.place in self.promises:
            badges, words = self.promises[self.place]
            assert badges[0] <= receiver.registers[A0] <= badges[1]
            assert len(words) <= receiver.registers[A1] & 127
            assert all(low <= receiver.registers[it] <= high for it, (low, high) in zip(WORDS, words))
            self.kept += 1


def reckoned(program, seed):
    """`accepted` or the number of the refusal, and how many messages kept a promise in the run."""
    text, events = system(seed)
    data = assembled(text)
    wanted, machine, lines = verdict(data), None, []
    if wanted == "accepted":
        machine = Promising(data)
        lines = list(trace(machine, events))
        assert len(lines) == EVENTS and not any("fault" in line or "error" in line for line in lines), seed
    if program:
        check_product(program, seed, (text, events), (data, wanted, lines))
    return wanted.split()[-3 if machine is None else 0], machine.kept if machine else 0


def main():
    task, *rest = sys.argv[1:]
    if task == "write":
        written(rest[0], rest[1], *system(int(rest[0])))
        return 0
    program, count = rest[0] if task == "compare" else None, int(rest[-1])
    found, kept, seed = collections.Counter(), 0, 0
    while found["accepted"] < count:
        said, messages = reckoned(program, seed)
        found[said], kept, seed = found[said] + 1, kept + messages, seed + 1
    # that there are such systems at all
    assert found["PromiseNotKept"] * 20 > count and kept > 5 * count, (found, kept)
    print(f"as reckoned: {kept} messages kept a promise; " + ", ".join(f"{number} {said}" for said, number in sorted(found.items())))
    return 0


if __name__ == "__main__":
    sys.exit(main())
