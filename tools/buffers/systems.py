#!/usr/bin/env python3
"""Writes systems with message buffers at random, and compares what the product says of them with what is reckoned.

  tools/buffers/systems.py write SEED FOLDER      writes SEED.txt and SEED.events
  tools/buffers/systems.py reckon COUNT           until COUNT systems are accepted: verdicts, runs, and runs with wrong deliveries
  tools/buffers/systems.py compare PROGRAM COUNT  verdicts and runs, and the product's bytes, verdicts and traces beside them

Threads with and without buffers send, call, receive and answer messages of 0 to 127 words over endpoints, with and without
promises. They write to buffers, also to each other's, and put bytes of them and of what they received. After 300 events the
thread of the greatest priority wakes and puts a byte of each of the first 128 words of each buffer. Some systems are refused for a
buffer. Verdicts are reckoned by `tools/damage`, traces by `tools/traces`, both apart from the product; no line may have a fault or an
error. `reckon` also runs each system with each of several wrong deliveries, to show how many traces reveal them.
"""

import collections
import os
import random
import sys

HERE = os.path.dirname(os.path.realpath(__file__))
sys.path[:0] = [f"{HERE}/../damage", f"{HERE}/../traces"]
sys.dont_write_bytecode = True
from beside import check_product, constant, random_events, written  # noqa: E402
from calls import A0, A1, A7, WORDS  # noqa: E402
from machine import CALL, IN_REGISTERS, MOST_WORDS, NB_RECV, NB_SEND, PUT_CHAR, RECV, REPLY, REPLY_RECV, SEND, Machine, trace  # noqa: E402
from reckon import verdict  # noqa: E402
from texts import assembled  # noqa: E402

EVENTS = 300
# where a thread has its own page, and where another thread's
OWN, OTHER = 0x2000, 0x3000
# the slots of a thread, and the line that wakes who pauses
FROM, TO, ON, CLOCK, PAUSE = 1, 2, 3, 4, 5
LINE, LAST_LINE = 3, 5
# how many words of a page begin with something
FILLED = 128
# registers that no receive writes: the pages' addresses, and a word that changes
OWN_PAGE, OTHER_PAGE, WORD, STRIDE = 5, 6, 22, 23


def some_length(chance):
    return chance.choice([0, 1, 7, 8, 9, 10, 12, 32, 119, 120, 120, 121, 124, 127, chance.randrange(9, 119), chance.randrange(128)])


class Port:
    """An endpoint, whether who calls there is answered, and how many words are promised, if any."""

    def __init__(self, chance, number):
        self.name, self.answers = f"port{number}", chance.random() < 0.8
        self.promised = chance.randrange(1, 9) if chance.random() < 0.25 else None

    def lines(self):
        return [] if self.promised is None else [f"promise {self.name} 0 268435455" + " 0 4294967295" * self.promised]


class Thread:
    """A thread with a page, which may be its buffer, and perhaps with another thread's page."""

    def __init__(self, chance):
        self.chance, self.code, self.capabilities, self.to_wait = chance, [], [], None
        self.has_buffer, self.is_mapped = chance.random() < 0.85, chance.random() < 0.9
        self.other, self.other_rights = None, chance.choice([2, 3, 3])

    def pages(self, writes):
        own = [OWN_PAGE] if self.is_mapped else []
        return own + ([OTHER_PAGE] if self.other is not None and (self.other_rights & 1 or not writes) else [])

    def place(self):
        """A byte near the beginnings and ends of what is copied, or anywhere."""
        near = self.chance.choice([32, 36, 40, 48, 128, 476, 480, 484, 508, self.chance.randrange(16, 512)])
        return near + self.chance.randrange(-4, 4)

    def does(self, call, slot=None):
        self.code += [f"addi x{A0} x0 {slot}"] if slot else []
        self.code += [f"addi x{A7} x0 {call}", "ecall"]
        if call in (CALL, SEND, RECV, REPLY_RECV) and slot != CLOCK:
            self.to_wait = self.to_wait or len(self.code)

    def stores(self):
        pages = self.pages(True)
        for _ in range(self.chance.randrange(0, 3) if pages else 0):
            self.code += [f"sb x{WORD} {self.place()}(x{self.chance.choice(pages)})", f"add x{WORD} x{WORD} x{STRIDE}"]

    def sets_message(self, least=0, may_keep=False):
        """Sets words, and the label and the length; or leaves these as they were received."""
        for register in self.chance.sample(WORDS, self.chance.randrange(0, 4)):
            self.code += [f"add x{register} x{WORD} x{self.chance.choice([0, *WORDS])}"]
        if not may_keep or self.chance.random() < 0.6:
            self.code += constant(A1, self.chance.randrange(2**20) << 12 | max(least, some_length(self.chance)))

    def puts(self):
        """Puts bytes of what was received, and of pages."""
        pages, times = self.pages(False), self.chance.randrange(0, 4)
        self.code += [f"andi x{A0} x{A1} 127", f"addi x{A7} x0 {PUT_CHAR}", "ecall"]
        for _ in range(times if pages else 0):
            self.code += [f"lbu x{A0} {self.place()}(x{self.chance.choice(pages)})", "ecall"]
        if self.chance.random() < 0.3:
            self.code += [f"addi x{A0} x{self.chance.choice(WORDS)} 0", "ecall"]

    def sends(self, slot, port, may_keep):
        call = self.chance.choice([SEND, CALL, CALL, NB_SEND] if port.answers else [SEND, SEND, NB_SEND])
        # who promises has to know how many words there are
        self.sets_message(port.promised or 0, may_keep and port.promised is None)
        rights, badge = 9 if call == CALL else self.chance.choice([1, 9]), self.chance.randrange(2**28)
        self.capabilities.append((slot, port.name, rights, badge))
        self.does(call, slot)
        if call == CALL:
            self.puts()
        return call != NB_SEND

    def pauses(self):
        """Waits for the clock, and acknowledges it: of an invocation that has no words any length counts as none."""
        self.does(RECV, PAUSE)
        self.code += constant(A1, 18 << 12 | self.chance.choice([0, 1, 9, 120, 127]))
        self.does(SEND, CLOCK)

    def lines(self):
        begin = [f"measure {self.to_wait}", f"range x{OWN_PAGE} {OWN} {OWN}", f"range x{OTHER_PAGE} {OTHER} {OTHER}"]
        return [*begin, f"start: {self.code[0]}", *self.code[1:], "jal x0 start"]


class Client(Thread):
    """Sends to a port in a loop."""

    def __init__(self, chance, ports):
        super().__init__(chance)
        self.ports = ports

    def write(self):
        self.code = [f"add x{WORD} x{WORD} x{STRIDE}"]
        self.stores()
        waits = self.sends(TO, self.chance.choice(self.ports), False)
        if not waits or self.chance.random() < 0.2:
            self.pauses()


class Service(Thread):
    """Receives at a port in a loop, may send on to a further one, and may answer."""

    def __init__(self, chance, port, further):
        super().__init__(chance)
        self.port, self.further = port, further

    def write(self):
        self.capabilities.append((FROM, self.port.name, 2, 0))
        receives = self.chance.choice([RECV, RECV, NB_RECV, REPLY_RECV, REPLY_RECV, REPLY_RECV] if self.port.answers else [RECV, NB_RECV])
        self.code = [f"add x{WORD} x{WORD} x{STRIDE}"]
        if receives == REPLY_RECV:
            self.stores()
            self.sets_message(may_keep=True)
        self.does(receives, FROM)
        self.puts()
        self.stores()
        if self.further and self.chance.random() < 0.6:
            self.sends(ON, self.chance.choice(self.further), True)
        if receives != REPLY_RECV and self.port.answers:
            self.sets_message(may_keep=True)
            self.does(REPLY)
        if receives == NB_RECV:
            self.pauses()


def last_thread(chance, pages):
    """The lines of the thread that puts a byte of each word of each page when it wakes, and how many steps it is from there to its
    next wait."""
    code = [f"addi x{A0} x0 {PAUSE}", f"addi x{A7} x0 {RECV}", "ecall", f"addi x{A7} x0 {PUT_CHAR}"]
    for page in range(pages):
        code += [f"lui x{OWN_PAGE} {16 + page}"]
        for word in range(FILLED):
            code += [f"lbu x{A0} {4 * word + chance.randrange(4)}(x{OWN_PAGE})", "ecall"]
    return ["measure 3", f"start: {code[0]}", *code[1:], "jal x0 start"], len(code) + 1


def breach(chance, threads):
    """The buffers of threads by number, and lines, of which one may be refused."""
    buffers, lines = {number: f"data{number}" for number, it in enumerate(threads) if it.has_buffer}, []
    kind = chance.choice(["same", "held", "code", "other"] + ["none"] * 36)
    if buffers and kind != "none":
        number = chance.choice(sorted(buffers))
        if kind == "same" and number > 0:
            buffers[chance.randrange(number)] = buffers[number]
        elif kind == "held":
            lines = [f"cap cs{chance.randrange(len(threads))} 9 data{number} {chance.choice([1, 2, 3])} 0"]
        else:
            # any thread's code, the last thread's, too
            code = f"frame{chance.randrange(len(threads) + 1)}"
            buffers[number] = code if kind == "code" else f"{chance.choice(['tcb', 'root', 'cs'])}{number}"
    return buffers, lines


def threads_of(chance, ports):
    threads = [Service(chance, port, ports[number + 1:]) for number, port in enumerate(ports)]
    threads += [Client(chance, ports) for _ in range(chance.randrange(1, 4))]
    for number, it in enumerate(threads):
        if chance.random() < 0.6:
            it.other = chance.choice([other for other in range(len(threads)) if other != number] or [None])
        it.write()
    return threads


def objects(ports, count):
    """The lines of the objects: the last thread has two pages of code."""
    said = ["memory 20 8", "untyped u 0x80000 19"]
    said += [f"object {port.name} u endpoint" for port in ports] + ["object pause u notification", "object end u notification"]
    for number in range(count + 1):
        said += [f"object {kind}{number} u {kind}" for kind in ("frame", "root", "table", "tcb")]
        said += [f"object cs{number} u cnode 4", f"object data{number} u frame"]
    return said + [f"irq clock {LINE} pause 1", f"irq last {LAST_LINE} end 1", f"cap cs{count} {PAUSE} end 2 0"]


def spaces(threads):
    """The lines of what threads have mapped: data of the last thread's number is its second page of code."""
    count, said = len(threads), []
    for number in range(count + 1):
        said += [f"table root{number} 0 table{number}", f"map root{number} 0x1000 frame{number} 4"]
    said += [f"map root{count} 0x2000 data{count} 4"] + [f"map root{count} {0x1000 * (16 + number)} data{number} 2" for number in range(count)]
    for number, it in enumerate(threads):
        said += [f"map root{number} {OWN} data{number} 3"] if it.is_mapped else []
        said += [f"map root{number} {OTHER} data{it.other} {it.other_rights}"] if it.other is not None else []
    return said


def system(seed):
    """The text of a system, and its events."""
    chance = random.Random(seed)
    ports = [Port(chance, number) for number in range(chance.randrange(1, 4))]
    threads = threads_of(chance, ports)
    count = len(threads)
    said = objects(ports, count) + spaces(threads) + [line for port in ports for line in port.lines()]
    for number, it in enumerate(threads):
        said += [f"cap cs{number} {slot} {port} {rights} {badge}" for slot, port, rights, badge in it.capabilities]
        said += [f"cap cs{number} {CLOCK} clock 0 0", f"cap cs{number} {PAUSE} pause 2 0"]
        said += [f"data data{number} " + " ".join(str(chance.randrange(2**32)) for _ in range(FILLED))]
    buffers, lines = breach(chance, threads)
    said += lines
    for number, it in enumerate(threads):
        said += [f"thread tcb{number} cs{number} 28 root{number} {chance.choice([100, 100, 99, 101])} {len(it.code) + 1} 0 start 0x1000"]
        said += [f"buffer {buffers[number]}"] if number in buffers else []
        said += [f"reg x{OWN_PAGE} {OWN}", f"reg x{OTHER_PAGE} {OTHER}", f"reg x{STRIDE} {chance.randrange(1, 2**32)}", *it.lines(), "end"]
    lines, length = last_thread(chance, count)
    said += [f"thread tcb{count} cs{count} 28 root{count} 255 {length} 0 start 0x1000", *lines, "end"]
    events = [*random_events(chance, EVENTS, ["tick", f"irq {LINE}", f"irq {LINE}"]), f"irq {LAST_LINE}", f"step {length}"]
    return "".join(f"{line}\n" for line in said), "".join(f"{event}\n" for event in events)


class Counting(Machine):
    """A run that counts messages, and of those the ones whose words went by buffers, and looks at what else of a buffer changed."""

    def __init__(self, data):
        super().__init__(data)
        self.messages, self.copied = 0, 0

    def deliver(self, sender, receiver, badge):
        frames = {offset: bytes(frame) for offset, frame in self.memory.items()}
        super().deliver(sender, receiver, badge)
        end = 4 * (receiver.registers[A1] & 127)
        for offset, before in frames.items():
            low, high = (4 * IN_REGISTERS, max(end, 4 * IN_REGISTERS)) if offset == receiver.buffer else (0, 0)
            after = self.memory[offset]
            assert after[:low] == before[:low] and after[high:] == before[high:]
        self.messages += 1
        self.copied += end > 4 * IN_REGISTERS


class Past(Machine):
    """A word past the length is copied."""

    def copy_words(self, sender, receiver, first, end):
        super().copy_words(sender, receiver, first, end + 1)


class Short(Machine):
    """The last word is not copied."""

    def copy_words(self, sender, receiver, first, end):
        super().copy_words(sender, receiver, first, end - 1)


class Seventh(Machine):
    """Word 7 is copied, too."""

    def copy_words(self, sender, receiver, first, end):
        super().copy_words(sender, receiver, first - 1, end)


class Longer(Machine):
    """A length above 120 counts."""

    def length_between(self, sender, receiver):
        length = super().length_between(sender, receiver)
        return sender.registers[A1] & 127 if length == MOST_WORDS else length


class OfSender(Machine):
    """Whether the receiver has a buffer is not looked at."""

    def length_between(self, sender, receiver):
        return super().length_between(sender, sender)

    def copy_words(self, sender, receiver, first, end):
        if receiver.buffer is not None:
            super().copy_words(sender, receiver, first, end)


class OfReceiver(Machine):
    """Whether the sender has a buffer is not looked at."""

    def length_between(self, sender, receiver):
        return min(sender.registers[A1] & 127, MOST_WORDS if receiver.buffer is not None else IN_REGISTERS)

    def copy_words(self, sender, receiver, first, end):
        if sender.buffer is not None:
            super().copy_words(sender, receiver, first, end)


class NoReply(Machine):
    """A reply copies nothing."""

    replies = False

    def reply(self, runner):
        self.replies = True
        super().reply(runner)
        self.replies = False

    def copy_words(self, sender, receiver, first, end):
        if not self.replies:
            super().copy_words(sender, receiver, first, end)


class Early(Machine):
    """Words are those that the buffer had when the sender began to wait."""

    def __init__(self, data):
        super().__init__(data)
        self.early = {}

    def send(self, runner, call, held):
        if runner.buffer is not None:
            self.early[runner.buffer] = bytes(self.frame(runner.buffer))
        return super().send(runner, call, held)

    def copy_words(self, sender, receiver, first, end):
        words = self.early.get(sender.buffer, self.frame(sender.buffer))
        self.frame(receiver.buffer)[4 * first:4 * end] = words[4 * first:4 * end]


WRONG = [Past, Short, Seventh, Longer, OfSender, OfReceiver, NoReply, Early]


def reckoned(program, seed, told):
    """`accepted` or the name of the refusal, and how many messages there were, and how many of them by buffers. Notes which wrong
    deliveries the trace reveals."""
    said = system(seed)
    data = assembled(said[0])
    wanted, machine, lines = verdict(data), None, []
    if wanted == "accepted":
        machine = Counting(data)
        lines = list(trace(machine, said[1]))
        assert not any("fault" in line or "error" in line for line in lines), seed
        assert lines[-1].endswith(" wait"), seed
    if program:
        check_product(program, seed, said, (data, wanted, lines))
    elif machine:
        told.update(it for it in WRONG if lines != list(trace(it(data), said[1])))
    return (wanted.split()[2], 0, 0) if machine is None else (wanted, machine.messages, machine.copied)


def main():
    task, *rest = sys.argv[1:]
    if task == "write":
        written(rest[0], rest[1], *system(int(rest[0])))
        return 0
    program, count = rest[0] if task == "compare" else None, int(rest[-1])
    found, told, sums, seed = collections.Counter(), collections.Counter(), [0, 0], 0
    while found["accepted"] < count:
        said, *numbers = reckoned(program, seed, told)
        found[said], sums, seed = found[said] + 1, [a + b for a, b in zip(sums, numbers)], seed + 1
    # that there are such messages at all; and such systems, and each wrong delivery is reported, where there are enough of them
    assert sums[1] > count, sums
    assert count < 100 or found["BadBuffer"] and (program or all(told[it] for it in WRONG)), (found, told)
    print(f"as reckoned: {sums[0]} messages, {sums[1]} of them by buffers; " + ", ".join(f"{number} {it}" for it, number in sorted(found.items())))
    for it in [] if program else WRONG:
        print(f"told by {told[it]} traces: {it.__doc__}")
    return 0


if __name__ == "__main__":
    sys.exit(main())
