#!/usr/bin/env python3
"""Writes systems with device pages at random, and compares what the product says of them with what is reckoned.

  tools/devices/systems.py write SEED FOLDER      writes SEED.txt and SEED.events
  tools/devices/systems.py reckon COUNT           until COUNT systems are accepted: verdicts, runs, and runs in which the world errs
  tools/devices/systems.py compare PROGRAM COUNT  verdicts and runs, and the product's bytes, verdicts and traces beside them

Threads load from device pages and store there, index and count by what they load, map and unmap them by capabilities and copies, and have
them as message buffers. A third of 1,000 events are words that the world writes there, of any value; it looks at others. No line may have a
fault or an error, and no thread may run more instructions from one wait to the next than its budget. At the end a thread puts the bytes of
all other pages. Every third system is quiet: nobody loads from a device page, and it runs without the writes, too; then all other lines and
each byte outside of device pages are the same. Verdicts are reckoned by `tools/damage`, traces by `tools/traces`, both apart from the
product, which gives the same lines where the events come over a pipe. `reckon` also runs each system with a world that writes or looks
wrongly in several ways, to show how many traces reveal it.
"""

import collections
import os
import random
import subprocess
import sys
import tempfile

HERE = os.path.dirname(os.path.realpath(__file__))
sys.path[:0] = [f"{HERE}/../damage", f"{HERE}/../traces"]
sys.dont_write_bytecode = True
from beside import check_product, constant, written  # noqa: E402
from calls import A0, A1, A7, WORDS  # noqa: E402
from machine import CALL, MEMORY, NB_SEND, PUT_CHAR, RECV, REPLY_RECV, SEND, Machine, trace  # noqa: E402
from reckon import verdict  # noqa: E402
from rules import is_device, read, well_formed  # noqa: E402
from texts import assembled  # noqa: E402

EVENTS = 1000
# the slots of a thread: its bell, its line's handler, its root table and CNode, a device page, a free one, and ports
BELL, LINE, SPACE, NODE, HELD, FREE, PORT = range(1, 8)
# where its pages are mapped, which registers have their addresses, and where it maps what it holds
PAGES, PAGE_REGISTERS, MAPPED = (0x2000, 0x3000, 0x4000), (5, 6, 7), 0x8000
# what is loaded is kept in these; an index, an address, a count
KEPT, INDEX, ADDRESS, COUNT = (22, 23, 24, 25), 26, 27, 28
# how many bytes of a page programs use, and how often a loop turns at most
USED, TURNS = 256, 15
FIRST_LINE, LAST_LINE = 3, 2
MESSAGE_BYTES = 480


class Loop:
    """A loop that turns as often as a register says, up to TURNS."""

    def __init__(self, body):
        self.body = body

    def length(self):
        return len(self.body) + 3


class Wait:
    """A system call after which the budget is whole again."""


class Thread:
    """A thread: its pages, as names and rights, and its program, in which labels are numbered."""

    def __init__(self, chance, quiet):
        self.chance, self.quiet, self.code, self.labels, self.capabilities = chance, quiet, [], 0, []
        self.pages, self.held, self.buffer = [], None, None

    # ---- pieces of programs

    def label(self):
        self.labels += 1
        return f"on{self.labels}"

    def calls(self, call, slot):
        self.code += [f"addi x{A0} x0 {slot}", f"addi x{A7} x0 {call}", Wait() if call in (CALL, SEND, RECV, REPLY_RECV) and slot != LINE else "ecall"]

    def invokes(self, slot, label, *words):
        self.code += [f"addi x{A0} x0 {slot}", *constant(A1, label << 12 | len(words)), f"addi x{A7} x0 {SEND}"]
        for register, word in zip(WORDS, words):
            self.code += constant(register, word)
        self.code += ["ecall"]

    def page(self, loads=False, stores=False):
        """The register of a page that it may load from, or store to; or none."""
        fit = [
            register for register, (name, rights) in zip(PAGE_REGISTERS, self.pages)
            if not (stores and not rights & 1) and not (loads and self.quiet and name.startswith("dev"))
        ]
        return self.chance.choice(fit) if fit else None

    def place(self, width="w"):
        return self.chance.randrange(0, USED, {"w": 4, "h": 2, "b": 1}[width])

    def loads(self):
        page = self.page(loads=True)
        if page:
            name = self.chance.choice(["lw", "lw", "lh", "lhu", "lb", "lbu"])
            self.code += [f"{name} x{self.chance.choice(KEPT)} {self.place(name[1])}(x{page})"]

    def stores(self):
        page = self.page(stores=True)
        if page:
            name = self.chance.choice(["sw", "sw", "sh", "sb"])
            self.code += [f"{name} x{self.chance.choice(KEPT)} {self.place(name[1])}(x{page})"]

    def mixes(self):
        to, first, other = (self.chance.choice(KEPT) for _ in range(3))
        self.code += [f"{self.chance.choice(['add', 'sub', 'xor'])} x{to} x{first} x{other}"]

    def puts(self):
        self.code += [f"addi x{A0} x{self.chance.choice(KEPT)} 0", f"addi x{A7} x0 {PUT_CHAR}", "ecall"]

    def indexes(self):
        """By a part of what was loaded it loads from a page, or stores there."""
        page, stores = self.page(loads=True), self.page(stores=True)
        page = self.chance.choice([it for it in (page, stores) if it] or [None])
        if page:
            self.code += [f"andi x{INDEX} x{self.chance.choice(KEPT)} {USED - 4}", f"add x{ADDRESS} x{INDEX} x{page}"]
            self.code += [f"{'sw' if page == stores else 'lw'} x{self.chance.choice(KEPT)} 0(x{ADDRESS})"]

    def skips(self):
        """A branch on what was loaded, over an instruction that gives no range."""
        label, (first, other, to) = self.label(), (self.chance.choice(KEPT) for _ in range(3))
        self.code += [f"{self.chance.choice(['beq', 'bne', 'bltu', 'bge'])} x{first} x{other} {label}", f"xor x{to} x{first} x{other}"]
        self.code += [f"{label}: add x{to} x{to} x{first}"]

    def counts(self):
        """As many turns as a part of what was loaded says."""
        stores, loads = self.page(stores=True), self.page(loads=True)
        body = [f"sw x{COUNT} {self.place()}(x{stores})"] if stores else []
        body += [f"lw x{self.chance.choice(KEPT)} {self.place()}(x{loads})"] if loads else []
        body += [f"add x{KEPT[0]} x{KEPT[0]} x{KEPT[1]}"]
        self.code += [f"andi x{COUNT} x{self.chance.choice(KEPT)} {TURNS}", Loop(body)]

    def maps(self):
        """Maps the device page that it holds, or a copy, and takes it away again."""
        if not self.held:
            return
        copies, slot = self.chance.random() < 0.5, HELD
        rights = self.chance.choice([2, 3])
        if copies:
            slot = FREE
            self.invokes(NODE, 7, FREE, 32, HELD, 32, rights)
        self.invokes(slot, 13, SPACE, 32, MAPPED, rights)
        self.code += [f"lui x{ADDRESS} {MAPPED >> 12}"]
        for _ in range(self.chance.randrange(1, 4)):
            if rights & self.held[1] & 1 and self.chance.random() < 0.5:
                self.code += [f"sw x{self.chance.choice(KEPT)} {self.place()}(x{ADDRESS})"]
            elif not self.quiet:
                self.code += [f"lw x{self.chance.choice(KEPT)} {self.place()}(x{ADDRESS})"]
        if not copies or self.chance.random() < 0.5:
            self.invokes(slot, 14)
        if copies:
            self.invokes(NODE, *self.chance.choice([(11, FREE, 32), (12, HELD, 32)]))

    def acts(self, least, most):
        for _ in range(self.chance.randrange(least, most)):
            self.chance.choice([self.loads, self.loads, self.stores, self.mixes, self.puts, self.indexes, self.skips, self.counts, self.maps])()

    # ---- what it does in turn

    def rung(self):
        """Waits for its bell, and acknowledges its line."""
        self.calls(RECV, BELL)
        self.invokes(LINE, 18)

    def asks(self):
        call = self.chance.choice([CALL, CALL, SEND, NB_SEND])
        for register in self.chance.sample(WORDS, 3):
            self.code += [f"add x{register} x0 x{self.chance.choice(KEPT)}"]
        self.code += constant(A1, self.chance.randrange(2**20) << 12 | self.chance.choice([0, 1, 8, 9, 40, 119, 120, 127, self.chance.randrange(128)]))
        self.calls(call, PORT)
        if call == CALL:
            self.code += [f"addi x{self.chance.choice(KEPT)} x{self.chance.choice(WORDS)} 0"]

    def serves(self):
        self.code += constant(A1, self.chance.randrange(16) << 12 | self.chance.choice([0, 3, 9, 64, 120]))
        self.calls(REPLY_RECV, PORT)
        self.code += [f"addi x{self.chance.choice(KEPT)} x{self.chance.choice([A1, *WORDS])} 0"]

    def writes_program(self, role):
        if role == "service":
            if self.chance.random() < 0.5:
                self.rung()
            self.serves()
            self.acts(0, 3)
        else:
            self.rung()
            self.acts(1, 4) if role == "client" else self.acts(3, 9)
        if role == "client":
            self.asks()
            self.acts(0, 4)

    # ---- its text

    def known(self):
        return [f"range x{register} {PAGES[at]} {PAGES[at]}" for at, register in enumerate(PAGE_REGISTERS[:len(self.pages)])]

    def to_wait(self):
        """Of each item, how many instructions there are at most from it to the end of the next wait; and the greatest number after a wait."""
        costs = []
        least = next(at for at, it in enumerate(self.code) if isinstance(it, Wait)) + 1
        after, budget = least + 1, least
        for it in reversed(self.code):
            if isinstance(it, Wait):
                budget, after = max(budget, after), 1
            else:
                after += 1 + TURNS * it.length() if isinstance(it, Loop) else 1
            costs.append(after)
        return costs[::-1], budget

    def lines(self):
        costs, budget = self.to_wait()
        said, first, ends = [f"measure {costs[0]}", *self.known()], "start: ", None
        for at, it in enumerate(self.code):
            if ends:
                said += [f"measure {costs[at]}", *self.known()]
                first, ends = f"{ends}: ", None
            if isinstance(it, Loop):
                loop, ends = self.label(), self.label()
                rest = costs[at] - TURNS * it.length()
                said += [f"measure {rest} x{COUNT} {it.length()}", f"range x{COUNT} 0 {TURNS}", *self.known(), f"{loop}: beq x{COUNT} x0 {ends}"]
                said += [f"addi x{COUNT} x{COUNT} -1"]
                said += [f"measure {rest + it.length() - 2} x{COUNT} {it.length()}", f"range x{COUNT} 0 {TURNS - 1}", *self.known()]
                said += [*it.body, f"jal x0 {loop}"]
                continue
            said += [first + ("ecall" if isinstance(it, Wait) else it)]
            first = ""
        if ends:
            said += [f"measure {costs[0] + 1}", *self.known()]
            first = f"{ends}: "
        return [*said, f"{first}jal x0 start"], budget


def last_thread(pages):
    """The lines of the thread that puts the bytes of each page when it wakes, its budget, and its steps from there to its next wait."""
    turn, rest, said = 5, 1 + 3, []
    for number in reversed(range(pages)):
        known = [f"range x{ADDRESS} {16 + number << 12} {16 + number << 12}", f"range x{A7} {PUT_CHAR} {PUT_CHAR}"]
        after = [f"measure {rest}"]
        loop = [
            f"lui x{ADDRESS} {16 + number}", f"addi x{A7} x0 {PUT_CHAR}", f"addi x{COUNT} x0 {USED}",
            f"measure {rest} x{COUNT} {turn}", f"range x{COUNT} 1 {USED}", *known,
            f"page{number}: add x{INDEX} x{ADDRESS} x{COUNT}", f"lbu x{A0} -1(x{INDEX})", "ecall", f"addi x{COUNT} x{COUNT} -1",
            f"measure {rest + 1} x{COUNT} {turn}", f"range x{COUNT} 0 {USED - 1}", *known, f"bne x{COUNT} x0 page{number}",
        ]
        said = [*loop, *after, *said]
        rest += 3 + turn * USED
    begin = ["measure 3", f"start: addi x{A0} x0 {BELL}", f"addi x{A7} x0 {RECV}", "ecall"]
    return [*begin, *said, "jal x0 start"], max(rest, 4), rest


def threads_of(chance, quiet):
    """The threads, which may be a client and its service beside others."""
    roles = ["plain"] * chance.randrange(1, 5)
    if chance.random() < 0.6:
        roles = ["service", "client", *chance.choice([[], [], ["client"], ["plain"]])]
    devices, others, buffers = [f"dev{it}" for it in range(chance.randrange(1, 4))], [f"mem{it}" for it in range(chance.randrange(1, 3))], []
    threads = []
    for role in roles:
        it = Thread(chance, quiet)
        names = chance.sample([*devices, *others], min(len(devices) + len(others), chance.randrange(1, 4)))
        it.pages = [(name, chance.choice([2, 3, 3])) for name in names]
        if chance.random() < 0.5:
            it.held = chance.choice(devices), chance.choice([2, 3])
        if role != "plain" and chance.random() < 0.8:
            it.buffer = f"dev_buffer{len(buffers)}" if not quiet and chance.random() < 0.8 else f"mem_buffer{len(buffers)}"
            buffers.append(it.buffer)
            if len(it.pages) < 3 and chance.random() < 0.7:
                it.pages.append((it.buffer, 3))
        it.role = role
        it.writes_program(role)
        threads.append(it)
    return threads, [*devices, *(it for it in buffers if it.startswith("dev"))], [*others, *(it for it in buffers if it.startswith("mem"))]


def text_of(chance, threads, devices, others):
    said = ["memory 20 8", "untyped u 0x80000 19", "object port u endpoint", "object end u notification", "object last_bell u notification"]
    pages = [f"object {it} u frame 1" for it in devices] + [f"object {it} u frame" for it in others]
    chance.shuffle(pages)
    said += pages
    for number in range(len(threads) + 1):
        said += [f"object {kind}{number} u {kind}" for kind in ("frame", "root", "table", "tcb", "notification")] + [f"object cs{number} u cnode 4"]
    said += [f"irq line{number} {FIRST_LINE + number} notification{number} 1" for number in range(len(threads))]
    last = len(threads)
    said += [f"irq last {LAST_LINE} notification{last} 1"]
    for number in range(last + 1):
        said += [f"table root{number} 0 table{number}", f"map root{number} 0x1000 frame{number} 4", f"cap cs{number} {BELL} notification{number} 2 0"]
    for number, it in enumerate(threads):
        said += [f"cap cs{number} {LINE} line{number} 0 0", f"cap cs{number} {SPACE} root{number} 0 0", f"cap cs{number} {NODE} cs{number} 0 28"]
        said += [f"cap cs{number} {HELD} {it.held[0]} {it.held[1]} 0"] if it.held else []
        said += [f"cap cs{number} {PORT} port {2 if it.role == 'service' else 9} {0 if it.role == 'service' else number}"]
        said += [f"map root{number} {PAGES[at]} {name} {rights}" for at, (name, rights) in enumerate(it.pages)]
    said += [f"map root{last} {16 + number << 12} {name} 2" for number, name in enumerate(others)]
    said += [f"data {name} " + " ".join(str(chance.randrange(2**32)) for _ in range(chance.randrange(1, 128))) for name in [*devices, *others] if chance.random() < 0.7]
    for number, it in enumerate(threads):
        lines, budget = it.lines()
        said += [f"thread tcb{number} cs{number} 28 root{number} {chance.choice([99, 100, 100, 101])} {budget} 0 start 0x1000"]
        said += [f"buffer {it.buffer}"] if it.buffer else []
        said += [f"reg x{register} {PAGES[at]}" for at, register in enumerate(PAGE_REGISTERS[:len(it.pages)])]
        said += [f"reg x{register} {chance.randrange(1, 2**32)}" for register in KEPT]
        said += [*lines, "end"]
    lines, budget, steps = last_thread(len(others))
    said += [f"thread tcb{last} cs{last} 28 root{last} 255 {budget} 0 start 0x1000", *lines, "end"]
    return "".join(f"{line}\n" for line in said), steps


def some_place(chance):
    """A word of a page: of those that programs use, of a message in a buffer, or any."""
    return 4 * chance.randrange(chance.choice([USED, USED, MESSAGE_BYTES, 4096]) // 4)


def events_of(chance, devices, lines, steps):
    """The events of a run, and then those of the last thread, and the words that programs may have stored to device pages."""
    found = []
    for _ in range(EVENTS):
        kind, at = chance.random(), MEMORY + chance.choice(devices) + some_place(chance)
        if kind < 1 / 3:
            found.append(f"write {at:#x} {chance.choice([0, 1, TURNS, 2**31, 2**32 - 1, *[chance.randrange(2**32)] * 4])}")
        elif kind < 0.38:
            found.append(f"read {at:#x}")
        elif kind < 0.45:
            found.append(chance.choice(["tick", *[f"irq {FIRST_LINE + chance.randrange(lines)}"] * 4]))
        else:
            found.append("step")
    found += [f"irq {LAST_LINE}", f"step {steps}"]
    return found + [f"read {MEMORY + it + place:#x}" for it in devices for place in range(0, USED, 4)]


def device_places(data):
    """Where the device pages of an image are in memory."""
    image = read(data)
    well_formed(image)
    return [place for number, place in enumerate(image.offsets) if is_device(image, number)]


def system(seed):
    """The text of a system, its events, and whether nobody loads from its device pages."""
    chance = random.Random(seed)
    quiet = seed % 3 == 0
    threads, devices, others = threads_of(chance, quiet)
    text, steps = text_of(chance, threads, devices, others)
    events = events_of(chance, device_places(assembled(text)), len(threads), steps)
    return text, "".join(f"{event}\n" for event in events), quiet


def check_live(program, seed, data, events, lines):
    """Asserts that the product gives the same lines where the events come over a pipe."""
    with tempfile.NamedTemporaryFile(suffix=".img") as image:
        image.write(data)
        image.flush()
        ran = subprocess.run([program, "run", image.name, "-"], input=events.encode(), capture_output=True, check=False)
    assert ran.stdout.decode().splitlines() == lines and ran.returncode == 0, f"{seed}: another live run"


def without_world(lines):
    """The lines of a trace or of a list of events but those of the world's writes and looks."""
    return [line for line in lines if line.split()[0] not in ("write", "read")]


def keeps_budgets(machine, lines):
    """Asserts that no thread runs more instructions from one wait to the next than its budget."""
    budgets = {f"{MEMORY + machine.image.offsets[it.tcb]:08x}": it.budget for it in machine.image.threads}
    ran = collections.Counter()
    for line in lines:
        thread = line.split()[0]
        if thread in budgets:
            ran[thread] += 1
            assert ran[thread] <= budgets[thread], line
            if line.endswith(" wait"):
                ran[thread] = 0


def checked_run(data, events):
    """The machine and the lines of a run in which nothing is at fault."""
    machine = Machine(data)
    lines = list(trace(machine, events))
    assert not any(" fault " in line or " error " in line for line in lines)
    keeps_budgets(machine, lines)
    return machine, lines


def same_without_writes(machine, lines, other, other_lines):
    """Asserts that nothing but device pages, and what the world sees there, differs from a run without the writes."""
    devices = {place for number, place in enumerate(machine.image.offsets) if is_device(machine.image, number)}
    assert without_world(lines) == other_lines
    for place in set(machine.memory) | set(other.memory):
        assert place in devices or machine.frame(place) == other.frame(place)


class Lost(Machine):
    """The world's last byte is lost."""

    def write(self, address, word):
        frame, place = self.word_at(address)
        frame[place:place + 3] = word.to_bytes(4, "little")[:3]
        return f"write {address:08x} {word:08x}"


class Turned(Machine):
    """The world's bytes are the other way round."""

    def write(self, address, word):
        frame, place = self.word_at(address)
        frame[place:place + 4] = word.to_bytes(4, "big")
        return f"write {address:08x} {word:08x}"


class Late(Machine):
    """A write of the world is there when the next comes."""

    late = None

    def write(self, address, word):
        if self.late:
            super().write(*self.late)
        self.late = address, word
        return f"write {address:08x} {word:08x}"


class Beside(Machine):
    """A write of the world reaches the next word of the page, too."""

    def write(self, address, word):
        super().write(address & ~4095 | (address + 4) % 4096, word)
        return super().write(address, word)


class Old(Machine):
    """A look shows what the page had at the beginning of the run."""

    def __init__(self, data):
        super().__init__(data)
        self.first = {place: bytes(frame) for place, frame in self.memory.items()}

    def show(self, address):
        frame = self.first.get(address - MEMORY & ~4095, bytes(4096))
        return f"read {address:08x} {int.from_bytes(frame[address % 4096:address % 4096 + 4], 'little'):08x}"


class Unseen(Machine):
    """Who waits to send has the words sent that were in its buffer when it began to wait."""

    def __init__(self, data):
        super().__init__(data)
        self.early = {}

    def send(self, runner, call, held):
        if runner.buffer is not None:
            self.early[runner.buffer] = bytes(self.frame(runner.buffer))
        return super().send(runner, call, held)

    def copy_words(self, sender, receiver, first, end):
        words = self.early.get(sender.buffer, self.frame(sender.buffer))
        self.frame(receiver.buffer)[4 * first:4 * end] = words[4 * first:4 * end]


WRONG = [Lost, Turned, Late, Beside, Old, Unseen]


def reckoned(program, seed, revealed):
    """`accepted`, also `quiet`, or the name of the refusal. Notes which errors of the world the trace reveals."""
    text, events, quiet = system(seed)
    data = assembled(text)
    wanted, lines = verdict(data), []
    if wanted == "accepted":
        machine, lines = checked_run(data, events)
    if program:
        check_product(program, seed, (text, events), (data, wanted, lines))
    if program and wanted == "accepted":
        check_live(program, seed, data, events, lines)
    if wanted != "accepted":
        return wanted.split()[2]
    if quiet:
        alone = "".join(f"{event}\n" for event in without_world(events.splitlines()))
        other, other_lines = checked_run(data, alone)
        same_without_writes(machine, lines, other, other_lines)
        if program:
            check_product(program, seed, (text, alone), (data, wanted, other_lines))
    if not program:
        revealed.update(it for it in WRONG if lines != list(trace(it(data), events)))
    return "accepted, quiet" if quiet else "accepted"


def main():
    task, *rest = sys.argv[1:]
    if task == "write":
        written(rest[0], rest[1], *system(int(rest[0]))[:2])
        return 0
    program, count = rest[0] if task == "compare" else None, int(rest[-1])
    found, revealed, seed = collections.Counter(), collections.Counter(), 0
    while found["accepted"] + found["accepted, quiet"] < count:
        found[reckoned(program, seed, revealed)] += 1
        seed += 1
        if seed % 50 == 0:
            print(f".. {seed} systems", file=sys.stderr)
    # that there are such systems at all, and that each error is revealed, where there are enough of them
    assert 5 * found["accepted, quiet"] > count, found
    assert program or count < 30 or all(revealed[it] for it in WRONG), revealed
    print(f"as reckoned: {count} systems, {EVENTS} events each; " + ", ".join(f"{number} {it}" for it, number in sorted(found.items())))
    for it in [] if program else WRONG:
        print(f"revealed by {revealed[it]} traces: {it.__doc__}")
    return 0


if __name__ == "__main__":
    sys.exit(main())
