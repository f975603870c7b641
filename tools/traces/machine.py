"""A run of an accepted image by the rules of the machine and the kernel alone (docs/MANUAL.md), apart from the product.

The slots of a thread, and what calls do to them, are those of `tools/damage/calls.py`. Calls that an accepted program does not make
are not reported here, nor faults: `unverified.py` has them.
"""

import os
import sys

sys.path.insert(0, os.path.join(os.path.dirname(os.path.realpath(__file__)), "..", "damage"))
sys.dont_write_bytecode = True
from calls import A0, A1, A7, HANDLER, WORDS, Kernel, image_slots  # noqa: E402
from programs import ALL_ONES, Instruction, signed, value  # noqa: E402
from rules import ENDPOINT, FRAME, NOTIFICATION, read, well_formed  # noqa: E402
from texts import number as number_of  # noqa: E402

CALL, REPLY_RECV, SEND, NB_SEND, RECV, REPLY, YIELD, NB_RECV, PUT_CHAR = range(1, 10)
SLICE = 5
# where physical memory begins
MEMORY = 0x80000000
# how many words a message has at most, and how many of them are in registers
MOST_WORDS, IN_REGISTERS = 120, len(WORDS)
WIDTHS = {"b": 1, "h": 2, "w": 4}
TAKEN = {
    "beq": lambda x, y: x == y, "bne": lambda x, y: x != y, "bltu": lambda x, y: x < y, "bgeu": lambda x, y: x >= y,
    "blt": lambda x, y: signed(x, 32) < signed(y, 32), "bge": lambda x, y: signed(x, 32) >= signed(y, 32),
}


class Runner:
    """A thread while it runs."""

    def __init__(self, image, t):
        self.tcb, self.priority, self.slice = image.offsets[t.tcb], t.priority, SLICE
        self.root = image.offsets[t.root]
        self.buffer = None if t.buffer == ALL_ONES else image.offsets[t.buffer]
        self.registers = [0] * 32
        for register, number in t.registers:
            self.registers[register] = number
        self.pc = t.base + 4 * t.entry
        self.kernel = Kernel(image, t, image_slots(image, t))
        # who waits for this thread's reply
        self.caller = None

    def set(self, register, number):
        if register:
            self.registers[register] = number & ALL_ONES


class Machine:
    def __init__(self, data):
        self.image = image = read(data)
        self.prepare()
        self.threads = [Runner(image, t) for t in image.threads]
        self.ready = list(self.threads)
        # frames by their offsets; pages of the image's mappings by root and number
        self.memory = {image.offsets[frame]: bytearray(4096) for _, _, frame, _ in image.frames}
        self.pages = {(image.offsets[root], address >> 12): image.offsets[frame] for root, address, frame, _ in image.frames}
        for frame, words in image.contents:
            for place, word in enumerate(words):
                self.frame(image.offsets[frame])[4 * place:4 * place + 4] = word.to_bytes(4, "little")
        for runner, t in zip(self.threads, image.threads):
            for point, word in enumerate(t.words):
                self.store(runner, t.base + 4 * point, 4, word)
        # what waits at a notification or an endpoint: receivers, or (sender, call, badge, may be answered)
        self.receivers, self.senders, self.words = {}, {}, {}
        self.bound = {line: (image.offsets[notification], badge) for line, notification, badge in image.interrupts}
        self.masked, self.pending = set(), set()

    def prepare(self):
        """Finds where objects lie, and which CNodes each thread reaches."""
        well_formed(self.image)

    # ---- memory

    def frame(self, offset):
        return self.memory.setdefault(offset, bytearray(4096))

    def word_at(self, address):
        """The frame and the place in it of a word by its physical address."""
        offset = address - MEMORY
        return self.frame(offset & ~4095), offset & 4095

    def byte(self, runner, address):
        """The frame and the place in it of an address."""
        page = runner.root, address >> 12
        for capability, _ in runner.kernel.slots.values():
            if capability[0] == FRAME and capability[3] and capability[3][:2] == page:
                return self.frame(capability[1]), address & 4095
        return self.frame(self.pages[page]), address & 4095

    def load(self, runner, address, width):
        found = bytearray()
        for at in range(address, address + width):
            frame, place = self.byte(runner, at)
            found.append(frame[place])
        return int.from_bytes(found, "little")

    def store(self, runner, address, width, number):
        for at, byte in enumerate((number & 2 ** (8 * width) - 1).to_bytes(width, "little")):
            frame, place = self.byte(runner, address + at)
            frame[place] = byte

    # ---- threads

    def wake(self, runner):
        runner.slice = SLICE
        self.ready.append(runner)

    def current(self):
        """The first of the greatest priority."""
        return max(self.ready, key=lambda it: it.priority, default=None)

    def passes(self, runner):
        """It passes its system call, and can run."""
        runner.pc += 4
        self.wake(runner)

    def length_between(self, sender, receiver):
        """How many words of its message a sender can give a receiver."""
        has_buffers = sender.buffer is not None and receiver.buffer is not None
        return min(sender.registers[A1] & 127, MOST_WORDS if has_buffers else IN_REGISTERS)

    def copy_words(self, sender, receiver, first, end):
        """Words of a message go from buffer to buffer."""
        place = slice(4 * first, 4 * end)
        self.frame(receiver.buffer)[place] = self.frame(sender.buffer)[place]

    def deliver(self, sender, receiver, badge):
        length = self.length_between(sender, receiver)
        receiver.set(A0, badge)
        receiver.set(A1, sender.registers[A1] >> 12 << 12 | length)
        for register in WORDS[:length]:
            receiver.set(register, sender.registers[register])
        if length > IN_REGISTERS:
            self.copy_words(sender, receiver, IN_REGISTERS, length)

    # ---- calls; each answers its outcome

    def signal(self, notification, badge):
        waiting = self.receivers.get(notification)
        if waiting:
            runner = waiting.pop(0)
            runner.set(A0, badge)
            self.passes(runner)
        else:
            self.words[notification] = self.words.get(notification, 0) | badge

    def handed_over(self, sender, call, answers, receiver):
        """What becomes of a sender whose message was taken; whether it goes on."""
        if call == CALL and answers:
            receiver.caller = sender
        return call != CALL

    def send(self, runner, call, held):
        _, place, rights, badge = held
        if held[0] == NOTIFICATION:
            self.signal(place, badge)
            if call == CALL:
                runner.set(A0, 0)
                runner.set(A1, 0)
            runner.pc += 4
            return "plain"
        answers = bool(rights & 8)
        if self.receivers.get(place):
            receiver = self.receivers[place].pop(0)
            self.deliver(runner, receiver, badge)
            if self.handed_over(runner, call, answers, receiver):
                runner.pc += 4
            else:
                self.ready.remove(runner)
            self.passes(receiver)
        elif call == NB_SEND:
            runner.pc += 4
        else:
            self.ready.remove(runner)
            self.senders.setdefault(place, []).append((runner, call, badge, answers))
        return "plain" if call == NB_SEND else "wait"

    def receive(self, runner, call, held):
        place, outcome = held[1], "plain" if call == NB_RECV else "wait"
        if held[0] == ENDPOINT:
            runner.caller = None
            if self.senders.get(place):
                sender, how, badge, answers = self.senders[place].pop(0)
                self.deliver(sender, runner, badge)
                runner.pc += 4
                if self.handed_over(sender, how, answers, runner):
                    self.passes(sender)
                return outcome
        elif self.words.get(place):
            runner.set(A0, self.words.pop(place))
            runner.pc += 4
            return outcome
        if call == NB_RECV:
            runner.set(A0, 0)
            runner.pc += 4
        else:
            self.ready.remove(runner)
            self.receivers.setdefault(place, []).append(runner)
        return outcome

    def reply(self, runner):
        if runner.caller:
            self.deliver(runner, runner.caller, 0)
            self.passes(runner.caller)
            runner.caller = None

    def acknowledge(self, line):
        self.masked.discard(line)
        if line in self.pending and line in self.bound:
            self.pending.discard(line)
            self.signal(*self.bound[line])
            self.masked.add(line)

    def invoke(self, runner, call, slot):
        held, info = runner.kernel.held(slot), runner.registers[A1]
        frames = {it[1] for it, _ in runner.kernel.slots.values() if it[0] == FRAME}
        words = [runner.registers[it] for it in WORDS]
        if held[0] == HANDLER:
            self.acknowledge(held[2])
        elif held[0] == FRAME or info >> 12 != 1:
            runner.kernel.invoke(slot, info >> 12, words[:4] if held[0] == FRAME else words[:info & 127])
        else:
            runner.kernel.invoke(slot, 1, words[:6])
        for it, _ in runner.kernel.slots.values():
            if it[0] == FRAME and it[1] not in frames:
                self.memory[it[1]] = bytearray(4096)
        if call == CALL:
            runner.set(A0, 0)
            runner.set(A1, 0)
        runner.pc += 4
        return "ok"

    def system_call(self, runner):
        call, address = runner.registers[A7], runner.registers[A0]
        if call == PUT_CHAR:
            runner.pc += 4
            return f"byte {address & 255:02x}"
        if call in (REPLY, YIELD):
            if call == REPLY:
                self.reply(runner)
            else:
                self.ready.remove(runner)
                self.wake(runner)
            runner.pc += 4
            return "plain"
        slot, _ = runner.kernel.lookup(runner.kernel.root, address, 32)
        held = runner.kernel.held(slot)
        if call in (RECV, REPLY_RECV, NB_RECV):
            if call == REPLY_RECV:
                self.reply(runner)
            return self.receive(runner, call, held)
        return self.send(runner, call, held) if held[0] in (ENDPOINT, NOTIFICATION) else self.invoke(runner, call, slot)

    def instruction(self, runner):
        it, x = Instruction(self.load(runner, runner.pc, 4)), runner.registers
        if it.kind == "ecall":
            return self.system_call(runner)
        goes_to = runner.pc + 4
        if it.kind == "upper":
            runner.set(it.rd, it.immediate + (runner.pc if it.name == "auipc" else 0))
        elif it.kind == "jal":
            runner.set(it.rd, goes_to)
            goes_to = runner.pc + it.immediate
        elif it.kind == "branch":
            if TAKEN[it.name](x[it.rs1], x[it.rs2]):
                goes_to = runner.pc + it.immediate
        elif it.kind == "load":
            width = WIDTHS[it.name[1]]
            found = self.load(runner, x[it.rs1] + it.immediate & ALL_ONES, width)
            runner.set(it.rd, found if it.name.endswith("u") else signed(found, 8 * width))
        elif it.kind == "store":
            self.store(runner, x[it.rs1] + it.immediate & ALL_ONES, WIDTHS[it.name[1]], x[it.rs2])
        elif it.kind == "alu":
            second = x[it.rs2] if it.immediate is None else it.immediate & ALL_ONES
            runner.set(it.rd, value(it.name, x[it.rs1], second))
        runner.pc = goes_to & ALL_ONES
        return "plain"

    # ---- events; each answers its line

    def step(self):
        runner = self.current()
        if runner is None:
            return "idle"
        at = f"{MEMORY + runner.tcb:08x} {runner.pc:08x}"
        return f"{at} {self.instruction(runner)}"

    def tick(self):
        runner = self.current()
        if runner:
            runner.slice -= 1
            if runner.slice == 0:
                self.ready.remove(runner)
                self.wake(runner)
        return "tick"

    def write(self, address, word):
        """The world writes a word of a device page."""
        frame, place = self.word_at(address)
        frame[place:place + 4] = word.to_bytes(4, "little")
        return f"write {address:08x} {word:08x}"

    def show(self, address):
        """The world reads a word of a device page."""
        frame, place = self.word_at(address)
        return f"read {address:08x} {int.from_bytes(frame[place:place + 4], 'little'):08x}"

    def interrupt(self, line):
        if line in self.bound and line not in self.masked:
            self.signal(*self.bound[line])
            self.masked.add(line)
        else:
            self.pending.add(line)
        return f"irq {line}"


def trace(machine, events):
    """The lines that a list of events gives."""
    for line in events.splitlines():
        word, *rest = line.split("#")[0].split() or [""]
        if word == "step":
            for _ in range(int(rest[0]) if rest else 1):
                yield machine.step()
        elif word == "write":
            yield machine.write(*map(number_of, rest))
        elif word == "read":
            yield machine.show(number_of(rest[0]))
        elif word:
            yield machine.tick() if word == "tick" else machine.interrupt(int(rest[0]))
