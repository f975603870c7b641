"""An account of its own of what each event does, by docs/MANUAL.md: who runs, who waits and for what, whom each thread may answer,
which lines are held back. It says what each event has to change, to the last bit, of what was seen before."""

import copy

from calls import A0, A1, A7, HANDLER, WORDS
from programs import Instruction, signed, value
from rules import ALL_ONES, BITS, CNODE, ENDPOINT, FRAME, NOTIFICATION, UNTYPED, align, is_device
from seen import EMPTY, EXECUTE, READ, WRITE, Wrong

CALL, REPLY_RECV, SEND, NB_SEND, RECV, REPLY, YIELD, NB_RECV, PUT_CHAR = range(1, 10)
CALL_NAMES = dict(enumerate("Call ReplyRecv Send NBSend Recv Reply Yield NBRecv PutChar".split(), 1))
RETYPE, COPY, MINT, MOVE, DELETE, REVOKE, MAP, UNMAP, ACK = 1, 7, 8, 9, 11, 12, 13, 14, 18
LABEL_NAMES = {RETYPE: "Retype", COPY: "Copy", MINT: "Mint", MOVE: "Move", DELETE: "Delete", REVOKE: "Revoke", MAP: "Map", UNMAP: "Unmap", ACK: "Ack"}
OBJECT_NAMES = {ENDPOINT: "endpoint", NOTIFICATION: "notification", FRAME: "frame"}
SLICE, BUFFER_SLOT, IN_REGISTERS, MOST_WORDS = 5, 2, 8, 120
ALL_RIGHTS = {ENDPOINT: 11, NOTIFICATION: 11, FRAME: 3}
MEMORY = 0x80000000
WIDTHS = {"b": 1, "h": 2, "w": 4}
TAKEN = {
    "beq": lambda x, y: x == y, "bne": lambda x, y: x != y, "bltu": lambda x, y: x < y, "bgeu": lambda x, y: x >= y,
    "blt": lambda x, y: signed(x, 32) < signed(y, 32), "bge": lambda x, y: signed(x, 32) >= signed(y, 32),
}


class Thread:
    """What the image says of a thread."""

    def __init__(self, image, t):
        self.tcb, self.root, self.priority = image.offsets[t.tcb], image.offsets[t.root], t.priority
        self.cnodes = {image.offsets[it] for it in t.reached}


class Deed:
    """What an event does: what it has to change, and whom and what it reaches."""

    def __init__(self, thread=None):
        self.thread, self.label = thread, None
        # of which kinds it is, the first of which says what ran
        self.kinds = []
        # what has to be there after it, by what changes
        self.wanted = {}
        # the registers that other threads may get, and the places that a store writes, or the world with what bytes
        self.reached, self.stored, self.written = {}, (), {}
        # the label and the slot of an invocation, and its words
        self.invokes, self.words = None, ()
        # words that go from buffer to buffer: from whom, to whom, and how many of the message
        self.copied = []
        # who is ready from now on, and whose slice a tick ends
        self.woken, self.ended = [], None

    def set(self, thread, number, word):
        if number:
            self.wanted["reg", thread.tcb, number] = word & ALL_ONES

    def set_pc(self, thread, pc):
        self.wanted["reg", thread.tcb, 0] = pc & ALL_ONES


class Account:
    def __init__(self, image):
        self.threads = {image.offsets[t.tcb]: Thread(image, t) for t in image.threads}
        self.devices = {place for number, place in enumerate(image.offsets) if is_device(image, number)}
        self.ready = list(self.threads.values())
        # how many ticks each thread has left, and who waits for its answer
        self.slices, self.callers = {it: SLICE for it in self.ready}, {}
        # who waits: to receive, or for a signal; and to send, with the call, the badge and whether it may be answered
        self.receivers, self.senders, self.words = {}, {}, {}
        self.masked, self.pending = set(), set()
        self.lines = 16 << image.radix
        self.view = None
        # for what is planted: the badges that a word was made of, by what gave them, and the word that was taken last; what happened from the
        # last step on; and which event put a thread to the end of its list, if it has not run since
        self.kept, self.taken, self.since, self.queued = {}, {}, [], {}

    def copy(self):
        """An account of the same, which goes on by itself."""
        other = copy.copy(self)
        for name in ("slices", "callers", "words", "masked", "pending", "taken", "queued"):
            setattr(other, name, getattr(self, name).copy())
        for name in ("receivers", "senders", "kept"):
            setattr(other, name, {place: list(it) for place, it in getattr(self, name).items()})
        other.ready, other.since = list(self.ready), list(self.since)
        return other

    # ---- threads

    def current(self):
        return max(self.ready, key=lambda it: it.priority, default=None)

    def wake(self, thread):
        self.slices[thread] = SLICE
        self.ready.append(thread)

    def pc(self, thread):
        return self.view.registers[thread.tcb][0]

    def passes(self, deed, thread):
        """It goes on after its system call, at the end of its queue."""
        deed.set_pc(thread, self.pc(thread) + 4)
        deed.reached.setdefault(thread.tcb, set()).add(0)
        deed.woken.append(thread)
        self.wake(thread)

    def register(self, thread, number):
        return self.view.registers[thread.tcb][number]

    # ---- messages

    def buffer(self, thread):
        held = self.view.held((thread.tcb, BUFFER_SLOT))
        return held and held[1]

    def deliver(self, deed, sender, receiver, badge, way):
        """A message and a badge get from one thread to another."""
        info = self.register(sender, A1)
        buffers = self.buffer(sender), self.buffer(receiver)
        most = MOST_WORDS if None not in buffers else IN_REGISTERS
        length = min(info & 127, most)
        deed.set(receiver, A0, badge)
        deed.set(receiver, A1, info >> 12 << 12 | length)
        for register in WORDS[:length]:
            deed.set(receiver, register, self.register(sender, register))
        deed.reached.setdefault(receiver.tcb, set()).update((A0, A1, *WORDS[:length]))
        for at in range(4 * IN_REGISTERS, 4 * length):
            deed.wanted["byte", buffers[1] + at] = self.view.bytes[buffers[0] + at]
        deed.copied.append((sender, receiver, length))
        deed.kinds.append(f"message {way}")
        deed.kinds += [f"words in buffers, {way}"] if length > IN_REGISTERS else []
        deed.kinds += ["message cut to 8 words"] if info & 127 > length == IN_REGISTERS else []
        deed.kinds += ["message cut to 120 words"] if info & 127 > length == MOST_WORDS else []

    def signal(self, deed, notification, badge, by):
        waiting = self.receivers.get(notification)
        deed.kinds.append(f"{by} wakes" if waiting else f"{by} is kept")
        if waiting:
            thread = waiting.pop(0)
            deed.set(thread, A0, badge)
            deed.reached.setdefault(thread.tcb, set()).add(A0)
            self.passes(deed, thread)
        else:
            self.words[notification] = self.words.get(notification, 0) | badge
            giver = "Ack" if "Ack of a line that was held back" in deed.kinds else by
            self.kept.setdefault(notification, []).append((giver, badge))

    def handed_over(self, sender, call, answers, receiver):
        """Whether a sender whose message was taken goes on; else it waits for an answer."""
        if call == CALL and answers:
            self.callers[receiver] = sender
        return call != CALL

    def send(self, deed, thread, call, held):
        kind, place, rights, badge = held
        if not rights & WRITE:
            raise Wrong("no right to send")
        if kind == NOTIFICATION:
            self.signal(deed, place, badge, "signal")
            self.answers_done(deed, thread, call)
            return "plain"
        if self.receivers.get(place):
            receiver = self.receivers[place].pop(0)
            self.deliver(deed, thread, receiver, badge, "to who waits")
            if self.handed_over(thread, call, rights & 8, receiver):
                deed.set_pc(thread, self.pc(thread) + 4)
            else:
                self.ready.remove(thread)
            self.passes(deed, receiver)
        elif call == NB_SEND:
            deed.kinds.append("nobody to send to")
            deed.set_pc(thread, self.pc(thread) + 4)
        else:
            deed.kinds.append("waits to send")
            self.ready.remove(thread)
            self.senders.setdefault(place, []).append((thread, call, badge, rights & 8))
        return "plain" if call == NB_SEND else "wait"

    def receive(self, deed, thread, call, held):
        kind, place, rights, _ = held
        if not rights & READ:
            raise Wrong("no right to receive")
        outcome = "plain" if call == NB_RECV else "wait"
        if kind == ENDPOINT:
            self.callers.pop(thread, None)
            if self.senders.get(place):
                sender, how, badge, answers = self.senders[place].pop(0)
                self.deliver(deed, sender, thread, badge, "from who waits")
                deed.set_pc(thread, self.pc(thread) + 4)
                if self.handed_over(sender, how, answers, thread):
                    self.passes(deed, sender)
                return outcome
        elif self.words.get(place):
            deed.kinds.append("word taken")
            self.taken[place] = self.words.pop(place)
            self.kept.pop(place, None)
            deed.set(thread, A0, self.taken[place])
            deed.set_pc(thread, self.pc(thread) + 4)
            return outcome
        if call == NB_RECV:
            deed.kinds.append("nothing to receive")
            deed.set(thread, A0, 0)
            deed.set_pc(thread, self.pc(thread) + 4)
        else:
            deed.kinds.append("waits to receive" if kind == ENDPOINT else "waits for a signal")
            self.ready.remove(thread)
            self.receivers.setdefault(place, []).append(thread)
        return outcome

    def reply(self, deed, thread):
        caller = self.callers.pop(thread, None)
        if caller:
            self.deliver(deed, thread, caller, 0, "as an answer")
            self.passes(deed, caller)
        else:
            deed.kinds.append("nobody to answer")

    # ---- lines

    def raised(self, deed, line):
        bound = self.view.held((self.lines, line))
        if bound and line not in self.masked:
            self.masked.add(line)
            self.signal(deed, bound[1], bound[3], "interrupt")
        else:
            deed.kinds.append("line held back" if bound else "line without a notification")
            self.pending.add(line)

    def acknowledge(self, deed, line):
        self.masked.discard(line)
        if line in self.pending and self.view.held((self.lines, line)):
            self.pending.discard(line)
            deed.kinds.append("Ack of a line that was held back")
            self.raised(deed, line)

    # ---- invocations

    def removed(self, deed, gone):
        """Slots are emptied: who stays hangs below the nearest that stays, memory without children is whole again, objects end."""
        slots = dict(self.view.slots)
        mothers = {slots[it][1] for it in gone} - gone - {None}
        for slot, (capability, parent) in list(slots.items()):
            while parent in gone:
                parent = slots[parent][1]
            slots[slot] = capability, parent
        ended = {slots[it][0][:2] for it in gone}
        for it in gone:
            del slots[it]
        for it in mothers:
            if slots[it][0][0] == UNTYPED and all(parent != it for _, parent in slots.values()):
                slots[it] = slots[it][0][:3] + (0,), slots[it][1]
        for kind, place in ended - {capability[:2] for capability, _ in slots.values()}:
            self.ends(deed, kind, place)
        for slot in self.view.slots:
            deed.wanted["slot", *slot] = slots.get(slot, EMPTY)

    def ends(self, deed, kind, place):
        deed.kinds.append(f"{OBJECT_NAMES[kind]} ends")
        if self.receivers.get(place) or self.senders.get(place):
            raise Wrong("somebody waits at what ends")
        self.words.pop(place, None)
        for at in range(4096 if kind == FRAME else 0):
            deed.wanted["byte", place + at] = None

    def retype(self, deed, thread, slot, words):
        kind, _, address, depth, first, count = words
        if kind not in OBJECT_NAMES:
            raise Wrong("Retype to a kind that no accepted program makes")
        node = self.view.held((thread.tcb, 0)) if depth == 0 else self.view.held(self.view.lookup(thread.tcb, address, depth))
        (_, offset, bits, used), parent = self.view.slots[slot]
        size = 2 ** BITS[kind]
        place = offset + align(used, size)
        for index in range(first, first + count):
            capability = (FRAME, place, 3, None) if kind == FRAME else (kind, place, ALL_RIGHTS[kind], 0)
            deed.wanted["slot", node[1], index] = capability, slot
            for at in range(4096 if kind == FRAME else 0):
                deed.wanted["byte", place + at] = 0
            place += size
        deed.wanted["slot", *slot] = (UNTYPED, offset, bits, place - offset), parent
        return OBJECT_NAMES[kind]

    def on_cnode(self, deed, thread, label, node, words):
        slot = self.view.lookup(thread.tcb, words[0], words[1], node)
        if label in (DELETE, REVOKE):
            gone = {slot} & set(self.view.slots) if label == DELETE else self.descendants(slot)
            deed.kinds += ["slots emptied"] if gone else []
            self.removed(deed, gone)
            return None
        source = self.view.lookup(thread.tcb, words[2], words[3])
        (kind, place, rights, data), parent = self.view.slots[source]
        if label == MOVE:
            for child, (capability, above) in self.view.slots.items():
                if above == source:
                    deed.wanted["slot", *child] = capability, slot
                    deed.kinds.append("child of what moves")
            deed.wanted["slot", *slot] = self.view.slots[source]
            deed.wanted["slot", *source] = EMPTY
        else:
            badge = words[5] if label == MINT else data
            deed.wanted["slot", *slot] = (kind, place, rights & words[4], None if kind == FRAME else badge), source
        return OBJECT_NAMES[kind]

    def descendants(self, slot):
        found = [slot]
        for above in found:
            found.extend(it for it, (_, parent) in self.view.slots.items() if parent == above)
        return set(found[1:])

    def on_frame(self, deed, thread, label, slot, words):
        (_, place, rights, _), parent = self.view.slots[slot]
        mapping = None
        if label == MAP:
            root = self.view.held(self.view.lookup(thread.tcb, words[0], words[1]))
            mapping = root[1], words[2] >> 12, words[3] & rights
        deed.wanted["slot", *slot] = (FRAME, place, rights, mapping), parent

    def invoke(self, deed, thread, call, slot):
        """What a call on a capability of another kind does, and how it is named."""
        held, info = self.view.held(slot), self.register(thread, A1)
        label, kind = info >> 12, held[0]
        words = [self.register(thread, it) for it in WORDS]
        deed.invokes, deed.words, named = (label, slot), words, None
        if kind == UNTYPED and label == RETYPE:
            named = self.retype(deed, thread, slot, words[:6])
        elif kind == CNODE and label in (COPY, MINT, MOVE, DELETE, REVOKE):
            named = self.on_cnode(deed, thread, label, held, words)
        elif kind == FRAME and label in (MAP, UNMAP):
            self.on_frame(deed, thread, label, slot, words)
        elif kind == HANDLER and label == ACK:
            self.acknowledge(deed, held[2])
        else:
            raise Wrong(f"label {label} is none that an accepted program may give a capability of kind {kind}")
        deed.kinds[:0] = [f"{LABEL_NAMES[label]} {named}" if named else LABEL_NAMES[label], f"invoked by {CALL_NAMES[call]}"]
        self.answers_done(deed, thread, call)
        return "ok"

    def answers_done(self, deed, thread, call):
        if call == CALL:
            deed.set(thread, A0, 0)
            deed.set(thread, A1, 0)
        deed.set_pc(thread, self.pc(thread) + 4)

    # ---- steps

    def system_call(self, deed, thread):
        call, address = self.register(thread, A7), self.register(thread, A0)
        if call not in CALL_NAMES:
            raise Wrong(f"no system call: {call}")
        deed.kinds.append(CALL_NAMES[call])
        if call in (PUT_CHAR, REPLY, YIELD):
            deed.set_pc(thread, self.pc(thread) + 4)
            if call == REPLY:
                self.reply(deed, thread)
            if call == YIELD:
                self.ready.remove(thread)
                self.wake(thread)
            return f"byte {address & 255:02x}" if call == PUT_CHAR else "plain"
        slot = self.view.lookup(thread.tcb, address)
        held = self.view.held(slot)
        if held is None:
            raise Wrong("a call on an empty slot")
        if call in (RECV, REPLY_RECV, NB_RECV):
            if call == REPLY_RECV:
                self.reply(deed, thread)
            return self.receive(deed, thread, call, held)
        if held[0] in (ENDPOINT, NOTIFICATION):
            return self.send(deed, thread, call, held)
        deed.kinds.pop()
        return self.invoke(deed, thread, call, slot)

    def instruction(self, deed, thread):
        pc = self.pc(thread)
        it, x = Instruction(self.view.load(thread.root, pc, 4, EXECUTE)), [0, *self.view.registers[thread.tcb][1:]]
        if it.kind == "ecall":
            return self.system_call(deed, thread)
        if it.kind in (None, "ebreak", "jalr"):
            raise Wrong("an instruction that no accepted program has")
        deed.kinds.append(it.kind)
        goes_to = pc + 4
        if it.kind == "upper":
            deed.set(thread, it.rd, it.immediate + (pc if it.name == "auipc" else 0))
        elif it.kind == "jal":
            deed.set(thread, it.rd, goes_to)
            goes_to = pc + it.immediate
        elif it.kind == "branch":
            goes_to = pc + it.immediate if TAKEN[it.name](x[it.rs1], x[it.rs2]) else goes_to
        elif it.kind == "load":
            width, address = WIDTHS[it.name[1]], x[it.rs1] + it.immediate
            found = self.view.load(thread.root, address, width)
            deed.kinds += ["load from a device page"] if self.is_of_device(self.view.place_of(thread.root, address, READ)) else []
            deed.set(thread, it.rd, found if it.name.endswith("u") else signed(found, 8 * width))
        elif it.kind == "store":
            width = WIDTHS[it.name[1]]
            deed.stored = [self.view.place_of(thread.root, x[it.rs1] + it.immediate + at, WRITE) for at in range(width)]
            for at, place in enumerate(deed.stored):
                deed.wanted["byte", place] = x[it.rs2] >> 8 * at & 255
            deed.kinds += ["store to a device page"] if self.is_of_device(deed.stored[0]) else []
        elif it.kind == "alu":
            deed.set(thread, it.rd, value(it.name, x[it.rs1], x[it.rs2] if it.immediate is None else it.immediate & ALL_ONES))
        deed.set_pc(thread, goes_to)
        return "plain"

    def step(self):
        thread = self.current()
        deed = Deed(thread)
        if thread is None:
            deed.label, deed.kinds = "idle", ["idle"]
        else:
            at = f"{MEMORY + thread.tcb:08x} {self.pc(thread):08x}"
            deed.label = f"{at} {self.instruction(deed, thread)}"
        return deed

    def tick(self):
        thread, deed = self.current(), Deed()
        deed.label, deed.kinds = "tick", ["tick"]
        if thread:
            self.slices[thread] -= 1
            if self.slices[thread] == 0:
                deed.kinds.append("tick that ends a slice")
                deed.ended = thread
                self.ready.remove(thread)
                self.wake(thread)
        return deed

    def interrupt(self, line):
        deed = Deed()
        deed.label = f"irq {line}"
        deed.kinds.append("irq")
        self.raised(deed, line)
        return deed

    # ---- the world outside

    def is_of_device(self, place):
        return place // 4096 * 4096 in self.devices

    def world(self, address):
        """Where the word is that the world names: all of it in a device page."""
        place = address - MEMORY
        if place % 4 or not self.is_of_device(place):
            raise Wrong(f"{address:08x} is no word of a device page")
        return place

    def write(self, address, word):
        deed, place = Deed(), self.world(address)
        deed.label, deed.kinds = f"write {address:08x} {word:08x}", ["write"]
        deed.written = {place + at: word >> 8 * at & 255 for at in range(4)}
        deed.wanted |= {("byte", at): byte for at, byte in deed.written.items()}
        return deed

    def look(self, address):
        deed, place = Deed(), self.world(address)
        word = sum(self.view.bytes[place + at] << 8 * at for at in range(4))
        deed.label, deed.kinds = f"read {address:08x} {word:08x}", ["read"]
        return deed

    def event(self, name, words):
        numbers = [int(it, 0) for it in words]
        return {"step": self.step, "tick": self.tick, "irq": self.interrupt, "write": self.write, "read": self.look}[name](*numbers)

    def follow(self, view, event):
        """What an event does, on what was seen before it."""
        self.view = view
        name, *words = event.split()
        deed = self.event(name, words)
        self.queued.pop(deed.thread, None)
        self.queued |= {it: name for it in [*deed.woken, deed.ended] if it}
        self.since = [deed] if name == "step" else [*self.since, deed]
        return deed
