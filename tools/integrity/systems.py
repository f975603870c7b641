"""Accepted systems that make each call that an accepted program may make, and lists of events for them, by numbers from fixed seeds."""

import random

from rules import is_device, read, well_formed
from texts import assembled

WORDS = [12, 13, 14, 15, 18, 19, 20, 21]
A0, A1, A7 = 10, 11, 17
# registers that no message writes, for addresses and for what is stored
PLACE, VALUE = 5, 6
CALL, REPLY_RECV, SEND, NB_SEND, RECV, REPLY, YIELD, NB_RECV, PUT_CHAR = range(1, 10)
ANY = "any way to invoke"
# slots of a thread: its pool, its CNode, its root table, the endpoint between talkers and that of the service, a page, a notification,
# and a second CNode; of a driver the first three are its notification and its lines
POOL, CNODE, ROOT, WIRE, PORT, PAGE, NOTE, MORE = range(1, 9)
BELL, LINE, OTHER_LINE = range(1, 4)
# the memory of small objects, of the pool, and of pages, by the bits of all memory
MEMORIES = {16: ("0x1000 12", "0x2000 13", "0x4000 14", "0x8000 15"), 17: ("0x2000 13", "0x4000 14", "0x8000 15", "0x10000 16")}
# where physical memory begins, and words of a device page that the world often writes: those that threads store to, and those of buffers
BASE, OFTEN = 0x80000000, [0, 4, 32, 36, 40, 100, 476, 480, 0x6FC, 4092]
SHARED = {"port": "endpoint", "wire": "endpoint", "note": "notification", "bell": "notification"}


def constant(register, number):
    """The instructions that give a register a value."""
    upper, low = (number + 0x800 >> 12) & 0xFFFFF, (number & 0xFFF ^ 0x800) - 0x800
    return [f"lui x{register} {upper}"] * bool(upper) + [f"addi x{register} x{register if upper else 0} {low}"] * bool(low or not upper)


class Program:
    """The instructions of a loop without an end. Registers that have a value already are not set again."""

    def __init__(self, chance):
        self.chance, self.lines, self.known, self.labels = chance, ["addi x22 x22 1"], {}, 0

    def put(self, register, number):
        if self.known.get(register) != number:
            self.lines += constant(register, number)
            self.known[register] = number

    def call(self, number, address=None, info=None, *words):
        """A system call. `None` for an address or the info word leaves it as it is."""
        number = self.chance.choice([CALL, SEND, NB_SEND]) if number == ANY else number
        for register, word in zip([A7, A0, A1, *WORDS], [number, address, info, *words]):
            if word is not None:
                self.put(register, word)
        self.lines.append("ecall")
        if number in (CALL, REPLY_RECV, RECV, NB_RECV):
            self.known = {register: word for register, word in self.known.items() if register not in (A0, A1, *WORDS)}

    def invoke(self, address, label, *words):
        """An invocation, after which the words are still there."""
        self.put(A7, self.chance.choice([CALL, SEND, NB_SEND]))
        self.put(A0, address)
        self.put(A1, label << 12 | len(words))
        for register, word in zip(WORDS, words):
            self.put(register, word)
        self.lines.append("ecall")
        if self.known[A7] == CALL:
            self.known |= {A0: 0, A1: 0}

    def store(self, address):
        self.put(PLACE, address & ~0x7FF)
        name, by = self.chance.choice([("sw", 4), ("sh", 2), ("sb", 1)])
        self.lines += [f"{name} x22 {address % 0x800 // by * by}(x{PLACE})"]

    def load(self, address):
        self.put(PLACE, address & ~0x7FF)
        name, by = self.chance.choice([("lw", 4), ("lh", 2), ("lhu", 2), ("lb", 1), ("lbu", 1)])
        self.lines += [f"{name} x{VALUE} {address % 0x800 // by * by}(x{PLACE})"]
        self.known.pop(VALUE, None)

    def compute(self):
        """A branch to where it goes on, and a sum."""
        self.labels += 1
        name = self.chance.choice(["add", "sub", "xor", "or", "and", "sltu"])
        self.lines += [f"beq x22 x{VALUE} next{self.labels}"]
        self.lines += [f"next{self.labels}: {name} x23 x22 x{VALUE}", "auipc x24 1"]

    def text(self, head, before):
        """The lines of a thread: the measure suffices for all before its first wait, and the budget for all between two."""
        count = len(self.lines) + 2
        first, *others = self.lines
        return [f"{head} {2 * count} 0 start 0x1000", *before, f"measure {count}", f"start: {first}", *others, "jal x0 start", "end"]


# ---- what a maker does with its pool and its slots; each leaves them as they were


def makes_frames(p):
    p.invoke(POOL, 1, 6, 32, CNODE, 32, 9, 1)
    p.invoke(9, 13, ROOT, 32, 0x3000, 3)
    p.store(0x3000 + p.chance.randrange(0x700))
    p.load(0x3000 + p.chance.randrange(0x700))
    p.invoke(9, 14)
    p.invoke(9, 13, ROOT, 32, 0x4000, 2)
    p.load(0x4000 + p.chance.randrange(0x700))
    p.invoke(*p.chance.choice([(CNODE, 12, POOL, 32), (CNODE, 11, 9, 32)]))


def makes_queues(p):
    p.invoke(POOL, 1, 3, 32, CNODE, 32, 9, 2)
    p.invoke(POOL, 1, 4, 32, CNODE, 32, 11, 1)
    p.call(NB_SEND, 9, 0x7003, 1, 2, 3)
    p.call(p.chance.choice([SEND, NB_SEND, CALL]), 11)
    p.call(NB_RECV, 11)
    p.call(NB_RECV, 10)
    p.invoke(CNODE, 11, 9, 32)
    p.invoke(CNODE, 9, 12, 32, 10, 32)
    p.invoke(CNODE, 7, 13, 32, 11, 32, 3)
    p.invoke(CNODE, 9, 14, 32, 13, 32)
    p.invoke(CNODE, 7, 15, 32, 12, 32, 11)
    p.invoke(CNODE, 12, POOL, 32)


def hands_signals_on(p):
    p.invoke(CNODE, 7, 11, 32, NOTE, 32, p.chance.choice([1, 3]))
    p.call(p.chance.choice([SEND, NB_SEND, CALL]), 11)
    p.call(NB_RECV, NOTE)
    p.invoke(CNODE, 9, 14, 32, NOTE, 32)
    p.invoke(CNODE, 9, NOTE, 32, 14, 32)
    p.invoke(CNODE, 11, 11, 32)


def marks_senders(p):
    p.invoke(CNODE, 8, 11, 32, PORT, 32, 9, p.chance.randrange(1, 2**28))
    p.call(p.chance.choice([SEND, NB_SEND]), 11, 0x2002, 1, 2)
    p.invoke(CNODE, 7, 12, 32, 11, 32, 1)
    p.invoke(CNODE, 9, 13, 32, 11, 32)
    p.invoke(CNODE, 11, 13, 32)
    p.call(NB_SEND, 12, 0x1001, 5)
    p.invoke(CNODE, 12, PORT, 32)


def hands_pages_on(p):
    p.invoke(CNODE, 7, 11, 32, PAGE, 32, 2)
    p.invoke(11, 13, ROOT, 32, 0x5000, 2)
    p.load(0x5000 + p.chance.randrange(0x700))
    p.invoke(CNODE, 9, 12, 32, 11, 32)
    p.load(0x5000 + p.chance.randrange(0x700))
    p.invoke(12, 14)
    p.invoke(CNODE, 8, 13, 32, 12, 32, 3, 0)
    p.invoke(CNODE, 9, 14, 32, 13, 32)
    p.invoke(CNODE, 8, 15, 32, PAGE, 32, 2, 0)
    p.invoke(CNODE, 7, 13, 32, 15, 32, 3)
    p.invoke(CNODE, 12, PAGE, 32)


def uses_second_node(p):
    p.invoke(POOL, 1, 6, 32, MORE, 32, 3, 1)
    p.invoke(POOL, 1, 3, 32, MORE, 32, 4, 2)
    p.invoke(MORE, 7, 1, 4, NOTE, 32, 3)
    p.invoke(MORE, 8, 2, 4, PORT, 32, 1, 3)
    p.invoke(MORE, 11, 4, 4)
    p.invoke(CNODE, 12, NOTE, 32)
    p.invoke(MORE, 12, 3, 4)
    p.invoke(MORE, 11, 2, 4)
    p.invoke(CNODE, 12, POOL, 32)


def marks_notifications(p):
    p.invoke(POOL, 1, 4, 0, 0, 0, 9, 3)
    p.invoke(CNODE, 8, 12, 32, 9, 32, 3, 1 << p.chance.randrange(28))
    p.invoke(CNODE, 8, 13, 32, 10, 32, 1, 1 << p.chance.randrange(28))
    p.call(p.chance.choice([SEND, CALL]), 12)
    p.call(RECV, 12)
    p.invoke(CNODE, 9, 15, 32, 12, 32)
    p.call(NB_SEND, 15)
    p.call(NB_RECV, 9)
    p.invoke(CNODE, 11, 9, 32)
    p.invoke(CNODE, 12, POOL, 32)


def speaks(p):
    p.call(SEND, PORT, 0x1001, 7)
    p.call(YIELD)
    p.call(PUT_CHAR, p.chance.randrange(256))
    p.call(NB_SEND, PORT, 3, 1, 2, 3)
    p.compute()
    p.call(CALL, PORT, p.chance.choice([0, 8, 0x3009, 0x5078]), *range(1, 9))
    p.call(PUT_CHAR, p.chance.randrange(256))


PARTS = [makes_frames, makes_queues, hands_signals_on, marks_senders, hands_pages_on, uses_second_node, marks_notifications]


def maker(chance, parts):
    p = Program(chance)
    for part in parts:
        part(p)
    speaks(p)
    p.call(SEND, PORT, 0)
    return p


def service(chance):
    """Answers after each receive."""
    p = Program(chance)
    for _ in range(chance.randrange(2, 5)):
        p.call(chance.choice([RECV, REPLY_RECV, RECV, NB_RECV]), PORT)
        if chance.random() < 0.8:
            p.call(ANY, NOTE)
        if chance.random() < 0.7:
            p.store(0x2000 + chance.randrange(0x700))
        p.call(REPLY, None if chance.random() < 0.3 else PORT, chance.choice([0, 1, 0x2002, 0x7008, 0x9060]), *range(5, 13))
        if chance.random() < 0.3:
            p.call(REPLY)
    p.call(REPLY_RECV, PORT, 0x1001, 9)
    p.call(REPLY, PORT, chance.choice([1, 0x3003]), 1, 2, 3)
    return p


def driver(chance):
    p = Program(chance)
    for _ in range(chance.randrange(1, 3)):
        p.call(RECV, BELL)
        p.invoke(LINE, 18)
        if chance.random() < 0.8:
            p.invoke(OTHER_LINE, 18)
        p.load(0x2000 + chance.randrange(0x700))
        p.store(0x2000 + chance.randrange(0x700))
        p.call(chance.choice([NB_SEND, SEND, CALL]), PORT, 0x4001, 3)
        p.compute()
        if chance.random() < 0.5:
            p.call(ANY, NOTE)
            p.call(NB_RECV, NOTE)
        else:
            # the first may find a word that is there, the second waits
            p.call(RECV, NOTE)
            p.call(RECV, NOTE)
        p.call(YIELD)
        p.call(PUT_CHAR, chance.randrange(256))
    return p


def some_length(chance):
    return chance.choice([1, 8, 9, 10, 12, 40, 119, 120, 121, 124, 127, 127])


def talker(chance, sends):
    """A thread with a message buffer at 0x2000, which calls another one with a buffer over the wire, or answers it."""
    p = Program(chance)
    for _ in range(chance.randrange(2, 4)):
        if sends:
            for at in chance.sample([0, 28, 32, 36, 40, 64, 128, 472, 476, 480, 484], 3):
                p.store(0x2000 + at)
            p.call(chance.choice([CALL, CALL, SEND, NB_SEND]), WIRE, chance.randrange(2**20) << 12 | some_length(chance), *range(1, chance.randrange(2, 9)))
        else:
            p.call(chance.choice([RECV, REPLY_RECV, NB_RECV]), WIRE)
            p.store(0x2000 + chance.choice([0, 32, 44, 100, 476, 480]))
            p.call(REPLY, WIRE, chance.randrange(2**20) << 12 | some_length(chance), *range(3, chance.randrange(4, 9)))
        if chance.random() < 0.4:
            p.call(chance.choice([SEND, NB_SEND]), PORT, chance.randrange(16) << 12 | some_length(chance), 1, 2)
    if not sends:
        p.call(REPLY_RECV, WIRE, some_length(chance), 1)
        p.call(REPLY, WIRE, some_length(chance), 1)
    else:
        p.call(CALL, WIRE, some_length(chance), 1)
    p.load(0x2000 + chance.randrange(0x700))
    return p


def watcher(chance):
    """One of those that wait for the same lines: it looks at what the world wrote, writes, and waits again."""
    p = Program(chance)
    for _ in range(chance.randrange(1, 3)):
        p.call(RECV, BELL)
        p.load(0x2000 + chance.choice(OFTEN[:-1]))
        for line in chance.sample([LINE, OTHER_LINE], 2):
            p.invoke(line, 18)
        p.store(0x2000 + chance.choice(OFTEN[:-1]))
        p.call(NB_SEND, PORT, 0x5001, 4)
        p.call(NB_RECV, NOTE)
    return p


class Text:
    """The text of a system. Each thread has a page of code, a root table with a page table, a CNode of 16 slots and a control block."""

    def __init__(self, chance, bits):
        self.chance, self.bits = chance, bits
        self.small, self.pages, self.bound, self.threads = [], [], [], []

    def page(self, name, kind="frame"):
        self.pages.append((name, kind))

    def capability(self, thread, index, source, rights=0, data=0):
        self.bound.append(f"cap {thread}_slots {index} {source} {rights} {data}")

    def map(self, thread, address, frame, rights):
        self.bound.append(f"map {thread}_space {address:#x} {frame} {rights}")

    def thread(self, name, program, priority=None, buffer=None):
        """A thread with its objects."""
        self.small += [f"{name} small tcb", f"{name}_slots small cnode 4"]
        self.page(f"{name}_code")
        self.page(f"{name}_space", "root")
        self.page(f"{name}_table", "table")
        self.bound.append(f"table {name}_space 0 {name}_table")
        self.map(name, 0x1000, f"{name}_code", 4)
        head = f"thread {name} {name}_slots 28 {name}_space {priority or self.chance.choice([99, 100, 100, 101])}"
        self.threads += program.text(head, [f"buffer {buffer}"] if buffer else [])

    # ---- threads with what they hold

    def maker(self, parts):
        self.small.append("more small cnode 4")
        self.thread("maker", maker(self.chance, parts), 101)
        self.capability("maker", POOL, "pool")
        self.capability("maker", CNODE, "maker_slots", 0, 28)
        self.capability("maker", ROOT, "maker_space")
        self.capability("maker", PORT, "port", 9, 0)
        self.capability("maker", PAGE, "page", self.chance.choice([2, 3]))
        self.capability("maker", NOTE, "note", 3, self.chance.randrange(2**28))
        self.capability("maker", MORE, "more")

    def service(self, name="service"):
        self.thread(name, service(self.chance))
        self.capability(name, PORT, "port", 2)
        self.capability(name, NOTE, "note", 3, 4)
        self.map(name, 0x2000, "page", 3)

    def driver(self, page, priority=None):
        self.bound += ["irq line 3 bell 1", "irq other_line 4 bell 2"]
        self.thread("driver", driver(self.chance), priority)
        self.capability("driver", BELL, "bell", 2)
        self.capability("driver", LINE, "line")
        self.capability("driver", OTHER_LINE, "other_line")
        self.capability("driver", PORT, "port", 9, 5)
        self.capability("driver", NOTE, "note", 3, 2)
        self.map("driver", 0x2000, page, 3)

    def watchers(self, pages):
        """Two that wait for the same lines, each with a page."""
        self.bound += ["irq line 3 bell 1", "irq other_line 4 bell 2"]
        for name, page in zip(("watcher", "other_watcher"), pages):
            self.thread(name, watcher(self.chance), 102)
            self.capability(name, BELL, "bell", 2)
            self.capability(name, LINE, "line")
            self.capability(name, OTHER_LINE, "other_line")
            self.capability(name, PORT, "port", 9, 5)
            self.capability(name, NOTE, "note", 3, 2)
            self.map(name, 0x2000, page, 3)

    def talkers(self, buffers, first, kind="frame"):
        """Who asks and who answers, one of them first; those that have a buffer have their page as such."""
        for name, sends in (("left", True), ("right", False)):
            self.page(f"{name}_page", kind)
            self.thread(name, talker(self.chance, sends), 101 if name == first else 99, f"{name}_page" if name in buffers else None)
            self.capability(name, WIRE, "wire", 9 if sends else 2, 6 if sends else 0)
            self.capability(name, PORT, "port", 9, 7 if sends else 8)
            self.map(name, 0x2000, f"{name}_page", 3)

    def lines(self):
        """All lines. Objects are in the order of their memory: small ones, the pool, pages."""
        small, pool, few, many = MEMORIES[self.bits]
        room = 2 ** int(few.split()[1]) // 4096
        said = [f"memory {self.bits} 6", f"untyped small {small}", f"untyped store {pool}", f"untyped few {few}", f"untyped many {many}"]
        said += [f"object {it}" for it in self.small]
        said += [f"object {name} small {kind}" for name, kind in SHARED.items()]
        said += [f"object pool store untyped {pool.split()[1]}"]
        said += [f"object {name} {'few' if at < room else 'many'} {kind}" for at, (name, kind) in enumerate(self.pages)]
        interrupts = [it for it in self.bound if it.startswith("irq")]
        return "".join(f"{line}\n" for line in [*said, *interrupts, *(it for it in self.bound if it not in interrupts), *self.threads])


def of_the_world(chance, pages, lines):
    """Words of these pages that the world writes and looks at, some of them twice; after that it may raise a line."""
    found = []
    for _ in range(chance.randrange(1, 3)):
        address = BASE + chance.choice(pages) + chance.choice([*OFTEN, 4 * chance.randrange(1024)])
        word = chance.choice([0, 1, 0x2A, chance.randrange(2**32)])
        found += chance.choice([[f"write {address:#x} {word}"], [f"read {address:#x}"], [f"write {address:#x} {word:#x}", f"read {address:#x}"]])
    return found + [f"irq {chance.choice(lines)}"] * chance.choice([0, 0, 0, 1, 2])


def events(chance, count, lines, pages=()):
    """Mostly steps, with ticks, and interrupts on these lines, often or now and then; where there are device pages, their words too."""
    found, often = [], 0.05 if pages else chance.choice([0.1, 0.3, 0.6])
    while len(found) < count:
        found += ["step"] * chance.randrange(1, 16)
        found += [f"irq {chance.choice(lines)}"] if chance.random() < often else ["tick"] * chance.choice([1, 1, 6])
        found += of_the_world(chance, pages, lines) if pages and chance.random() < 0.5 else []
    return "".join(f"{event}\n" for event in found[:count])


def makers_system(chance, seed):
    """A maker of three parts in turn, a service and a driver."""
    text = Text(chance, 16)
    text.page("page")
    text.maker([PARTS[(3 * seed + it) % len(PARTS)] for it in range(3)])
    text.service()
    text.driver("page")
    return text


def talkers_system(chance, seed):
    """Two that talk, and a service without a buffer; the driver has the page of one of them."""
    text = Text(chance, 17)
    text.page("page")
    text.talkers(("left",) if seed % 5 == 4 else ("left", "right"), ("left", "right")[seed % 2])
    text.service()
    text.driver(chance.choice(["left_page", "right_page"]), 102)
    return text


def whole_system(chance, _):
    text = Text(chance, 17)
    text.page("page")
    text.maker(PARTS)
    text.service()
    text.driver("page")
    text.talkers(("left", "right"), chance.choice(["left", "right"]))
    return text


def devices_system(chance, seed):
    """A device page that a maker hands on to itself, or talkers that have device pages as buffers. Two wait for a line, and two receive."""
    text = Text(chance, 17)
    text.page("page", "frame 1")
    if seed % 2:
        text.talkers(("left", "right"), ("left", "right")[seed // 2 % 2], "frame 1")
    else:
        text.maker([PARTS[(seed + it) % len(PARTS)] for it in (1, 4, 6)])
    text.service()
    text.service("other")
    text.watchers(("left_page" if seed % 2 else "page", "page"))
    return text


KINDS = {"whole": whole_system, "makers": makers_system, "talkers": talkers_system, "devices": devices_system}


def device_pages(image):
    """Where the device pages of an image are in memory."""
    found = read(image)
    well_formed(found)
    return [place for number, place in enumerate(found.offsets) if is_device(found, number)]


def random_system(kind, seed, count):
    """The image of a system, and its events: lines 3 and 4 are bound, line 9 is not."""
    chance = random.Random(f"{kind} {seed}")
    image = assembled(KINDS[kind](chance, seed).lines())
    return image, events(chance, count, [3, 3, 4, 9], device_pages(image))
