#!/usr/bin/env python3
"""Writes descriptions of systems at random, and looks whether each is expanded to a text that is accepted.

  tools/described/systems.py write SEED           prints the description of this number
  tools/described/systems.py expand TOOL COUNT    expands COUNT descriptions, and reckons the images of their texts: none is
                                                  refused for its objects, capabilities, mappings or threads
  tools/described/systems.py make TOOL COUNT      makes COUNT images, and reckons that each is accepted
  tools/described/systems.py noise TOOL           expands files of 64 KiB of each kind of noise: each is answered within a second, and
                                                  leaves no text where it is refused

TOOL is the program for makers. Images are assembled by `tools/traces` and judged by `tools/damage`, both apart from the
product. A description has 1 to 64 parts, up to 20 pages and 6 doors, a bell for each part that waits for nothing else, and
pools of 4 to 20 bits; each part waits, acknowledges its interrupts, stores, rings, sends and retypes as it may.
"""

import os
import random
import subprocess
import sys
import tempfile
import time

HERE = os.path.dirname(os.path.realpath(__file__))
sys.path[:0] = [f"{HERE}/../damage", f"{HERE}/../traces"]
sys.dont_write_bytecode = True
from reckon import verdict  # noqa: E402
from texts import assembled  # noqa: E402

# The least number of a refusal for a program; those below are for what is around it.
PROGRAMS = 15
# What all pools may take together, that memory suffices.
POOL_BYTES = 3 << 20
# The bytes of a file of noise.
NOISE = 1 << 16


def ask(number, name):
    """A system call on what is in a slot."""
    return [f"addi x17 x0 {number}", f"addi x10 x0 {name}", "ecall"]


def retype():
    """A frame is made of the pool, and all of the pool is revoked."""
    return ["addi x10 x0 pool", "lui x11 1", "addi x11 x11 6", "addi x12 x0 6", "addi x13 x0 0", "addi x14 x0 0", "addi x15 x0 0",
        "addi x18 x0 pool.slot1", "addi x19 x0 1", "addi x17 x0 3", "ecall", "addi x10 x0 cnode", "lui x11 12", "addi x11 x11 2",
        "addi x12 x0 pool", "addi x13 x0 32", "ecall"]


class Part:
    """A part: what it may do, and what it does in each turn."""

    def __init__(self, chance, number):
        self.name, self.priority = f"part{number}", chance.randrange(0, 256)
        self.lines, self.code, self.waits = [], [], []

    def wait(self, number, name):
        self.waits += ask(number, name)

    def text(self, chance):
        head = [f"part {self.name} {self.priority}", *self.lines, "code"]
        if chance.random() < 0.5:
            head.insert(1, "budget auto")
        body = self.waits + self.code
        label = chance.choice(["again: ", "again:\n"])
        return "\n".join([*head, label + body[0], *body[1:], "jal x0 again", "end"]) + "\n"


class System:
    """Pages, bells and doors, and who has them."""

    def __init__(self, chance):
        self.chance, self.free_lines, self.pools = chance, list(range(64)), POOL_BYTES
        chance.shuffle(self.free_lines)
        self.pages = [f"page{k}" for k in range(chance.randrange(0, 21))]
        self.doors = [f"door{k}" for k in range(chance.randrange(0, 7))]
        self.bells = []
        self.parts = [Part(chance, k) for k in range(chance.choice([1, 2, 3, 5, 8, 13, 30, 64]))]
        for part in self.parts:
            self.fill(part)

    def fill(self, part):
        chance = self.chance
        self.wait(part)
        for door in chance.sample(self.doors, chance.randrange(0, len(self.doors) + 1)):
            self.enter(part, door)
        for bell in chance.sample(self.bells, min(len(self.bells), chance.randrange(0, 3))):
            self.ring(part, bell)
        for page in chance.sample(self.pages, chance.randrange(0, len(self.pages) + 1)):
            self.see(part, page)
        self.pool(part)

    def wait(self, part):
        """It waits for a bell of its own, with up to two interrupts, or serves a door that nobody does so far."""
        chance = self.chance
        if self.doors and chance.random() < 0.3:
            door = chance.choice(self.doors)
            part.lines.append(f"serves {door}")
            part.wait(5, door)
            return
        bell = f"bell{len(self.bells)}"
        self.bells.append(bell)
        numbers = [self.free_lines.pop() for _ in range(min(len(self.free_lines), chance.randrange(0, 3)))]
        rates = chance.choice(["", " every 400", " every 400 burst 2"])
        part.lines.append(f"waits {bell}" + "".join(f" line {number}{rates}" for number in numbers))
        part.wait(5, bell)
        for number in numbers:
            part.code += ["lui x11 18", *ask(3, f"{bell}.line{number}")]

    def has(self, part, name):
        return any(line.split()[1] == name for line in part.lines)

    def enter(self, part, door):
        if self.has(part, door):
            return
        word, call = self.chance.choice([("calls", 1), ("sends", 3)])
        badge = self.chance.choice(["", "", f" as {self.chance.randrange(0, 1 << 28)}"])
        part.lines.append(f"{word} {door}{badge}")
        part.code += ["addi x11 x0 1", "addi x12 x0 7", *ask(call, door)]

    def ring(self, part, bell):
        if self.has(part, bell):
            return
        badge = self.chance.choice(["", f" as {self.chance.randrange(0, 1 << 28)}"])
        part.lines.append(f"rings {bell}{badge}")
        part.code += ask(3, bell)

    def see(self, part, page):
        word = self.chance.choice(["sees", "writes"])
        # an address of its own for each page, or none
        number = int(page[4:])
        place = self.chance.choice(["", "", f" {0x40000000 + 0x1000 * number:#x}", f" {0x400000 * (number + 3):#x}"])
        part.lines.append(f"{word} {page}{place}")
        part.code += [f"lui x6 {page}", "sw x5 0(x6)" if word == "writes" else "lw x5 8(x6)"]

    def pool(self, part):
        bits = self.chance.randrange(4, 21)
        if self.chance.random() < 0.5 or 1 << bits > self.pools:
            return
        self.pools -= 1 << bits
        slots = self.chance.randrange(0, 40)
        part.lines.append(f"pool {bits} {slots}" + self.chance.choice(["", " 0x3000", " 0x7f812345"]))
        if slots and bits >= 12:
            part.code += retype()

    def declared(self, page):
        words = [self.chance.randrange(1 << 32) for _ in range(self.chance.choice([0, 0, 2, 1024]))]
        return " ".join([self.chance.choice(["page", "page", "device"]), page, *map(str, words)])

    def text(self):
        declared = [self.declared(page) for page in self.pages]
        declared += [f"door {door}" for door in self.doors] + [f"bell {bell}" for bell in self.bells]
        self.chance.shuffle(declared)
        return "\n".join(declared) + "\n" + "".join(part.text(self.chance) for part in self.parts)


def description(seed):
    return System(random.Random(seed)).text()


def done(tool, word, source, target):
    """What the program says, where it is done."""
    said = subprocess.run([tool, word, source, target], capture_output=True, text=True)
    if said.returncode != 0:
        raise SystemExit(f"{source}: {said.returncode} {said.stdout}{said.stderr}")


def judged(tool, word, source, target):
    """What is reckoned of what the program made."""
    done(tool, word, source, target)
    with open(target, "rb") as file:
        made = file.read()
    if word == "make":
        return verdict(made)
    return verdict(assembled(made.decode("ascii").replace(" auto ", " 1000000 ")))


def is_right(word, said):
    if word == "make":
        return said == "accepted"
    return said == "accepted" or int(said.split()[1]) >= PROGRAMS


def filled(line):
    """64 KiB of lines, each by its number."""
    lines, size = [], 0
    while size < NOISE:
        lines.append(line(len(lines)))
        size += len(lines[-1]) + 1
    return ("\n".join(lines) + "\n")[:NOISE].encode("ascii")


def noises(chance):
    """Files of 64 KiB by the kind of their noise."""
    words = ["page", "device", "bell", "door", "part", "end", "code", "waits", "rings", "serves", "calls", "sends", "sees", "writes", "pool", "reg",
        "budget", "within", "program", "line", "every", "burst", "as", "addi", "lui", "ecall", "x5", "a", "b", "0", "7", "0x1000", "4294967296", ":", "#"]
    code, valid = "addi x5 x5 1", (description(7) + description(8)).encode("ascii")
    turned = bytearray(valid[:NOISE])
    for _ in range(40):
        turned[chance.randrange(len(turned))] = chance.randrange(32, 127)
    return {
        "bytes": chance.randbytes(NOISE),
        "zeros": bytes(NOISE),
        "letters": bytes(chance.randrange(32, 127) for _ in range(NOISE)),
        "one line": b"waits " * (NOISE // 6),
        "one word": b"p" * NOISE,
        "empty lines": b"\n" * NOISE,
        "words": filled(lambda _: " ".join(chance.choice(words) for _ in range(chance.randrange(1, 6)))),
        "pages": filled(lambda k: f"page p{k}"),
        "bells": filled(lambda k: f"bell b{k}"),
        "words of a page": b"page p" + b" 7" * (NOISE // 2 - 3),
        "parts": filled(lambda k: f"part p{k} 1\ncode\necall\nend"),
        "parts that are open": filled(lambda k: f"part p{k} 1"),
        "instructions": b"part p 1\ncode\n" + filled(lambda _: code)[: NOISE - 100] + b"\nend\n",
        "labels": b"part p 1\ncode\n" + filled(lambda k: f"l{k}: {code}")[: NOISE - 100].rsplit(b"\n", 1)[0] + b"\nend\n",
        "views": b"page p\npart a 1\n" + filled(lambda _: "sees p"),
        "pages that a part sees": filled(lambda k: f"page p{k}")[: NOISE // 3].rsplit(b"\n", 1)[0] + b"\npart a 1\n"
            + filled(lambda k: f"sees p{k}")[: NOISE // 3].rsplit(b"\n", 1)[0] + b"\ncode\necall\nend\n",
        "doors of all parts": filled(lambda k: f"door d{k}")[:600].rsplit(b"\n", 1)[0] + b"\n"
            + b"".join(b"part p%d 1\n" % k + b"".join(b"calls d%d\n" % d for d in range(60)) + b"code\necall\nend\n" for k in range(64)),
        "pools": filled(lambda k: f"part p{k} 1\npool {k % 40} {k * 97}\ncode\necall\nend"),
        "a system that is cut": valid[: chance.randrange(len(valid))],
        "a system with other letters": bytes(turned),
    }


def noise(tool):
    bad = 0
    with tempfile.TemporaryDirectory() as room:
        source, target = f"{room}/noise.sys", f"{room}/noise.text"
        for kind, content in noises(random.Random(1)).items():
            with open(source, "wb") as file:
                file.write(content)
            begun = time.monotonic()
            said = subprocess.run([tool, "expand", source, target], capture_output=True)
            took = time.monotonic() - begun
            left = os.path.exists(target)
            if took > 1 or said.returncode not in (0, 1, 3) or left != (said.returncode == 0) or (said.returncode == 3 and kind != "bytes"):
                print(f"{kind}: {said.returncode} after {took:.2f} s: {said.stderr[:200]}")
                bad += 1
            if left:
                os.unlink(target)
    print(f"noise: {bad} wrong")
    return bad > 0


def run(word, tool, count):
    bad = 0
    with tempfile.TemporaryDirectory() as room:
        for seed in range(count):
            source, target = f"{room}/{seed}.sys", f"{room}/{seed}.out"
            with open(source, "w", encoding="ascii") as file:
                file.write(description(seed))
            said = judged(tool, word, source, target)
            if not is_right(word, said):
                print(f"description {seed}: {said}")
                bad += 1
            os.unlink(source)
    print(f"{count} descriptions, {bad} wrong")
    return bad > 0


def main():
    if sys.argv[1:2] == ["write"] and len(sys.argv) == 3:
        print(description(int(sys.argv[2])), end="")
        return 0
    if sys.argv[1:2] in (["expand"], ["make"]) and len(sys.argv) == 4:
        return run(sys.argv[1], sys.argv[2], int(sys.argv[3]))
    if sys.argv[1:2] == ["noise"] and len(sys.argv) == 3:
        return noise(sys.argv[2])
    sys.exit(__doc__)


if __name__ == "__main__":
    sys.exit(main())
