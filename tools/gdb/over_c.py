#!/usr/bin/env python3
"""A real gdb over systems of samples/c: a breakpoint on a line of C, registers, steps by line through a loop, a page that is watched,
and the way back from a failed assert to the store that caused it. What it shows is compared with what tools/traces reckons of the
image, and lines with the comments of the text.

  tools/gdb/over_c.py [GDB]
"""

import json
import os
import pty
import re
import shutil
import subprocess
import sys
import tempfile

sys.dont_write_bytecode = True
from protocol import TOP, TOOL, do, reckoned  # noqa: E402

sys.path.insert(0, os.path.join(TOP, "tools", "make_system"))
from coverage_beside import places  # noqa: E402

SAMPLE = os.path.join(TOP, "samples", "c", "ring")
LAUNCH = os.path.join(TOP, "tools", "editors", "vscode", "launch.json")
# The page that both parts see, and the names of registers as gdb has them, x0 first.
SHARED = 0x10000
NAMES = "zero ra sp gp tp t0 t1 t2 fp s1 a0 a1 a2 a3 a4 a5 a6 a7 s2 s3 s4 s5 s6 s7 s8 s9 s10 s11 t3 t4 t5 t6 pc".split()
MARK = "@@@"
# The mistake: letters up to `h` alone are expected.
TAKEN = "            sys_put_char(letter);"
ASSERTED = "            assert(letter <= 'h');"


class Other(Exception):
    """What was shown is not as reckoned."""


def expect(holds, what):
    """Ends with what is other."""
    if not holds:
        raise Other(what)


class System:
    """A system in a folder of its own, made, with its symbols, its image and the places of its instructions."""

    def __init__(self, folder):
        self.folder, self.file = folder, os.path.join(folder, "ring.sys")
        image, text = os.path.join(folder, "ring.img"), os.path.join(folder, "ring.text")
        for words in (["make", self.file, image, "--symbols", os.path.join(folder, "ring.elf")], ["certify", self.file, text]):
            subprocess.run([TOOL, *words], check=True, capture_output=True)
        with open(image, "rb") as one, open(text, encoding="utf-8") as two:
            self.data, self.threads = one.read(), places(two.read())

    def place(self, number, pc):
        """The place of an instruction of a thread, by the text."""
        _, base, _, code = self.threads[number]
        return code[(pc - base) // 4]


def debugged(gdb, folder, commands):
    """What gdb puts for each of some commands."""
    script = os.path.join(folder, "commands.gdb")
    with open(script, "w", encoding="utf-8") as file:
        for command in ["set pagination off", "set confirm off", "set remotetimeout 120", *commands]:
            file.write(f"echo {MARK}\\n\n{command}\n")
    said = on_a_terminal([gdb, "-nx", "-batch", "-x", script], folder)
    parts = [part.strip() for part in said.split(f"{MARK}\n")[4:]]
    expect(len(parts) == len(commands), f"gdb ends early:\n{said}")
    return parts


def on_a_terminal(words, folder):
    """What a program puts on a terminal: gdb puts what `monitor` says elsewhere than the rest, and a terminal keeps the order."""
    ours, theirs = pty.openpty()
    with subprocess.Popen(words, cwd=folder, stdin=subprocess.DEVNULL, stdout=theirs, stderr=theirs, env={**os.environ, "TERM": "dumb"}) as program:
        os.close(theirs)
        said = bytearray()
        try:
            while piece := os.read(ours, 1 << 16):
                said += piece
        except OSError:
            # The other side is closed.
            pass
        os.close(ours)
        program.wait(60)
    return said.decode().replace("\r\n", "\n")


def done_in(said):
    """How many events are done, by what `monitor where` says."""
    found = re.search(r"(\d+) events are done", said)
    expect(found, f"no number of events in {said!r}")
    return int(found[1])


def registers_in(said):
    """The registers that `info registers` shows: all but x0, which is 0."""
    found = {"zero": "0x0", **dict(re.findall(r"^(\w+) +(0x[0-9a-f]+)", said, re.M))}
    expect(not set(NAMES) - set(found), f"no {sorted(set(NAMES) - set(found))} in {said}")
    return [int(found[name], 16) for name in NAMES]


def word(machine, root, address):
    """A word of a page that a thread sees."""
    frame = machine.pages[root, address >> 12]
    return int.from_bytes(machine.memory[frame][address & 4095 : (address & 4095) + 4], "little")


def at_a_line(gdb, system):
    """A breakpoint, registers, steps by line, a page that is watched, and one instruction back."""
    attach = f"target remote | {TOOL} gdb {system.file} --part producer"
    looks = ["monitor where", "info registers", "frame"]
    steps = ["step", "monitor where", "printf \"%x\\n\", $pc", "frame"] * 16
    commands = [
        "file ring.producer.elf", attach, "info threads", "break producer.c:10", "monitor where", "monitor irq beat", "continue", *looks, *steps,
        "continue", "monitor where", "monitor irq beat", f"watch *(unsigned int *){SHARED + 8}", "continue", "monitor where", "reverse-stepi", "monitor where",
        "info registers",
    ]
    said = debugged(gdb, system.folder, commands)
    names, begun = said[2], done_in(said[4])
    expect("producer: " in names and "consumer: " in names, names)
    events = ["step"] * begun + ["irq 1"]
    expect("producer.c:10" in said[6], said[6])
    count = done_in(said[7])
    machine = reckoned(system.data, events, count)
    expect(registers_in(said[8]) == [*machine.threads[0].registers, machine.threads[0].pc], f"other registers after {count} events")
    lines = []
    for at in range(10, 10 + len(steps), 4):
        count, pc = done_in(said[at + 1]), int(said[at + 2], 16)
        machine = reckoned(system.data, events, count)
        expect(machine.threads[0].pc == pc, f"after {count} events the producer is not at {pc:#x}")
        place = system.place(0, pc)
        expect(place in said[at + 3], f"{place} is not in {said[at + 3]}")
        lines.append(place)
    expect(max(lines.count(it) for it in set(lines)) > 1, f"no loop in {lines}")
    again, told, place, back, shown = (said[10 + len(steps) + it] for it in (1, 4, 5, 7, 8))
    events += ["step"] * (done_in(again) - len(events)) + ["irq 1"]
    expect("New value" in told, told)
    count = done_in(place)
    root = reckoned(system.data, events, 0).threads[0].root
    old, new = (word(reckoned(system.data, events, it), root, SHARED + 8) for it in (count - 1, count))
    expect(old != new and f"Old value = {old}" in told and f"New value = {new}" in told, f"{old} {new} after {count} of {len(events)}: {told}")
    count = done_in(back)
    machine = reckoned(system.data, events, count)
    runner = next(it for it in machine.threads if it.pc == registers_in(shown)[-1])
    expect(registers_in(shown) == [*runner.registers, runner.pc], f"other registers, back after {count} events")
    return f"{len(steps) // 4} steps by line over {len(set(lines))} lines, a word watched, an instruction back"


def from_an_assert(gdb, system, events):
    """On to an assert that fails, and back to the store that caused it."""
    with open(events, encoding="utf-8") as file:
        listed = [it for line in file if (words := line.split()) for it in (["step"] * int(words[1]) if words[0] == "step" and len(words) > 1 else [line.strip()])]
    with open(os.path.join(system.folder, "consumer.c"), encoding="utf-8") as file:
        wanted = next(number for number, line in enumerate(file, 1) if "assert(" in line)
    attach = f"target remote | {TOOL} gdb {system.file} {events}"
    commands = ["file ring.consumer.elf", attach, "continue", "monitor where", "info threads", "thread 2", "frame", f"x/8wx {SHARED}"]
    said = debugged(gdb, system.folder, commands)
    expect(done_in(said[3]) == len(listed), said[3])
    expect(f"consumer.c:{wanted}" in said[4] and f"consumer.c:{wanted}" in said[6], f"{said[4]}\n{said[6]}")
    words = [int(it, 16) for it in re.findall(r"\t(0x[0-9a-f]{8})", said[7])]
    root = reckoned(system.data, [], 0).threads[1].root
    machine = reckoned(system.data, listed, len(listed))
    expect(words == [word(machine, root, SHARED + 4 * it) for it in range(8)], f"other words: {words}")
    expect(ord("i") in words, f"the letter is not in {words}")
    address = SHARED + 4 * words.index(ord("i"))
    back = ["file ring.consumer.elf", attach, "continue", f"watch *(unsigned int *){address}", "reverse-continue", "monitor where", "file ring.producer.elf", "info line *$pc", "printf \"%x\\n\", $pc"]
    said = debugged(gdb, system.folder, back)
    count, pc = done_in(said[5]), int(said[8].split()[0], 16)
    before, after = (reckoned(system.data, listed, it) for it in (count, count + 1))
    old, new = word(before, root, address), word(after, root, address)
    expect(old != ord("i") and new == ord("i"), f"the word is {old} and then {new}, after {count} events")
    expect(before.threads[0].pc == pc and before.current() is before.threads[0], f"the producer is not at {pc:#x} after {count} events")
    expect(system.place(0, pc).rsplit(":", 1)[1] in re.findall(r"Line (\d+)", said[7]), f"{system.place(0, pc)} is not in {said[7]}")
    return f"from consumer.c:{wanted}, after {len(listed)} events, back to {system.place(0, pc)}, after {count}"


def by_the_launch_file(gdb, system):
    """What the editor has gdb do is done, for each part."""
    with open(LAUNCH, encoding="utf-8") as file:
        launches = json.load(file)["configurations"]
    expect(launches, "the launch file has no configuration")
    for it in launches:
        folder = {"${workspaceFolder}": system.folder, "microsys_tool": TOOL, "SYSTEM": "ring", "PART": "producer"}
        commands = [command["text"] for command in it["customLaunchSetupCommands"]]
        for name, value in folder.items():
            commands = [command.replace(name, value) for command in commands]
        said = debugged(gdb, system.folder, [*commands, "break producer.c:10", "monitor irq beat", "continue"])
        expect("producer.c:10" in said[-1], said[-1])
    return f"{len(launches)} configuration of the launch file"


def main():
    gdb = sys.argv[1] if len(sys.argv) > 1 else "gdb-multiarch"
    with tempfile.TemporaryDirectory(prefix="microsys.") as room:
        right, wrong = os.path.join(room, "right"), os.path.join(room, "wrong")
        shutil.copytree(SAMPLE, right)
        shutil.copytree(SAMPLE, wrong)
        with open(os.path.join(wrong, "consumer.c"), encoding="utf-8") as file:
            source = file.read()
        if source.count(TAKEN) != 1:
            sys.exit("samples/c/ring/consumer.c is another")
        with open(os.path.join(wrong, "consumer.c"), "w", encoding="utf-8") as file:
            file.write("#include <assert.h>\n" + source.replace(TAKEN, f"{{\n{ASSERTED}\n{TAKEN}\n        }}"))
        # Two beats: at a third one the producer writes over the letter that fails.
        with open(os.path.join(wrong, "two.events"), "w", encoding="utf-8") as file:
            file.write("irq 1\nstep 1000\nirq 1\nstep 1000\n")
        try:
            made = System(right)
            print(f"a line: {at_a_line(gdb, made)}", flush=True)
            print(f"an assert: {from_an_assert(gdb, System(wrong), os.path.join(wrong, 'two.events'))}", flush=True)
            print(f"an editor: {by_the_launch_file(gdb, made)}", flush=True)
        except Other as other:
            print(f"other than reckoned: {other}")
            return 1
    return 0


if __name__ == "__main__":
    sys.exit(main())
