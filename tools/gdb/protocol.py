"""A session of `microsys_tool gdb`, by the packets of gdb's remote serial protocol."""

import os
import re
import subprocess
import sys

sys.dont_write_bytecode = True
TOP = os.path.dirname(os.path.dirname(os.path.dirname(os.path.realpath(__file__))))
sys.path.insert(0, os.path.join(TOP, "tools", "traces"))
from machine import Machine  # noqa: E402

# The program for makers with what Python adds, and the program itself.
TOOL = os.path.join(TOP, "tools", "make_system", "microsys_tool")
PROGRAM = os.environ.get("MICROSYS_TOOL", os.path.join(TOP, "crates", "microsys_tool", "out", "microsys_tool"))
REGISTERS = 33


def frame(payload):
    """The packet of a payload."""
    return b"$" + payload + b"#%02x" % (sum(payload) % 256)


class Session:
    """The program, which answers packets."""

    def __init__(self, *words):
        self.program = subprocess.Popen([PROGRAM, "gdb", *words], stdin=subprocess.PIPE, stdout=subprocess.PIPE)

    def byte(self):
        """The next byte that it puts."""
        byte = self.program.stdout.read(1)
        if not byte:
            raise EOFError("the session has ended")
        return byte

    def packet(self):
        """The next packet, whose sum is right."""
        if self.byte() != b"$":
            raise ValueError("no packet begins")
        body = bytearray()
        while (byte := self.byte()) != b"#":
            body += byte
        if int(self.byte() + self.byte(), 16) != sum(body) % 256:
            raise ValueError("the sum is another")
        return bytes(body)

    def ask(self, payload):
        """The answer to a packet, and what is said to the user with it."""
        self.program.stdin.write(frame(payload))
        self.program.stdin.flush()
        if self.byte() != b"+":
            raise ValueError("it is not taken")
        said = ""
        while (body := self.packet())[:1] == b"O" and body != b"OK":
            said += bytes.fromhex(body[1:].decode()).decode()
        return body, said

    def monitor(self, line):
        """What a line of `monitor` says."""
        return self.ask(b"qRcmd," + line.encode().hex().encode())[1]

    def done(self):
        """How many events are done."""
        return int(re.match(r"(\d+) events", self.monitor("where"))[1])

    def words(self, number):
        """The registers of the thread of this number, x0 to x31 and the program counter."""
        if self.ask(b"Hg%x" % number)[0] != b"OK":
            raise ValueError("there is no such thread")
        digits = self.ask(b"g")[0].decode()
        return [int.from_bytes(bytes.fromhex(digits[8 * it : 8 * it + 8]), "little") for it in range(REGISTERS)]

    def end(self):
        """Ends the session, and gives its status."""
        self.program.stdin.write(frame(b"k"))
        self.program.stdin.close()
        self.program.stdout.read()
        return self.program.wait(60)


def do(machine, event):
    """An event of a reckoned machine."""
    if event == "step":
        machine.step()
    elif event == "tick":
        machine.tick()
    else:
        machine.interrupt(int(event.split()[1]))


def reckoned(data, events, done):
    """The machine after so many of these events, with steps after them, by the rules alone."""
    machine = Machine(data)
    for number in range(done):
        do(machine, events[number] if number < len(events) else "step")
    return machine


def differs(session, machine):
    """What a session shows other than a reckoned machine has: registers, and the bytes of pages."""
    for number, thread in enumerate(machine.threads, 1):
        shown = session.words(number)
        if shown != [*thread.registers, thread.pc]:
            return f"thread {number}: {shown}, and not {[*thread.registers, thread.pc]}"
        for (root, page), offset in sorted(machine.pages.items()):
            if root != thread.root:
                continue
            digits = session.ask(b"m%x,400" % (page << 12))[0]
            if digits != bytes(machine.memory[offset][:0x400]).hex().encode():
                return f"thread {number}: other bytes at {page << 12:#x}"
    return None
