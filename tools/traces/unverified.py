"""A run of an image that need not be accepted: its threads may fault, jump anywhere and be refused (docs/MANUAL.md).

Each thread reaches CNodes of its own. Of calls that an accepted program does not make there are invocations of what it holds, whatever
they answer, slots that are empty, and numbers that no call has; not sends without a right, nor receives from nothing.
"""

from calls import A0, A1, A7, LISTED, WORDS, Error
from machine import ALL_ONES, CALL, ENDPOINT, FRAME, IN_REGISTERS, PUT_CHAR, SEND, TAKEN, WIDTHS, Machine
from programs import Instruction, signed
from rules import check_objects, reach

NO_CAPABILITY, UNKNOWN_CALL, INSTRUCTION, MEMORY_FAULT = 1, 2, 3, 4
# why a capability is not found
EMPTY = 2
ILLEGAL, MISALIGNED = 1, 2
# what an access needs of a mapping, and its number in a fault's message
WRITE, READ, EXECUTE = 1, 2, 4
ACCESSES = {READ: 1, WRITE: 2, EXECUTE: 3}


class Fault(Exception):
    """A fault's number, and the words of its message after the pc."""


class Unverified(Machine):
    def prepare(self):
        check_objects(self.image)
        offsets = self.image.offsets
        self.rights = {(offsets[root], address >> 12): rights for root, address, _, rights in self.image.frames}
        for t in self.image.threads:
            t.reached, _ = reach(self.image, t)

    def __init__(self, data):
        super().__init__(data)
        for runner, t in zip(self.threads, self.image.threads):
            runner.handler_address, runner.fault = t.fault, None

    # ---- memory

    def mapped(self, runner, page):
        """The frame and the rights of a page, if there is one."""
        for capability, _ in runner.kernel.slots.values():
            if capability[0] == FRAME and capability[3] and capability[3][:2] == (runner.root, page):
                return capability[1], capability[3][2]
        return self.pages.get((runner.root, page)), self.rights.get((runner.root, page), 0)

    def check(self, runner, address, width, access):
        """Faults at the first byte that may not be reached so."""
        for at in range(address, address + width):
            at &= ALL_ONES
            if at >= 2**31 or not self.mapped(runner, at >> 12)[1] & access:
                raise Fault(MEMORY_FAULT, at, ACCESSES[access])

    def byte(self, runner, address):
        return self.frame(self.mapped(runner, (address & ALL_ONES) >> 12)[0]), address & 4095

    # ---- faults

    def faults(self, runner, kind, *words):
        """What becomes of a thread that faults: its handler gets a message, or it stops."""
        self.ready.remove(runner)
        runner.fault = kind, [runner.pc, *words]
        found = runner.kernel.lookup(runner.kernel.root, runner.handler_address, 32) if runner.handler_address else None
        held = runner.kernel.held(found[0]) if found else None
        if held and held[0] == ENDPOINT and held[2] & 9 == 9:
            if self.receivers.get(held[1]):
                receiver = self.receivers[held[1]].pop(0)
                self.deliver(runner, receiver, held[3])
                receiver.caller = runner
                self.passes(receiver)
            else:
                self.senders.setdefault(held[1], []).append((runner, CALL, held[3], True))
        return f"fault {kind}"

    def deliver(self, sender, receiver, badge):
        if sender.fault is None:
            super().deliver(sender, receiver, badge)
            return
        kind, words = sender.fault
        receiver.set(A0, badge)
        receiver.set(A1, kind << 12 | len(words))
        for register, word in zip(WORDS, words):
            receiver.set(register, word)

    def reply(self, runner):
        """The answer to a fault sets its thread on its way again, or stops it."""
        faulted = runner.caller
        if faulted is None or faulted.fault is None:
            super().reply(runner)
            return
        runner.caller, faulted.fault = None, None
        if runner.registers[A1] >> 12 == 0:
            if min(runner.registers[A1] & 127, IN_REGISTERS):
                faulted.pc = runner.registers[WORDS[0]] & ~3
            self.wake(faulted)

    # ---- instructions

    def jumps(self, target):
        if target % 4:
            raise Fault(INSTRUCTION, MISALIGNED)
        return target & ALL_ONES

    def goes_to(self, runner, it):
        """Where an instruction that is no jump falls through, and a jump leads."""
        x = runner.registers
        if it.kind == "jal" or it.kind == "branch" and TAKEN[it.name](x[it.rs1], x[it.rs2]):
            return self.jumps(runner.pc + it.immediate)
        return runner.pc + 4

    def instruction(self, runner):
        try:
            self.check(runner, runner.pc, 4, EXECUTE)
            word, x = self.load(runner, runner.pc, 4), runner.registers
            it = Instruction(word)
            if it.kind in (None, "ebreak"):
                raise Fault(INSTRUCTION, ILLEGAL)
            if it.kind in ("load", "store"):
                access = READ if it.kind == "load" else WRITE
                self.check(runner, x[it.rs1] + it.immediate & ALL_ONES, WIDTHS[it.name[1]], access)
            if it.kind == "jalr":
                target = self.jumps(x[it.rs1] + signed(word >> 20, 12) & ALL_ONES & ~1)
                runner.set(it.rd, runner.pc + 4)
                runner.pc = target
                return "plain"
            self.goes_to(runner, it)
            return super().instruction(runner)
        except Fault as fault:
            return self.faults(runner, *fault.args)

    def system_call(self, runner):
        call, address = runner.registers[A7], runner.registers[A0]
        if not 1 <= call <= PUT_CHAR:
            raise Fault(UNKNOWN_CALL, call)
        found = runner.kernel.lookup(runner.kernel.root, address, 32)
        if call in (CALL, SEND) and found and not runner.kernel.held(found[0]):
            raise Fault(NO_CAPABILITY, address, 0, EMPTY, found[1])
        return super().system_call(runner)

    def invoke(self, runner, call, slot):
        """An invocation is refused, and changes nothing, or is done."""
        held, info = runner.kernel.held(slot), runner.registers[A1]
        count = LISTED[held[0]].get(info >> 12)
        slots = dict(runner.kernel.slots)
        try:
            if info >> 7 & 3:
                raise Error(7)
            if count is None:
                raise Error(3)
            if min(info & 127, IN_REGISTERS) < count:
                raise Error(7)
            words = [runner.registers[it] for it in WORDS[:count]]
            runner.kernel.invoke(slot, info >> 12, words)
        except Error as error:
            runner.kernel.slots = slots
            if call == CALL:
                runner.set(A0, 0)
                runner.set(A1, error.args[0] << 12)
            runner.pc += 4
            return f"error {error.args[0]}"
        if call == CALL:
            runner.set(A0, 0)
            runner.set(A1, 0)
        runner.pc += 4
        return "ok"
