"""Whether what an event changes lies within the authority of who steps, by docs/PROVED.md, "Integrity", alone: nothing here asks what the
event should do. Who waits for what is known from the account."""

from account import ACK, BUFFER_SLOT, COPY, DELETE, MAP, MINT, MOVE, RETYPE, REVOKE, UNMAP
from rules import BITS, ENDPOINT, FRAME, NOTIFICATION, UNTYPED
from seen import EMPTY, READ, WRITE, Wrong

# what a step does to slots, by the label of its invocation
CHANGES_SLOTS = (RETYPE, COPY, MINT, MOVE, DELETE, REVOKE, MAP, UNMAP)
assert ACK not in CHANGES_SLOTS


def needs(test, why):
    if not test:
        raise Wrong(why)


def without_use(capability):
    """A capability apart from its mapping, or from how much of it is used."""
    if capability and capability[0] in (UNTYPED, FRAME):
        return capability[:3]
    return capability


def mapping_of(capability):
    return capability[3] if capability and capability[0] == FRAME else None


def comes_from(new, held):
    """Whether a capability is to the same object as another one, with no more rights, and with its badge if that has one."""
    if new[0] not in (ENDPOINT, NOTIFICATION, FRAME) or new[:2] != held[:2] or new[2] & ~held[2]:
        return False
    return new[0] == FRAME or held[3] in (0, new[3])


class Bounds:
    """What one event changed, with what was seen before it."""

    def __init__(self, view, deed, changes):
        self.view, self.deed, self.changes = view, deed, changes
        self.own = deed.thread.cnodes if deed.thread else set()
        self.root = deed.thread.root if deed.thread else None
        self.label, self.named = deed.invokes or (None, None)
        # what the thread's own slots held before the event
        self.held = {slot: held for slot, held in view.slots.items() if slot[0] in self.own}
        # the memory that it held, and what was left of the memory that its call names
        self.memory = [(it[1], it[1] + 2 ** it[2]) for it, _ in self.held.values() if it[0] == UNTYPED]
        named = view.held(self.named)
        self.left = [(named[1] + named[3], named[1] + 2 ** named[2])] if named and named[0] == UNTYPED else []

    @staticmethod
    def lies_in(memory, first, size):
        return any(begin <= first and first + size <= end for begin, end in memory)

    def after(self, slot):
        return self.changes[("slot", *slot)][1] if ("slot", *slot) in self.changes else self.view.slots.get(slot, EMPTY)

    # ---- registers

    def register(self, thread, number):
        if self.deed.thread and thread == self.deed.thread.tcb:
            return
        needs(number in self.deed.reached.get(thread, ()), "a register of a thread that is not reached, or none that a message has")
        old, new = self.changes["reg", thread, number]
        needs(number or new == old + 4, "another thread goes on elsewhere than behind its call")

    # ---- slots

    def slot(self, slot):
        old, new = self.changes[("slot", *slot)]
        needs(self.label in CHANGES_SLOTS, "a slot changes without an invocation that changes slots")
        needs(slot[0] in self.own, "a slot of another holder")
        needs(new != (None, new[1]) or new == EMPTY, "an empty slot has a parent")
        if new[0] and without_use(new[0]) != without_use(old[0]):
            self.new_capability(new[0])
        if mapping_of(old[0]) != mapping_of(new[0]):
            self.mapping(mapping_of(old[0]), new[0])
        if old[0] and new[0] and old[0][0] == new[0][0] == UNTYPED and old[0] != new[0]:
            self.used(slot, old[0][3], new[0][3])
        if new[1] != old[1] and new != EMPTY:
            above = any(parent == new[1] for _, parent in self.held.values())
            needs(new[1] and new[1][0] in self.own or above, "derived from a slot that is neither the thread's own nor above one of its own")

    def new_capability(self, new):
        if any(comes_from(new, held) for held, _ in self.held.values()):
            return
        needs(self.label == RETYPE and new[0] in (ENDPOINT, NOTIFICATION, FRAME), "a capability that comes from none that the thread held")
        needs(self.lies_in(self.left, new[1], 2 ** BITS[new[0]]), "a new object outside of what is left of the memory that the call names")
        needs(new[0] == FRAME or new[3] == 0, "a new object's capability has a badge")

    def mapping(self, old, new):
        needs(old is None or old[0] == self.root, "a mapping under another root table goes")
        found = mapping_of(new)
        if found is None:
            return
        needs(found[0] == self.root, "a mapping under another root table comes")
        given = self.label == MAP and found[2] & ~(new[2] & self.deed.words[3]) == 0
        moved = self.label == MOVE and any(held == new for held, _ in self.held.values())
        needs(given or moved, "a mapping that is not asked for, or has more rights than its capability")

    def used(self, slot, old, new):
        if self.label == RETYPE and slot == self.named:
            needs(old < new, "less memory is used after a Retype")
        else:
            childless = all(self.after(it)[1] != slot for it in {*self.view.slots, *(key[1:] for key in self.changes if key[0] == "slot")})
            needs(self.label in (DELETE, REVOKE) and new == 0 and childless, "memory is whole again under what was made of it")

    # ---- bytes

    def byte(self, place):
        old, new = self.changes["byte", place]
        if old is None:
            needs(self.label == RETYPE and new == 0 and self.lies_in(self.left, place, 1), "a byte appears that no Retype makes")
        elif new is None:
            needs(self.label in (DELETE, REVOKE) and self.lies_in(self.memory, place, 1), "a byte goes that no Delete or Revoke of the thread's memory ends")
        elif self.deed.written:
            needs(self.deed.written.get(place) == new, "a byte that is none of the word that the world writes")
        elif self.deed.stored:
            needs(place in self.deed.stored and self.is_written(place), "a byte that the store does not reach")
        else:
            needs(any(self.is_delivered(place, new, *it) for it in self.deed.copied), "a byte that no message brings")

    def is_written(self, place):
        """Whether the byte is in a frame that the thread has mapped to write."""
        pages = self.view.pages().items()
        return any(root == self.root and rights & WRITE and frame == place // 4096 * 4096 for (root, _), (frame, rights) in pages)

    # ---- messages

    def buffers(self, sender, receiver):
        """Where both have their buffers, or None."""
        held = [self.view.held((it.tcb, BUFFER_SLOT)) for it in (sender, receiver)]
        if None in held or any(it[0] != FRAME or it[2] != READ | WRITE for it in held):
            return None
        return held[0][1], held[1][1]

    def is_delivered(self, place, byte, sender, receiver, length):
        """Whether the byte is one of a word after the eighth that a message brings, and comes from the same place of the sender's buffer."""
        source, target = self.buffers(sender, receiver) or (0, place)
        return 32 <= place - target < 4 * length and byte == self.view.bytes[source + place - target]

    def message(self, sender, receiver, length):
        """A message comes whole."""
        source, target = self.buffers(sender, receiver) or (0, 0)
        for at in range(32, 4 * length):
            _, byte = self.changes.get(("byte", target + at), (None, self.view.bytes[target + at]))
            needs(byte == self.view.bytes[source + at], "a byte of a message that does not come")


def check_bounds(view, deed, changes):
    """Refuses what lies outside."""
    bounds = Bounds(view, deed, changes)
    for key in changes:
        {"reg": bounds.register, "byte": bounds.byte}.get(key[0], lambda *slot: bounds.slot(slot))(*key[1:])
    for it in deed.copied:
        bounds.message(*it)


def check_values(view, deed, changes):
    """Refuses what is not just what the event has to change."""
    for key, (old, new) in changes.items():
        needs(view.now(key) == old, f"{key}: {old} was not seen before")
        needs(key in deed.wanted, f"{key} changes to {new}, and should stay")
        needs(deed.wanted[key] == new, f"{key} changes to {new}, and not to {deed.wanted[key]}")
    for key, new in deed.wanted.items():
        needs(key in changes or view.now(key) == new, f"{key} stays, and should become {new}")


def check_event(view, deed, label, changes):
    needs(label == deed.label, f"`{label}`, and not `{deed.label}`")
    check_values(view, deed, changes)
    check_bounds(view, deed, changes)
