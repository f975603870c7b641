"""What a program may call at a point, and what is known after it, on the slots that are noted there."""

from rules import ALL_ONES, CNODE, ENDPOINT, FRAME, NOTIFICATION, ROOT, TABLE, TCB, UNTYPED, BITS, Refused, align, is_guard, kind_of

HANDLER, CONTROL = 10, 9
A0, A1, A7 = 10, 11, 17
WORDS = [12, 13, 14, 15, 18, 19, 20, 21]
BADGES, FULL, ZERO = (0, 2**28 - 1), (0, ALL_ONES), (0, 0)


class Error(Exception):
    """The kernel's error."""


def image_slots(image, t):
    """The slots of the thread's CNodes, as the image lists them: the capability, and no parent but the boot CNode."""
    slots = {}
    for cnode, index, source, rights, data in image.capabilities:
        if cnode not in t.reached:
            continue
        kind = kind_of(image, source)
        if kind is None:
            capability = HANDLER, 0, image.interrupts[source - len(image.objects)][0]
        else:
            offset, size = image.offsets[source], image.objects[source][2]
            capability = {
                UNTYPED: (kind, offset, size, 0), ENDPOINT: (kind, offset, rights, data), NOTIFICATION: (kind, offset, rights, data),
                CNODE: (kind, offset, size, data), FRAME: (kind, offset, rights, None), ROOT: (kind, offset),
            }[kind]
        slots[cnode, index] = (capability, None)
    return slots


def is_stray(image, t, slots):
    """Whether a noted slot is one that the thread may not have."""
    nodes = {(image.offsets[it], image.objects[it][2]) for it in t.reached}
    for (cnode, index), (capability, _) in slots.items():
        if cnode not in t.reached or index >= 2 ** image.objects[cnode][2]:
            return True
        kind = capability[0]
        if kind in (TCB, TABLE, CONTROL) or kind == CNODE and capability[1:3] not in nodes:
            return True
        if kind == ROOT and capability[1] != image.offsets[t.root] or depth_of(slots, (cnode, index)) is None:
            return True
    return False


def depth_of(slots, slot):
    """How many slots of the thread lead to the boot CNode, or None where they do not."""
    depth = 0
    while slot is not None:
        depth += 1
        if slot not in slots or depth > len(slots):
            return None
        slot = slots[slot][1]
    return depth


class Kernel:
    """The slots of one thread, and the calls that change them."""

    def __init__(self, image, t, slots):
        self.image, self.t, self.slots = image, t, dict(slots)
        self.node = {image.offsets[it]: it for it in t.reached}
        self.root = CNODE, image.offsets[t.cnode], image.objects[t.cnode][2], t.guard

    def lookup(self, root, address, depth):
        """The slot, and the bits that are left; or None."""
        bits = depth
        while True:
            _, offset, radix, guard = root
            size = guard & 31
            if size > bits or (address >> (bits - size)) & (2**size - 1) != guard >> 5 or size + radix > bits:
                return None
            bits -= size + radix
            slot = self.node[offset], (address >> bits) & (2**radix - 1)
            held = self.slots.get(slot, (None,))[0]
            if bits == 0 or not held or held[0] != CNODE:
                return slot, bits
            root = held

    def argument(self, root, address, depth):
        if not 1 <= depth <= 32:
            raise Error(4)
        found = self.lookup(root, address, depth)
        if found is None or found[1]:
            raise Error(6)
        return found[0]

    def held(self, slot):
        return self.slots[slot][0] if slot in self.slots else None

    def source(self, address, depth):
        slot = self.argument(self.root, address, depth)
        if slot not in self.slots:
            raise Error(6)
        return slot

    def free(self, root, address, depth):
        slot = self.argument(root, address, depth)
        if slot in self.slots:
            raise Error(8)
        return slot

    def children(self, slot):
        return [it for it, (_, parent) in self.slots.items() if parent == slot]

    def descendants(self, slot):
        found = self.children(slot)
        for it in found:
            found.extend(self.children(it))
        return found

    def remove(self, gone):
        """Takes slots out at once: who stays hangs below the nearest that stays, and memory without children is whole again."""
        mothers = {self.slots[it][1] for it in gone} - {None}
        for slot, (capability, parent) in list(self.slots.items()):
            while parent in gone:
                parent = self.slots[parent][1]
            self.slots[slot] = (capability, parent)
        for it in gone:
            del self.slots[it]
        for it in mothers - set(gone):
            if self.held(it)[0] == UNTYPED and not self.children(it):
                self.slots[it] = (self.held(it)[:3] + (0,), self.slots[it][1])

    # ---- the calls; each answers whether a program may make it

    def retype(self, slot, words):
        kind, size, address, depth, first, count = words
        if not 1 <= kind <= 8 or kind == UNTYPED and size < 4 or kind == CNODE and size < 1:
            raise Error(1)
        if kind == UNTYPED and size > 24 or kind == CNODE and size > 14:
            raise Error(4)
        node = self.root if depth == 0 else self.held(self.argument(self.root, address, depth))
        if not node or node[0] != CNODE:
            raise Error(6)
        if not 1 <= count <= 256 or first + count > 2 ** node[2]:
            raise Error(4)
        window = [(self.node[node[1]], first + it) for it in range(count)]
        if any(it in self.slots for it in window):
            raise Error(8)
        bits = {UNTYPED: size, CNODE: size + 4}.get(kind) or BITS[kind]
        (_, offset, all_bits, used), parent = self.slots[slot]
        place = align(used, 2**bits)
        if place + count * 2**bits > 2**all_bits:
            raise Error(10)
        self.slots[slot] = ((UNTYPED, offset, all_bits, place + count * 2**bits), parent)
        for number, it in enumerate(window):
            at = offset + place + number * 2**bits
            self.slots[it] = ({FRAME: (FRAME, at, 3, None)}.get(kind, (kind, at, 11, 0)), slot)
        return kind in (ENDPOINT, NOTIFICATION, FRAME)

    def on_cnode(self, label, node, words):
        if label in (11, 12):
            slot = self.argument(node, *words[:2])
            if slot not in self.slots:
                return True
            if label == 11 and self.held(slot)[0] == UNTYPED:
                return "pool"
            self.remove([slot] if label == 11 else self.descendants(slot))
            return True
        free = self.free(node, *words[:2])
        source = self.source(*words[2:4])
        capability, parent = self.slots[source]
        if label in (9, 10):
            return self.moved(label, free, source, words)
        self.slots[free] = (self.copied(label, capability, words[4:]), source)
        return capability[0] in (ENDPOINT, NOTIFICATION, FRAME)

    def copied(self, label, capability, words):
        kind = capability[0]
        if kind in (UNTYPED, TABLE, CONTROL):
            raise Error(3)
        if label == 8 and kind in (ENDPOINT, NOTIFICATION):
            if capability[3]:
                raise Error(3)
            if words[1] >= 2**28:
                raise Error(4)
            capability = capability[:3] + (words[1],)
        if label == 8 and kind == CNODE:
            if not is_guard(capability[2], words[1]):
                raise Error(3)
            capability = capability[:3] + (words[1],)
        if kind in (ENDPOINT, NOTIFICATION, FRAME):
            capability = capability[:2] + (capability[2] & words[0],) + (capability[3:] if kind != FRAME else (None,))
        return capability

    def moved(self, label, free, source, words):
        capability, parent = self.slots[source]
        if label == 10 and capability[0] in (ENDPOINT, NOTIFICATION):
            raise Error(3)
        if label == 10 and capability[0] == CNODE and not is_guard(capability[2], words[4]):
            raise Error(3)
        if label == 9 and capability[0] == UNTYPED:
            return "pool"
        for it in self.children(source):
            self.slots[it] = (self.held(it), free)
        self.slots[free] = self.slots.pop(source)
        return label == 9 and capability[0] in (ENDPOINT, NOTIFICATION, FRAME)

    def map(self, slot, words):
        address, depth, page, rights = words
        (_, offset, own, mapping), parent = self.slots[slot]
        if mapping:
            raise Error(2)
        root = self.held(self.argument(self.root, address, depth))
        if root is None:
            raise Error(6)
        if root[0] != ROOT:
            raise Error(2)
        if page >= 2**31:
            raise Error(1)
        if page % 4096:
            raise Error(5)
        if not any(self.image.offsets[r] == root[1] and a >> 22 == page >> 22 for r, a, _ in self.image.tables):
            raise Error(6)
        taken = any(self.image.offsets[r] == root[1] and a == page for r, a, _, _ in self.image.frames)
        if taken or any(c[0] == FRAME and c[3] and c[3][:2] == (root[1], page >> 12) for c, _ in self.slots.values()):
            raise Error(8)
        given = rights & 7 if own & 2 else 0
        given &= ~1 if not (own & 1 and given & 2) else 7
        if not given & 6:
            raise Error(1)
        self.slots[slot] = ((FRAME, offset, own, (root[1], page >> 12, given)), parent)
        return not rights & 4

    def unmap(self, slot):
        (_, offset, own, _), parent = self.slots[slot]
        self.slots[slot] = ((FRAME, offset, own, None), parent)
        return True

    def invoke(self, slot, label, words):
        capability = self.held(slot)
        kind = capability[0]
        if kind == UNTYPED:
            return self.retype(slot, words)
        if kind == CNODE:
            return self.on_cnode(label, capability, words)
        if kind == FRAME:
            return self.map(slot, words) if label == 13 else self.unmap(slot)
        return kind == HANDLER and label == 18


LISTED = {
    UNTYPED: {1: 6}, TCB: {2: 5, 3: 1, 4: 2, 5: 0, 6: 0}, CNODE: {7: 5, 8: 6, 9: 4, 10: 5, 11: 2, 12: 2}, FRAME: {13: 4, 14: 0},
    TABLE: {15: 3, 16: 0}, CONTROL: {17: 3}, HANDLER: {18: 0, 19: 2, 20: 0}, ROOT: {},
}


def single(state, register, here):
    low, high = state.ranges[register]
    if low != high:
        raise Refused(22, *here)
    return low


def after_call(image, t, state, here):
    """The ranges and slots after a system call, whether it is a wait, and the registers that it writes."""
    number = single(state, A7, here)
    if not 1 <= number <= 9:
        raise Refused(24, *here, 3)
    if number in (6, 7, 9):
        return state.ranges, state.slots, False, set()
    address = single(state, A0, here)
    kernel = Kernel(image, t, state.slots)
    found = kernel.lookup(kernel.root, address, 32)
    held = kernel.held(found[0]) if found else None
    if held is None:
        raise Refused(23, *here)
    if number in (2, 5, 8):
        return received(image, state, held, number != 8, here)
    if held[0] in (ENDPOINT, NOTIFICATION):
        return sent(image, state, held, number, here)
    return invoked(state, kernel, found[0], number == 1, here)


def written(state, values):
    ranges = list(state.ranges)
    for register, found in values.items():
        ranges[register] = found
    return ranges, state.slots


def promised(image, capability):
    """The badges and the ranges of words that are promised of messages, or None."""
    return next((it for endpoint, *it in image.promises if capability[:2] == (ENDPOINT, image.offsets[endpoint])), None)


def received(image, state, held, wait, here):
    if held[0] not in (ENDPOINT, NOTIFICATION) or not held[2] & 2:
        raise Refused(23, *here)
    # who only polls may get no message, and then nothing is promised
    badges, ranges = wait and promised(image, held) or (BADGES, [])
    values = {A0: badges}
    if held[0] == ENDPOINT:
        values |= {it: FULL for it in [A1, *WORDS]} | dict(zip(WORDS, ranges))
    return *written(state, values), wait, set(values)


def keeps(state, badge, info, badges, ranges):
    """Whether a message is known to keep a promise."""
    inside = [low <= state.ranges[it][0] and state.ranges[it][1] <= high for it, (low, high) in zip(WORDS, ranges)]
    return badges[0] <= badge <= badges[1] and len(ranges) <= min(info & 127, 8) and all(inside)


def sent(image, state, held, number, here):
    if not held[2] & 1 or held[0] == ENDPOINT and number == 1 and not held[2] & 8:
        raise Refused(23, *here)
    promise = promised(image, held)
    if promise and not keeps(state, held[3], single(state, A1, here), *promise):
        raise Refused(28, *here)
    values = {}
    if number == 1:
        values = {A0: ZERO, A1: ZERO}
        if held[0] == ENDPOINT:
            values = {A0: ZERO} | {it: FULL for it in [A1, *WORDS]}
    return *written(state, values), held[0] == ENDPOINT and number in (1, 3), set(values)


def invoked(state, kernel, slot, answers, here):
    info, held = single(state, A1, here), kernel.held(slot)
    try:
        if info >> 7 & 3:
            raise Error(7)
        count = LISTED[held[0]].get(info >> 12)
        if count is None:
            raise Error(3)
        if min(info & 127, 8) < count:
            raise Error(7)
        words = [single(state, it, here) for it in WORDS[:count]]
        allowed = kernel.invoke(slot, info >> 12, words)
    except Error as it:
        raise Refused(24, *here, *it.args) from None
    if allowed == "pool":
        raise Refused(25, *here)
    if not allowed:
        raise Refused(24, *here, 3)
    values = {A0: ZERO, A1: ZERO} if answers else {}
    ranges, _ = written(state, values)
    return ranges, kernel.slots, False, set(values)
