"""The format of images, and the rules of acceptance before those on programs. A breach is reported by `Refused`: its number and items."""

import struct

MAGIC, VERSION, TRUNCATED, TRAILING, LIMIT = 1, 2, 3, 4, 5
ALL_ONES = 2**32 - 1
UNTYPED, TCB, ENDPOINT, NOTIFICATION, CNODE, FRAME, TABLE, ROOT = range(1, 9)
BITS = {TCB: 9, ENDPOINT: 4, NOTIFICATION: 4, FRAME: 12, TABLE: 12, ROOT: 12}


class Refused(Exception):
    pass


class Reader:
    """Reads fields one after the other. Each is reported at its offset where it does not fit or fails its test."""

    def __init__(self, data):
        self.data, self.at = data, 0

    def field(self, test=lambda n: True, form="<I", refusal=LIMIT):
        size = struct.calcsize(form)
        if len(self.data) - self.at < size:
            raise Refused(TRUNCATED, self.at, 0)
        (number,) = struct.unpack_from(form, self.data, self.at)
        if not test(number):
            raise Refused(refusal, 0 if refusal in (MAGIC, VERSION) else self.at, 0)
        self.at += size
        return number

    def between(self, low, high):
        return self.field(lambda n: low <= n <= high)

    def rising(self, count, entry, key):
        """So many entries, whose keys rise; `entry` is given the key before, or -1 at first."""
        found, last = [], -1
        for _ in range(count):
            found.append(entry(last))
            last = key(found[-1])
        return found


def pair(first, second):
    return first * 2**32 + second


class Image:
    pass


def read(data):
    """The image that the bytes spell."""
    r, i = Reader(data), Image()
    r.field(lambda n: n == 0x5359534D, refusal=MAGIC)
    version = r.field(lambda n: 1 <= n <= 4, refusal=VERSION)
    i.bits = r.between(16, 24)
    i.radix = r.between(1, min(14, i.bits - 5))
    u, o, c, n, t, f, d = (r.between(*it) for it in ((1, 64), (0, 4096), (0, 16384), (0, 64), (0, 1024), (0, 4096), (0, 4096)))
    p = r.between(0, 4096) if version >= 2 else 0
    h = r.between(1, 64)
    thing = lambda: r.field(lambda x: x < o)
    i.untypeds = [(r.field(), r.between(4, 24)) for _ in range(u)]
    i.objects = r.rising(o, lambda last: read_object(r, u, version, last), lambda x: x[0])
    i.capabilities = r.rising(c, lambda last: read_capability(r, o, n, last), lambda x: pair(x[0], x[1]))
    i.interrupts = r.rising(n, lambda last: (r.between(last + 1, 63), thing(), r.field(lambda x: x < 2**28)), lambda x: x[0])
    i.tables = r.rising(t, lambda last: (lambda root: (root, r.field(lambda x: pair(root, x) > last), thing()))(thing()), lambda x: pair(x[0], x[1]))
    i.frames = r.rising(
        f, lambda last: (lambda root: (root, r.field(lambda x: pair(root, x) > last), thing(), r.between(0, 7)))(thing()), lambda x: pair(x[0], x[1])
    )
    i.contents = r.rising(d, lambda last: read_content(r, o, last), lambda x: x[0])
    i.promises = r.rising(p, lambda last: read_promise(r, o, last), lambda x: x[0])
    i.threads = [read_thread(r, o, version) for _ in range(h)]
    if r.at < len(data):
        raise Refused(TRAILING, r.at, 0)
    return i


def read_object(r, untypeds, version, last):
    """The untyped, the type and the size, which is 1 for a frame that is a device page: version 4 is the first that has them."""
    untyped = r.field(lambda x: max(last, 0) <= x < untypeds)
    kind = r.between(1, 8)
    low, high = {UNTYPED: (4, 24), CNODE: (1, 14), FRAME: (0, int(version >= 4))}.get(kind, (0, 0))
    return untyped, kind, r.between(low, high)


def read_capability(r, objects, interrupts, last):
    cnode = r.field(lambda x: x < objects)
    index = r.field(lambda x: pair(cnode, x) > last)
    return cnode, index, r.field(lambda x: x < objects + interrupts), r.field(), r.field()


def read_content(r, objects, last):
    frame = r.field(lambda x: last < x < objects)
    return frame, [r.field() for _ in range(r.between(1, 1024))]


def read_promise(r, objects, last):
    """The endpoint, the badges, and the ranges of the first words."""
    endpoint, low = r.field(lambda x: last < x < objects), r.field()
    badges = low, r.field(lambda x: low <= x < 2**28)
    return endpoint, badges, [(lambda low: (low, r.field(lambda x: low <= x)))(r.field()) for _ in range(r.between(0, 8))]


class Thread:
    pass


def read_thread(r, objects, version):
    t, thing = Thread(), lambda: r.field(lambda x: x < objects)
    t.tcb, t.cnode, t.guard, t.root = thing(), thing(), r.field(), thing()
    t.priority = r.between(0, 255)
    t.budget = r.field(lambda x: 1 <= x <= 2**62, "<Q")
    t.fault = r.field()
    t.buffer = r.field(lambda x: x < objects or x == ALL_ONES) if version >= 3 else ALL_ONES
    t.entry, t.base = r.field(), r.field()
    registers, words = r.between(0, 31), r.between(1, 65536)
    records = r.between(0, words)
    t.registers = r.rising(registers, lambda last: (r.between(max(last + 1, 1), 31), r.field(lambda x: x != 0)), lambda x: x[0])
    t.words = [r.field() for _ in range(words)]
    t.records = r.rising(records, lambda last: read_record(r, objects, words, last), lambda x: x.point)
    return t


class Record:
    pass


def read_record(r, objects, words, last):
    it = Record()
    it.point = r.field(lambda x: last < x < words)
    ranges, slots, terms = r.between(0, 31), r.between(0, 256), r.between(0, 4)
    it.constant = r.field(lambda x: -(2**62) <= x <= 2**62, "<q")
    it.ranges = r.rising(ranges, lambda last: read_range(r, last), lambda x: x[0])
    it.slots = r.rising(slots, lambda last: read_slot(r, objects, last), lambda x: pair(x[0], x[1]))
    it.terms = r.rising(terms, lambda last: (r.between(max(last + 1, 1), 31), r.field(lambda x: x != 0, "<i")), lambda x: x[0])
    return it


def read_range(r, last):
    register, low = r.between(max(last + 1, 1), 31), r.field()
    return register, low, r.field(lambda x: low <= x and (low, x) != (0, ALL_ONES))


def read_slot(r, objects, last):
    """CNode, index, capability (None where it is empty), parent (None for the boot CNode)."""
    cnode = r.field(lambda x: x < objects)
    index = r.field(lambda x: pair(cnode, x) > last and x < 2**14)
    first = r.field()
    second = r.field(lambda x: (first, x) == (0, 0) or unpacked(first, x) is not None)
    parent = r.field(lambda x: x < objects or x == ALL_ONES)
    empty = (first, second) == (0, 0)
    place = r.field(lambda x: x == ALL_ONES if parent == ALL_ONES else not empty and x < 2**14)
    return cnode, index, None if empty else unpacked(first, second), None if parent == ALL_ONES else (parent, place)


def is_guard(radix, word):
    return word < 2**23 and word >> 5 < 2 ** (word & 31) and (word & 31) + radix <= 32


def unpacked(first, second):
    """The capability of two words, as (kind, offset, ..), or None."""
    kind, detail, rights, offset = first & 15, first >> 4 & 31, first >> 9 & 7, (first >> 12) * 16
    plain = detail == rights == 0
    aligned = lambda bits: offset % 2**bits == 0
    if kind == UNTYPED and 4 <= detail <= 24 and rights == 0 and aligned(detail) and second <= 2**detail:
        return UNTYPED, offset, detail, second
    if kind in (TCB, ROOT) and plain and aligned(BITS[kind]) and second == 0:
        return kind, offset
    if kind in (ENDPOINT, NOTIFICATION) and detail & ~11 == 0 and rights == 0 and second < 2**28:
        return kind, offset, detail, second
    if kind == CNODE and 1 <= detail <= 14 and rights == 0 and aligned(detail + 4) and is_guard(detail, second):
        return CNODE, offset, detail, second
    if kind == FRAME and detail < 4 and aligned(12):
        if second == 0 and rights == 0:
            return FRAME, offset, detail, None
        if second & 1 and rights in (2, 3, 4, 6, 7):
            return FRAME, offset, detail, ((second >> 1 & 4095) * 4096, second >> 13, rights)
    if kind == TABLE and plain and aligned(12) and (second == 0 or second & 1 and (second >> 13) % 1024 == 0):
        return TABLE, offset, second
    if (first, second) == (9, 0) or first == 10 and second < 64:
        return first, 0, second
    return None


# ---- the rules


def bits_of(kind, size):
    return {UNTYPED: size, CNODE: size + 4}.get(kind) or BITS[kind]


def align(place, size):
    return -(-place // size) * size


def well_formed(i):
    """Refuses the first breach of the rules on untypeds, objects, capabilities, mappings and threads. Leaves `offsets` in the image."""
    check_objects(i)
    check_capabilities(i)
    check_mappings(i)
    reached, roots, tcbs, buffers = set(), set(), set(), set()
    for number, t in enumerate(i.threads):
        check_thread(i, number, t, tcbs)
        t.reached, others = reach(i, t)
        if reached & set(t.reached):
            raise Refused(10, number, 0)
        if t.root in roots or others - {t.root}:
            raise Refused(11, number, 0)
        check_buffer(i, number, t, buffers)
        reached |= set(t.reached)
        roots.add(t.root)
        tcbs.add(t.tcb)
        buffers.add(t.buffer)


def check_objects(i):
    area = end = 2 ** (i.radix + 4) + 1024
    for number, (offset, bits) in enumerate(i.untypeds):
        if offset % 2**bits or offset + 2**bits > 2**i.bits or offset < area or offset < end:
            raise Refused(6, number, 0)
        end = offset + 2**bits
    used, i.offsets = [0] * len(i.untypeds), []
    for number, (untyped, kind, size) in enumerate(i.objects):
        bits = bits_of(kind, size)
        place = align(used[untyped], 2**bits)
        if place + 2**bits > 2 ** i.untypeds[untyped][1]:
            raise Refused(7, number, 0)
        i.offsets.append(i.untypeds[untyped][0] + place)
        used[untyped] = place + 2**bits
    if len(i.untypeds) + len(i.objects) + 1 + 2 * len(i.interrupts) + len(i.frames) > 2**i.radix:
        raise Refused(8, len(i.objects), 0)


def kind_of(i, number):
    return i.objects[number][1] if number < len(i.objects) else None


def is_device(i, number):
    """Whether an object is a device page, of which the world outside reads and writes words."""
    return kind_of(i, number) == FRAME and i.objects[number][2] == 1


def may_have(i, source, rights, data):
    kind = kind_of(i, source)
    if kind in (ENDPOINT, NOTIFICATION):
        return rights & ~11 == 0 and data < 2**28
    if kind == FRAME:
        return rights & ~3 == 0 and data == 0
    if kind == CNODE:
        return rights == 0 and is_guard(i.objects[source][2], data)
    return rights == 0 and data == 0


def check_capabilities(i):
    pools = set()
    for item, (cnode, index, source, rights, data) in enumerate(i.capabilities):
        kind = kind_of(i, source)
        if (
            kind_of(i, cnode) != CNODE
            or index >= 2 ** i.objects[cnode][2]
            or kind in (TCB, TABLE)
            or source in pools
            or not may_have(i, source, rights, data)
        ):
            raise Refused(9, item, 0)
        if kind == UNTYPED:
            pools.add(source)
    for item, (_, notification, _) in enumerate(i.interrupts, len(i.capabilities)):
        if kind_of(i, notification) != NOTIFICATION:
            raise Refused(9, item, 0)


def check_mappings(i):
    named = set()
    for item, (root, address, table) in enumerate(i.tables):
        if kind_of(i, root) != ROOT or kind_of(i, table) != TABLE or address >= 2**31 or address % 2**22 or table in named:
            raise Refused(12, item, 0)
        named.add(table)
    covered = {(root, address >> 22) for root, address, _ in i.tables}
    for place, (root, address, frame, rights) in enumerate(i.frames):
        item = len(i.tables) + place
        wrong = kind_of(i, root) != ROOT or kind_of(i, frame) != FRAME or address >= 2**31 or address % 4096
        if wrong or (root, address >> 22) not in covered or rights in (0, 1, 5):
            raise Refused(12, item, 0)
        twice = any(other[2] == frame for number, other in enumerate(i.frames) if number != place)
        named_too = any(c[2] == frame for c in i.capabilities) or any(c[0] == frame for c in i.contents) or is_device(i, frame)
        if rights == 7 or rights & 4 and (twice or named_too):
            raise Refused(13, item, 0)
    for item, (frame, _) in enumerate(i.contents, len(i.tables) + len(i.frames)):
        if kind_of(i, frame) != FRAME:
            raise Refused(12, item, 0)
    for item, (endpoint, *_) in enumerate(i.promises, len(i.tables) + len(i.frames) + len(i.contents)):
        if kind_of(i, endpoint) != ENDPOINT:
            raise Refused(29, item, 0)


def check_thread(i, number, t, tcbs):
    kinds = [kind_of(i, it) for it in (t.tcb, t.cnode, t.root)]
    end = t.base + 4 * len(t.words)
    if kinds != [TCB, CNODE, ROOT] or t.tcb in tcbs or not is_guard(i.objects[t.cnode][2], t.guard) or t.base % 4096 or end > 2**31:
        raise Refused(14, number, 0)
    code = {address for root, address, _, rights in i.frames if root == t.root and rights & 4}
    if any(page not in code for page in range(t.base, end, 4096)) or t.entry >= len(t.words):
        raise Refused(14, number, 0)


def check_buffer(i, number, t, buffers):
    if t.buffer == ALL_ONES:
        return
    held = any(c[2] == t.buffer for c in i.capabilities)
    executed = any(frame == t.buffer and rights & 4 for _, _, frame, rights in i.frames)
    if kind_of(i, t.buffer) != FRAME or t.buffer in buffers or held or executed:
        raise Refused(30, number, 0)


def reach(i, t):
    """The CNodes that a thread reaches, and the root tables that they hold."""
    reached, roots = [t.cnode], set()
    for cnode in reached:
        for holder, _, source, _, _ in i.capabilities:
            if holder == cnode and kind_of(i, source) == CNODE and source not in reached:
                reached.append(source)
            if holder == cnode and kind_of(i, source) == ROOT:
                roots.add(source)
    return reached, roots
