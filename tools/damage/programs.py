"""The rules on programs and certificates: ranges, measures, and what a program may call."""

from calls import after_call, image_slots, is_stray
from rules import ALL_ONES, FRAME, Refused

FULL = (0, ALL_ONES)
SIGN = 2**31


def signed(number, bits):
    return number - 2**bits if number >> (bits - 1) else number


class Instruction:
    """A word's fields. `kind` is None where it is no instruction."""

    def __init__(self, word):
        op, self.rd, f3 = word & 127, word >> 7 & 31, word >> 12 & 7
        self.rs1, self.rs2, f7 = word >> 15 & 31, word >> 20 & 31, word >> 25
        low = signed(word >> 20, 12)
        self.kind = self.name = None
        self.immediate = None
        if op in (0x37, 0x17):
            self.kind, self.name, self.immediate = "upper", {0x37: "lui", 0x17: "auipc"}[op], word & 0xFFFFF000
        elif op == 0x6F:
            bits = word >> 31 << 20 | (word >> 12 & 255) << 12 | (word >> 20 & 1) << 11 | (word >> 21 & 1023) << 1
            self.kind, self.immediate = "jal", signed(bits, 21)
        elif op == 0x67 and f3 == 0:
            self.kind = "jalr"
        elif op == 0x63 and f3 in (0, 1, 4, 5, 6, 7):
            bits = word >> 31 << 12 | (word >> 7 & 1) << 11 | (word >> 25 & 63) << 5 | (word >> 8 & 15) << 1
            self.kind, self.name, self.immediate = "branch", ("beq", "bne", "", "", "blt", "bge", "bltu", "bgeu")[f3], signed(bits, 13)
        elif op == 0x03 and f3 in (0, 1, 2, 4, 5):
            self.kind, self.name, self.immediate = "load", {0: "lb", 1: "lh", 2: "lw", 4: "lbu", 5: "lhu"}[f3], low
        elif op == 0x23 and f3 < 3:
            self.kind, self.name, self.immediate = "store", ("sb", "sh", "sw")[f3], signed((word >> 25) << 5 | self.rd, 12)
        elif op == 0x13:
            self.name = ("add", "sll", "slt", "sltu", "xor", "srl", "or", "and")[f3]
            self.kind, self.immediate = "alu", low
            if f3 in (1, 5):
                self.immediate = self.rs2
                self.name = {(1, 0): "sll", (5, 0): "srl", (5, 32): "sra"}.get((f3, f7))
                self.kind = "alu" if self.name else None
        elif op == 0x33 and (f7 == 0 or f7 == 32 and f3 in (0, 5)):
            self.kind, self.name = "alu", ("add", "sll", "slt", "sltu", "xor", "srl", "or", "and")[f3]
            self.name = {"add": "sub", "srl": "sra"}[self.name] if f7 else self.name
        elif op == 0x0F and f3 == 0:
            self.kind = "fence"
        elif word in (0x73, 0x00100073):
            self.kind = "ecall" if word == 0x73 else "ebreak"

    def writes(self):
        return {self.rd} - {0} if self.kind in ("upper", "jal", "jalr", "load", "alu") else set()


def value(name, x, y):
    """What an instruction makes of two words."""
    return {
        "add": x + y, "sub": x - y, "sll": x << (y & 31), "slt": signed(x, 32) < signed(y, 32), "sltu": x < y, "xor": x ^ y,
        "srl": x >> (y & 31), "sra": signed(x, 32) >> (y & 31), "or": x | y, "and": x & y,
    }[name] & ALL_ONES


def within(low, high):
    return (low, high) if 0 <= low and high <= ALL_ONES else FULL


def alu_range(i, x, y):
    """The range of the register that is written, for the ranges of both sources; an immediate is a single value."""
    (a, b), (c, d) = x, y
    if a == b and c == d:
        return (value(i.name, a, c),) * 2
    most = 2 ** max(b, d).bit_length() - 1
    k = c & 31
    if i.name == "add" and i.immediate is not None:
        return within(a + i.immediate, b + i.immediate)
    if i.name == "sra" and b >= SIGN:
        return FULL
    return {
        "add": within(a + c, b + d), "sub": (a - d, b - c) if a >= d else FULL, "and": (0, min(b, d)), "or": (max(a, c), most),
        "xor": (0, most), "sll": within(a << k, b << k) if c == d else FULL, "slt": (0, 1), "sltu": (0, 1),
        "srl": (a >> k, b >> k) if c == d else (0, b), "sra": (a >> k, b >> k) if c == d else (0, b),
    }[i.name]


def second(i, ranges):
    return ranges[i.rs2] if i.immediate is None else (i.immediate & ALL_ONES,) * 2


def with_range(ranges, register, found):
    return ranges if register == 0 else ranges[:register] + [found] + ranges[register + 1:]


def narrowed(name, taken, x, y):
    """Both ranges on one way of a branch."""
    (a, b), (c, d) = x, y
    opposite = {"beq": "bne", "bne": "beq", "blt": "bge", "bge": "blt", "bltu": "bgeu", "bgeu": "bltu"}
    name = name if taken else opposite[name]
    if name in ("blt", "bge"):
        low, high = max(b, d) < SIGN, min(a, c) >= SIGN
        if not (low or high):
            return x, y
        name += "u"
    if name == "beq":
        return ((max(a, c), min(b, d)),) * 2
    if name == "bne":
        return without(x, y), without(y, x)
    if name == "bltu":
        return (a, min(b, d - 1)), (max(c, a + 1), d)
    return (max(a, c), b), (c, min(d, b))


def without(x, y):
    """The range without the value of the other, if that is single and at an end."""
    (a, b), (c, d) = x, y
    if c != d:
        return x
    return (a + (a == c), b) if a == c else (a, b - (b == c))


def branch_ranges(i, taken, ranges):
    """The ranges on one way, or None where it does not exist."""
    x, y = narrowed(i.name, taken, ranges[i.rs1], ranges[i.rs2])
    if i.rs1 == i.rs2:
        x = y = (max(x[0], y[0]), min(x[1], y[1]))
    if x[0] > x[1] or y[0] > y[1]:
        return None
    return with_range(with_range(ranges, i.rs1, x), i.rs2, y)


class State:
    def __init__(self, ranges, slots, constant, terms):
        self.ranges, self.slots, self.constant, self.terms = ranges, slots, constant, terms


class Way:
    """A way on: the point, the ranges after it, the slots, whether it is a wait, what a call wrote, and the narrowed ranges."""

    def __init__(self, target, ranges, slots, wait, written, before):
        self.target, self.ranges, self.slots, self.wait, self.written, self.before = target, ranges, slots, wait, written, before


def extreme(terms, ranges):
    return sum(c * (ranges[x][1] if c > 0 else ranges[x][0]) for x, c in terms.items())


def greatest(i, state, target, way):
    """The greatest that the measure after the way can be; without a wait, less the measure before it."""
    fresh, terms, constant = 0, {}, target.constant
    for x, c in target.terms.items():
        if x in way.written:
            fresh += c * (way.ranges[x][1] if c > 0 else way.ranges[x][0])
        elif x in i.writes() and i.kind == "alu" and is_linear(i, state.ranges):
            terms[i.rs1] = terms.get(i.rs1, 0) + c
            if i.immediate is None:
                terms[i.rs2] = terms.get(i.rs2, 0) + (c if i.name == "add" else -c)
            else:
                constant += c * i.immediate
        elif x in i.writes():
            fresh += c * (way.ranges[x][1] if c > 0 else way.ranges[x][0])
        else:
            terms[x] = terms.get(x, 0) + c
    if not way.wait:
        constant -= state.constant
        for x, c in state.terms.items():
            terms[x] = terms.get(x, 0) - c
    return constant + fresh + extreme(terms, way.before)


def is_linear(i, ranges):
    (a, b), (c, d) = ranges[i.rs1], second(i, ranges)
    if i.name == "add" and i.immediate is not None:
        return 0 <= a + i.immediate and b + i.immediate <= ALL_ONES
    return i.name == "add" and b + d <= ALL_ONES or i.name == "sub" and a >= d


def pages_of(image, t, state, right):
    found = {address >> 12 for root, address, _, rights in image.frames if root == t.root and rights & right}
    for capability, _ in state.slots.values():
        if capability[0] == FRAME and capability[3] and capability[3][0] == image.offsets[t.root] and capability[3][2] & right:
            found.add(capability[3][1])
    return found


def is_unmapped(image, t, state, i):
    width = {"b": 1, "h": 2, "w": 4}[i.name[1]]
    low, high = (it + i.immediate for it in state.ranges[i.rs1])
    high += width - 1
    if low < 0 or high > ALL_ONES:
        return True
    pages = pages_of(image, t, state, 2 if i.kind == "load" else 1)
    return (high >> 12) - (low >> 12) >= len(pages) or any(it not in pages for it in range(low >> 12, (high >> 12) + 1))


class Program:
    def __init__(self, image, number, t):
        self.image, self.number, self.t = image, number, t
        self.code = [Instruction(it) for it in t.words]
        self.listed = image_slots(image, t)
        records = {it.point: it for it in t.records}
        self.states, self.lost = [], []
        for point in range(len(t.words)):
            state, lost = (self.noted(records[point]), False) if point in records else self.derived(point)
            self.states.append(state)
            self.lost.append(lost)

    def noted(self, record):
        ranges = [(0, 0)] + [FULL] * 31
        for x, low, high in record.ranges:
            ranges[x] = (low, high)
        slots = dict(self.listed)
        for cnode, index, capability, parent in record.slots:
            slots.pop((cnode, index), None)
            if capability:
                slots[cnode, index] = (capability, parent)
        return State(ranges, slots, record.constant, dict(record.terms))

    def derived(self, point):
        """The state that the point before leaves, or None; and whether only a written register of the measure took it."""
        before = self.states[point - 1] if point else None
        if before is None:
            return None, False
        way = self.fall_through(point - 1, before)
        if way is None:
            return None, False
        if way.wait:
            return State(way.ranges, way.slots, self.t.budget, {}), False
        if (self.code[point - 1].writes() | way.written) & set(before.terms):
            return None, True
        return State(way.ranges, way.slots, before.constant - 1, before.terms), False

    def fall_through(self, point, state):
        try:
            return next((it for it in self.ways(point, state) if it.target == point + 1 and not getattr(it, "taken", False)), None)
        except Refused:
            return None

    def ways(self, point, state):
        """The ways on, the taken one first."""
        i, ranges, slots = self.code[point], state.ranges, state.slots
        plain = lambda target, behind, before: Way(target, behind, slots, False, set(), before)
        if i.kind in (None, "ebreak", "jalr"):
            return []
        if i.kind == "jal":
            behind = with_range(ranges, i.rd, ((self.t.base + 4 * point + 4) & ALL_ONES,) * 2)
            return [self.taken(plain(point + i.immediate / 4, behind, ranges))]
        if i.kind == "branch":
            taken, other = branch_ranges(i, True, ranges), branch_ranges(i, False, ranges)
            found = [self.taken(plain(point + i.immediate / 4, taken, taken))] if taken else []
            return found + ([plain(point + 1, other, other)] if other else [])
        if i.kind == "ecall":
            if is_stray(self.image, self.t, slots):
                return []
            behind, left, wait, written = after_call(self.image, self.t, state, (self.number, point))
            return [Way(point + 1, behind, left, wait, written, ranges)]
        return [plain(point + 1, with_range(ranges, i.rd, self.result(i, point, ranges)) if i.writes() else ranges, ranges)]

    @staticmethod
    def taken(way):
        way.taken = True
        return way

    def result(self, i, point, ranges):
        if i.kind == "load":
            return {"lbu": (0, 255), "lhu": (0, 65535)}.get(i.name, FULL)
        if i.kind == "upper":
            return ((i.immediate + (self.t.base + 4 * point if i.name == "auipc" else 0)) & ALL_ONES,) * 2
        return alu_range(i, ranges[i.rs1], second(i, ranges))

    def check_entry(self):
        t, state = self.t, self.states[self.t.entry]
        registers = dict(t.registers)
        if state is None or any(not low <= registers.get(x, 0) <= high for x, (low, high) in enumerate(state.ranges)):
            raise Refused(18, self.number, t.entry)
        if state.slots != self.listed:
            raise Refused(23, self.number, t.entry)
        if state.constant + sum(c * registers.get(x, 0) for x, c in state.terms.items()) > t.budget:
            raise Refused(21, self.number, t.entry)

    def check(self, point, state):
        i, here = self.code[point], (self.number, point)
        if i.kind in (None, "ebreak"):
            raise Refused(15, *here)
        if i.kind == "jalr":
            raise Refused(16, *here)
        if is_stray(self.image, self.t, state.slots):
            raise Refused(23, *here)
        if state.constant - extreme({x: -c for x, c in state.terms.items()}, state.ranges) < 1:
            raise Refused(20, *here)
        if i.kind in ("load", "store") and is_unmapped(self.image, self.t, state, i):
            raise Refused(19, *here)
        for way in self.ways(point, state):
            self.check_way(i, here, state, way)

    def check_way(self, i, here, state, way):
        inside = way.target == int(way.target) and 0 <= way.target < len(self.states)
        target = self.states[int(way.target)] if inside else None
        if target is None:
            raise Refused(20 if inside and self.lost[int(way.target)] else 17, *here)
        if any(low < least or most < high for (low, high), (least, most) in zip(way.ranges, target.ranges)):
            raise Refused(18, *here)
        if way.slots != target.slots:
            raise Refused(23, *here)
        if not way.wait and greatest(i, state, target, way) > -1:
            raise Refused(20, *here)
        if way.wait and greatest(i, state, target, way) > self.t.budget:
            raise Refused(21, *here)


def broken(image):
    """Refuses the first breach of the rules on programs."""
    for number, t in enumerate(image.threads):
        program = Program(image, number, t)
        program.check_entry()
        for point, state in enumerate(program.states):
            if state:
                program.check(point, state)
