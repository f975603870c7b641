"""Writes an image at a share of the format's limits: `make.py read SHARE FILE` one to be read, `make.py boot SHARE FILE` one that
boots. SHARE is 1, 4 or 16: the limits are divided by it.

To be read: 64 untypeds, 4096 objects, 16384 capabilities, 64 interrupts, 1024 tables, 4096 frames, 4096 contents of 1024 words, 64
threads of 31 registers, 65536 words and as many records, each with a range and a term; all divided by the share.

To be booted: the same counts in memory of 2^24 bytes, but for the contents, which are as many as frames fit beside the other objects;
the threads have no records, share one address space and one CNode, and each fills the same 64 pages.

`make.py count 1 FILE` writes an image of one thread that counts in a register, in memory of 2^16 bytes.

`make.py verify SHARE FILE` writes an image that the verifier accepts: 58 threads of 65536 words divided by the share, which are as many as
4096 objects and 2^24 bytes of memory hold, each with a CNode, a notification, a page of data and its own address space. Each sixteen words
wait, load, add, store, branch and count, and begin with a record that notes a range. SHARE is 1, 16 (some 1.5 MiB) or 232 (some 100 KiB): with
232 there is one thread of 16384 words, with 16 there are 15 of 16384.

`make.py KIND SHARE FILE` writes an accepted image in which one count grows: `noted` (each word has a record of 29 ranges and four terms), `carried`
(four terms are carried over programs of 65536 words), `jumps` (each word leads half the program away, and has a record), `calls` (each
second word is a system call), `threads`,
`capabilities` (of one CNode), `objects`, `promises` (of endpoints, beside sends), `mappings` (of one root table, with its tables) and `chain` (CNodes, each held by the next); and in which
a thread's calls change many slots: `fan` (copies of one capability), `descents` (chains of copies), `deletes` (copies, of which every second one is
deleted), `revokes` (of nothing, beside many capabilities that the image lists), `searches` (of nothing, beside chains of copies), `branches` (beside copies), `retypes` (endpoints, one a call), `maps` (frames that are made, mapped
and written to), `rising` and `falling` (256 endpoints a call, into slots that rise or fall through four CNodes), `moves` (of one capability, with
many copies of it), `movers` (of many capabilities, each to an endpoint of its own), `noted_slots` (branches to a record that notes 255 slots), `wide`
(loads of a byte of 3072 pages that the image maps) and `spread` (loads of a byte of 1024 pages that the thread mapped). SHARE is 1, 4 or 16.
"""

import struct
import sys


def words(*numbers):
    return struct.pack(f"<{len(numbers)}I", *numbers)


def header(bits, radix, counts, version=1):
    return b"MSYS" + words(version, bits, radix, *counts)


def read_image(share):
    untypeds, objects, capabilities, interrupts = (it // share for it in (64, 4096, 16384, 64))
    tables, frames, contents, threads = (it // share for it in (1024, 4096, 4096, 64))
    yield header(24, 14, (untypeds, objects, capabilities, interrupts, tables, frames, contents, threads))
    yield b"".join(words(0x80000 + 0x1000 * i, 12) for i in range(untypeds))
    yield b"".join(words(i * untypeds // objects, 6, 0) for i in range(objects))
    yield b"".join(words(0, i, i % objects, 3, 0) for i in range(capabilities))
    yield b"".join(words(i, 0, 1) for i in range(interrupts))
    yield b"".join(words(0, i << 22, 0) for i in range(tables))
    yield b"".join(words(0, i << 12, i % objects, 3) for i in range(frames))
    for i in range(contents):
        yield words(i, 1024, *range(1024))
    program = words(*[0x13] * 65536)
    registers = b"".join(words(i, i) for i in range(1, 32))
    records = b"".join(words(i, 1, 0, 1) + struct.pack("<q", i) + words(5, 1, 10, 5, 2) for i in range(65536))
    for i in range(threads):
        yield words(i, 0, 18, 0, 100) + struct.pack("<Q", 100) + words(0, 0, 0x1000, 31, 65536, 65536)
        yield registers + program + records


def untypeds_of(small):
    return [(0x41000 + 0x1000 * i, 12) for i in range(small)] + [(1 << bits, bits) for bits in range(19, 24)]


# What puts an object into the untyped of a number, or the next one after it that still has room (where sizes never rise, none is lost),
# and answers the object's number; the room that is left in each; and the untyped of the last object.
def placing(untypeds, objects, first):
    room = [1 << bits for _, bits in untypeds]
    at = [first]

    def put(kind, size, bits):
        while room[at[0]] < 1 << bits:
            at[0] += 1
        room[at[0]] -= 1 << bits
        objects.append((at[0], kind, size))
        return len(objects) - 1

    return put, room, at


def boot_image(share):
    small, capabilities, interrupts, tables, mappings, threads = (
        it // share for it in (59, 16384, 64, 1024, 4096, 64)
    )
    untypeds = untypeds_of(small)
    objects = [(i, 6, 0) for i in range(small)]
    put, room, at = placing(untypeds, objects, small)
    cnode = put(5, 14, 18)
    roots = [put(8, 0, 12), put(8, 0, 12)]
    page_tables = [put(7, 0, 12) for _ in range(tables)]
    # What is left of the objects are frames, as far as memory reaches, and endpoints.
    rest = 4096 // share - len(objects) - threads - interrupts
    pages = (sum(room[at[0] :]) - 512 * threads - 16 * (interrupts + rest)) // 4096
    count = min(rest, pages)
    frames = list(range(small)) + [put(6, 0, 12) for _ in range(count)]
    tcbs = [put(2, 0, 9) for _ in range(threads)]
    bells = [put(4, 0, 4) for _ in range(interrupts)]
    endpoints = [put(3, 0, 4) for _ in range(rest - count)]

    code = frames[-64:]
    places = sorted((roots[i % 2], i // 2 << 22) for i in range(tables))
    pages = [(roots[0], 0x1000 * (i + 1), code[i], 4) for i in range(64)]
    each = (mappings - 64) // tables + 1
    others = [(root, base + 0x100000 + 0x1000 * i) for i in range(each) for root, base in places][: mappings - 64]
    pages += [(*place, frames[i % len(frames)], 3) for i, place in enumerate(others)]

    yield header(
        24, 14, (len(untypeds), len(objects), capabilities, interrupts, tables, len(pages), len(frames), threads)
    )
    yield b"".join(words(*it) for it in untypeds)
    yield b"".join(words(*it) for it in objects)
    sources = frames + endpoints
    yield b"".join(words(cnode, i, sources[i % len(sources)], 3, 0) for i in range(capabilities))
    yield b"".join(words(i, bells[i], 1) for i in range(interrupts))
    yield b"".join(words(*place, table) for place, table in zip(places, page_tables))
    yield b"".join(words(*it) for it in sorted(pages))
    for frame in frames:
        yield words(frame, 1024, *range(1024))
    program = words(*[0x13] * 65536)
    for tcb in tcbs:
        yield words(tcb, cnode, 18, roots[0], 100) + struct.pack("<Q", 100) + words(0, 0, 0x1000, 31, 65536, 0)
        yield b"".join(words(i, i) for i in range(1, 32)) + program


def counting_image(_share):
    yield header(16, 4, (1, 5, 0, 0, 1, 1, 0, 1))
    yield words(0x8000, 15)
    yield words(0, 6, 0, 0, 8, 0, 0, 7, 0, 0, 2, 0, 0, 5, 4)
    yield words(1, 0, 2)
    yield words(1, 0x1000, 0, 4)
    yield words(3, 4, 28, 1, 100) + struct.pack("<Q", 100) + words(0, 0, 0x1000, 0, 2, 0)
    yield words(0x00128293, 0xFFDFF06F)  # addi x5, x5, 1; jal x0, -4


def immediate(funct, rd, rs1, number, opcode=0x13):
    return (number & 0xFFF) << 20 | rs1 << 15 | funct << 12 | rd << 7 | opcode


def jump_back(distance):
    back = -distance
    return (back >> 20 & 1) << 31 | (back >> 1 & 0x3FF) << 21 | (back >> 11 & 1) << 20 | (back >> 12 & 0xFF) << 12 | 0x6F


# Sixteen instructions: three up to the wait, and the rest after it.
BLOCK = (
    immediate(0, 10, 0, 1),  # addi x10, x0, 1
    immediate(0, 17, 0, 5),  # addi x17, x0, 5
    0x73,  # ecall
    0x100 << 12 | 6 << 7 | 0x37,  # lui x6, 0x100: the page of data
    immediate(2, 7, 6, 0, 0x03),  # lw x7, 0(x6)
    immediate(0, 7, 7, 1),  # addi x7, x7, 1
    7 << 20 | 6 << 15 | 2 << 12 | 0x23,  # sw x7, 0(x6)
    immediate(7, 8, 7, 15),  # andi x8, x7, 15
    8 << 20 | 8 << 15 | 9 << 7 | 0x33,  # add x9, x8, x8
    immediate(0, 8, 8, 0),  # addi x8, x8, 0
    9 << 20 | 7 << 15 | 4 << 12 | 8 << 7 | 0x63,  # blt x7, x9, 8
    immediate(0, 0, 9, 1),  # addi x0, x9, 1
    immediate(1, 9, 9, 1),  # slli x9, x9, 1
    8 << 20 | 9 << 15 | 4 << 12 | 9 << 7 | 0x33,  # xor x9, x9, x8
    immediate(0, 5, 0, 3),  # addi x5, x0, 3
    immediate(0, 5, 5, -1),  # addi x5, x5, -1
)


def verified_image(share):
    threads, count = {1: (58, 65536), 16: (15, 16384), 232: (1, 16384)}[share]
    untypeds = untypeds_of(59)
    objects = []
    put, _, _ = placing(untypeds, objects, 0)
    pages_each = count // 1024
    kinds = [(8, 0, 12), (7, 0, 12), (6, 0, 12)] + [(6, 0, 12)] * pages_each
    parts = [[put(*kind) for kind in kinds] for _ in range(threads)]
    tcbs = [put(2, 0, 9) for _ in range(threads)]
    cnodes = [put(5, 1, 5) for _ in range(threads)]
    bells = [put(4, 0, 4) for _ in range(threads)]
    maps = []
    for root, _, data, *code in parts:
        maps += [(root, 0x1000 * (i + 1), frame, 4) for i, frame in enumerate(code)] + [(root, 0x100000, data, 3)]
    yield header(24, 14, (len(untypeds), len(objects), threads, 0, threads, len(maps), 0, threads))
    yield b"".join(words(*it) for it in untypeds)
    yield b"".join(words(*it) for it in objects)
    yield b"".join(words(cnode, 1, bell, 2, 0) for cnode, bell in zip(cnodes, bells))
    yield b"".join(words(root, 0, table) for root, table, *_ in parts)
    yield b"".join(words(*it) for it in sorted(maps))
    # The last of the words leads back to the first.
    program = words(*BLOCK * (count // 16 - 1), *BLOCK[:-1], jump_back(4 * (count - 1)))
    records = b"".join(words(i, 1, 0, 0) + struct.pack("<q", 3) + words(5, 0, 3) for i in range(0, count, 16))
    for number in range(threads):
        root = parts[number][0]
        yield words(tcbs[number], cnodes[number], 31, root, 100) + struct.pack("<Q", 16) + words(0, 0, 0x1000, 0, count, count // 16)
        yield program + records



# ---- accepted images in which one count grows, beside little else


def jump(distance):
    distance &= 0x1FFFFF
    return (
        (distance >> 20) << 31 | (distance >> 1 & 0x3FF) << 21 | (distance >> 11 & 1) << 20 | (distance >> 12 & 0xFF) << 12 | 0x6F
    )


# Three instructions that wait, and one that leads from the last of so many words to the first.
def waiting(count):
    return (*BLOCK[:3], jump(-4 * (count - 1)))


# A branch over so many bytes where x5 is below x6, signed.
def branch(distance):
    far = (distance >> 12 & 1) << 31 | (distance >> 5 & 0x3F) << 25 | (distance >> 1 & 0xF) << 8 | (distance >> 11 & 1) << 7
    return far | 6 << 20 | 5 << 15 | 4 << 12 | 0x63


def record(point, constant, ranges=(), terms=(), slots=()):
    head = words(point, len(ranges), len(slots), len(terms)) + struct.pack("<q", constant)
    noted = b"".join(words(*it) for it in ranges) + b"".join(words(*it) for it in slots)
    return head + noted + b"".join(struct.pack("<Ii", *it) for it in terms)


# All registers but those that the wait writes.
MANY = [(register, 0, 0xFFFFFFFE) for register in range(1, 32) if register not in (10, 17)]
TERMS = [(register, 1) for register in (5, 6, 7, 8)]
NOTHING = immediate(0, 0, 0, 0)


# Nothing is done, and each word has a record of 29 ranges and four terms.
def noted_program(count):
    records = [record(i, count - i + 10, MANY, TERMS) for i in range(count - 4)]
    return (NOTHING,) * (count - 4) + waiting(count), records


# Nothing is done, and four terms are carried from one record.
def carried_program(count):
    return (NOTHING,) * (count - 4) + waiting(count), [record(0, count + 10, terms=TERMS)]


# Each word leads half the program away, and has a record.
def jumping_program(count):
    half = (count - 4) // 2
    there = [jump(4 * half)] * half
    back = [jump(4 * (1 - half))] * (half - 1) + [jump(4)]
    order = [2 * i for i in range(half)] + [2 * i + 1 for i in range(half)] + [2 * half]
    return (*there, *back, *waiting(count)), [record(i, count + 10 - at) for i, at in enumerate(order)]


POLL = 8


# Each second word is a system call: a look at the notification in slot 1, which does not wait.
def calling_program(count):
    words = (immediate(0, 17, 0, POLL), NOTHING, *(immediate(0, 10, 0, 1), ECALL) * ((count - 6) // 2))
    return (*words, *waiting(len(words) + 4)), [record(0, count + 10)]


# Each word is a Send to the endpoint in slot 2, of one word.
def sending_program(count):
    words = (immediate(0, 17, 0, 3), immediate(0, 10, 0, 2), immediate(0, 11, 0, 1), *(ECALL,) * count)
    return (*words, *waiting(len(words) + 4)), [record(0, count + 10)]


def quiet_program(count):
    return (NOTHING,) * (count - 4) + waiting(count), [record(0, count + 10)]


# ---- programs whose calls change many slots

SEND = 3
RETYPE, COPY, MOVE, DELETE, REVOKE, MAP = 1, 7, 9, 11, 12, 13
WORDS = {RETYPE: 6, COPY: 5, MOVE: 4, DELETE: 2, REVOKE: 2, MAP: 4}
# The slots of the first thread's CNode: its notification, the CNode itself, untyped memory and its root table.
BELL, OWN, POOL, ROOT = 1, 2, 3, 4
ECALL = 0x73


def adds(register, number, source=0):
    return immediate(0, register, source, number)


def high(register, number):
    return number << 12 | register << 7 | 0x37


# The info word of a call into x11: its label, and how many words it has.
def info(label):
    return high(11, label), adds(11, WORDS[label], 11)


# Takes away all that was derived from a slot, waits, and begins again: the slots are then as at the start.
def begun_again(before, root):
    words = [*before, adds(17, SEND), adds(10, OWN), *info(REVOKE), adds(12, root), adds(13, 32), ECALL]
    words += waiting(len(words) + 4)
    return words, [record(0, len(words) + 10)]


# Copies into new slots, each from the last one but for every 250th, which is of slot 1 again, or all of slot 1.
def copies_made(copies, is_chain):
    words = [adds(17, SEND), adds(10, OWN), *info(COPY), adds(13, 32), adds(15, 32), adds(18, 2), adds(12, ROOT), adds(14, BELL)]
    for i in range(copies):
        words.append(adds(12, 1, 12))
        if is_chain:
            words.append(adds(14, BELL) if i % 250 == 0 else adds(14, -1, 12))
        words.append(ECALL)
    return words


def copying_program(copies, is_chain):
    return begun_again(copies_made(copies, is_chain), BELL)


# Copies of slot 1 into new slots, of which every second one is deleted at once.
def deleting_program(pairs):
    words = [adds(17, SEND), adds(10, OWN), adds(13, 32), adds(15, 32), adds(18, 2), adds(12, ROOT), adds(14, BELL)]
    for _ in range(pairs):
        words += [*info(COPY), adds(12, 1, 12), ECALL, adds(12, 1, 12), ECALL, *info(DELETE), ECALL]
    return begun_again(words, BELL)


# Revokes of a slot from which nothing descends, beside many capabilities that the image lists.
def revoking_program(revokes):
    return begun_again([adds(17, SEND), adds(10, OWN), *info(REVOKE), adds(12, BELL), adds(13, 32)] + [ECALL] * revokes, BELL)


# Chains of copies, and then as many Revokes of the last slot, from which nothing descends.
def searching_program(calls):
    words = copies_made(calls, True)
    return begun_again(words + [*info(REVOKE), adds(12, 0, 12)] + [ECALL] * calls, BELL)


# Copies of slot 1, and then as many branches to the next word: each leads from slots to the same slots.
def branching_program(calls):
    words = copies_made(calls, False)
    return begun_again(words + [6 << 20 | 5 << 15 | 4 << 12 | 4 << 7 | 0x63] * calls, BELL)


# Endpoints of the memory in slot 3, one a call.
def retyping_program(endpoints):
    words = [adds(17, SEND), adds(10, POOL), *info(RETYPE), adds(12, 3), adds(13, 0), adds(14, 0), adds(15, 0), adds(18, ROOT), adds(19, 1)]
    return begun_again(words + [adds(18, 1, 18), ECALL] * endpoints, POOL)


# Frames of the memory in slot 3, each mapped and written to.
def frames_mapped(frames):
    words = [adds(17, SEND), adds(10, POOL), *info(RETYPE), adds(12, 6), adds(13, 0), adds(14, 0), adds(15, 0), adds(18, ROOT + 1)]
    words += [adds(19, 128)] + [ECALL, adds(18, 128, 18)] * (frames // 128)
    words += [adds(10, ROOT), *info(MAP), adds(12, ROOT), adds(13, 32), high(14, 0x3FF), adds(15, 3), high(20, 1)]
    for _ in range(frames):
        words += [adds(10, 1, 10), 20 << 20 | 14 << 15 | 14 << 7 | 0x33, ECALL, 14 << 15 | 2 << 12 | 0x23]
    return words


def mapping_program(frames):
    return begun_again(frames_mapped(frames), POOL)


# Blocks of 256 endpoints of the memory in slot 3, one a call: the slots rise through the thread's own CNode and three more, or fall.
# The block that holds the first slots of the own CNode is left out.
def blocks_made(blocks, falls):
    words = [adds(17, SEND), adds(10, POOL), *info(RETYPE), adds(12, 3), adds(13, 0), adds(19, 256)]
    places = [(cnode, block) for cnode in range(4) for block in range(64) if (cnode, block) != (0, 0)][:blocks]
    before = None
    for cnode, block in reversed(places) if falls else places:
        if cnode != before:
            words += [adds(14, ROOT + cnode), adds(15, 32)] if cnode else [adds(14, 0), adds(15, 0)]
            words += [high(18, block // 16), adds(18, block % 16 * 256 % 2048, 18)] + [adds(18, 1024, 18)] * (2 if block % 16 >= 8 else 0)
            before = cnode
        else:
            words.append(adds(18, -256 if falls else 256, 18))
        words.append(ECALL)
    return words


def block_program(blocks, falls):
    return begun_again(blocks_made(blocks, falls), POOL)


# Copies of slot 1, and then as many Moves of slot 1 to a slot and back.
def moving_program(calls):
    words = copies_made(calls, False)
    free = ROOT + 1 + calls
    words += [*info(MOVE), high(20, free + 2048 >> 12), adds(20, (free + 2048) % 4096 - 2048, 20)]
    for _ in range(calls // 2):
        words += [adds(12, 0, 20), adds(14, BELL), ECALL, adds(12, BELL), adds(14, 0, 20), ECALL]
    return begun_again(words, BELL)


# Endpoints of the memory in slot 3, 256 a call, and then a Move of each to a slot of its own.
def movers_program(blocks):
    words = blocks_made(blocks, False)
    words += [adds(10, OWN), *info(MOVE), adds(13, 32), adds(15, 32), high(12, 2), adds(14, 255)]
    return begun_again(words + [adds(12, 1, 12), adds(14, 1, 14), ECALL] * (256 * blocks), POOL)


# Groups of 900 branches, each group to a record of its own that notes 255 slots, which copies of slot 1 filled: each branch leads from
# slots to the same slots. What notes them is the number of the thread's CNode and where the notification lies.
def noted_slots_program(groups):
    def program(cnode, bell):
        words = copies_made(255, False)
        targets = []
        for _ in range(groups):
            words += [branch(4 * (900 - i)) for i in range(900)]
            targets.append(len(words))
        words, records = begun_again(words, BELL)
        slots = [(cnode, ROOT + 1 + i, 4 | 2 << 4 | bell << 8, 0, cnode, BELL) for i in range(255)]
        return words, records + [record(at, len(words) + 10 - at, slots=slots) for at in targets]

    return program


# Loads of a byte that may lie in any page of a range that is mapped, which one record gives.
def loading_program(loads, low, high_end):
    words = [6 << 15 | 7 << 7 | 0x03] * loads
    words += waiting(len(words) + 4)
    return words, [record(0, len(words) + 10, [(6, low, high_end)])]


# Frames of the memory in slot 3, each mapped, and then loads of a byte that may lie in any of them.
def spreading_program(frames, loads):
    words = frames_mapped(frames)
    # What is loaded is masked to their size, and begins where the first is mapped.
    words += [14 << 15 | 2 << 12 | 6 << 7 | 0x03, high(21, frames), adds(21, -1, 21), 21 << 20 | 6 << 15 | 7 << 12 | 6 << 7 | 0x33]
    words += [high(21, 0x400), 21 << 20 | 6 << 15 | 6 << 7 | 0x33]
    words += [6 << 15 | 4 << 12 | 7 << 7 | 0x03] * loads
    return begun_again(words, POOL)


# Threads with these programs, each with a CNode and its notification, an address space of one table, and pages of code. The first
# thread's CNode has more capabilities, its space more tables and mappings, and a chain of CNodes hangs on it, each before the last one.
# A program that notes slots is a function of its CNode's number and of where the notification lies. The first thread may have more CNodes, and
# its registers may begin with values.
def image_of(programs, endpoints=1, listed=0, radix=1, tables=0, mappings=0, chain=0, pool=0, further=0, registers=(), rights=2, promised=False):
    untypeds = untypeds_of(59)
    objects, capabilities, places, maps = [], [], [], []
    put, room, at = placing(untypeds, objects, 0)
    given, programs = programs, [it(0, 0) if callable(it) else it for it in programs]
    kinds = [[(8, 0, 12), (7, 0, 12)] + [(6, 0, 12)] * (len(program) // 1024 + 2) for program, _ in programs]
    parts = [[put(*it) for it in each] for each in kinds]
    page_tables = [put(7, 0, 12) for _ in range(tables)]
    tcbs = [put(2, 0, 9) for _ in programs]
    first = put(5, radix, radix + 4)
    more = [put(5, radix, radix + 4) for _ in range(further)]
    links = [put(5, 1, 5) for _ in range(chain)]
    cnodes = [first] + [put(5, 1, 5) for _ in programs[1:]]
    bells = [put(4, 0, 4) for _ in programs]
    bell = untypeds[at[0]][0] + (1 << untypeds[at[0]][1]) - room[at[0]] - 16 * len(programs)
    programs = [it(first, bell) if callable(it) else it for it in given]
    sources = [put(3, 0, 4) for _ in range(endpoints)]
    for root, table, data, *code in parts:
        places.append((root, 0, table))
        maps += [(root, 0x1000 * (i + 1), frame, 4) for i, frame in enumerate(code)] + [(root, 0x200000, data, 3)]
    memory = put(1, pool, pool) if pool else None
    root, _, data, *_ = parts[0]
    places += [(root, (i + 1) << 22, table) for i, table in enumerate(page_tables)]
    maps += [(root, 0x400000 * (i % tables + 1) + 0x1000 * (i // tables), data, 3) for i in range(mappings)]
    capabilities += [(cnode, 1, bell, 2, 0) for cnode, bell in zip(cnodes, bells)]
    if pool:
        capabilities += [(first, OWN, first, 0, 32 - radix), (first, POOL, memory, 0, 0), (first, ROOT, root, 0, 0)]
    capabilities += [(first, ROOT + 1 + i, it, 0, 32 - radix) for i, it in enumerate(more)]
    capabilities += [(first, i + (ROOT + 1 if pool else 2), sources[i % len(sources)], rights, 0) for i in range(listed)]
    capabilities += [(links[i + 1] if i + 1 < chain else first, 0, link, 0, 31) for i, link in enumerate(links)]
    counts = (len(untypeds), len(objects), len(capabilities), 0, len(places), len(maps), 0)
    # Each endpoint's messages have any badge, and one word at least, of any value.
    promises = [(it, 0, (1 << 28) - 1, 1, 0, (1 << 32) - 1) for it in sources if promised]
    counted = (len(promises), len(programs)) if promised else (len(programs),)
    yield header(24, 14, (*counts, *counted), 2 if promised else 1)
    for section in (untypeds, objects, sorted(capabilities), sorted(places), sorted(maps), promises):
        yield b"".join(words(*it) for it in section)
    for (program, records), tcb, cnode, (root, *_) in zip(programs, tcbs, cnodes, parts):
        guard = 32 - radix if cnode == first else 31
        yield words(tcb, cnode, guard, root, 100) + struct.pack("<Q", 1 << 40)
        given = registers if cnode == first else ()
        yield words(0, 0, 0x1000, len(given), len(program), len(records)) + b"".join(words(*it) for it in given)
        yield words(*program) + b"".join(records)


GROWING = {
    "noted": lambda share: image_of([noted_program(16384 // share)]),
    "carried": lambda share: image_of([carried_program(65536)] * (16 // share)),
    "jumps": lambda share: image_of([jumping_program(65536 // share)]),
    "calls": lambda share: image_of([calling_program(65536 // share)]),
    "threads": lambda share: image_of([quiet_program(1024)] * (64 // share)),
    "capabilities": lambda share: image_of([quiet_program(1024)], listed=16320 // share, radix=14),
    "objects": lambda share: image_of([quiet_program(1024)], endpoints=4064 // share),
    "mappings": lambda share: image_of([quiet_program(1024)], tables=496 // share, mappings=4064 // share),
    "chain": lambda share: image_of([quiet_program(1024)], chain=4064 // share),
    "promises": lambda share: image_of(
        [sending_program(20000 // share)], endpoints=4064 // share, listed=1, radix=2, rights=1, promised=True
    ),
    "fan": lambda share: image_of([copying_program(16000 // share, False)], radix=14, pool=12),
    "descents": lambda share: image_of([copying_program(16000 // share, True)], radix=14, pool=12),
    "deletes": lambda share: image_of([deleting_program(6000 // share)], radix=14, pool=12),
    "revokes": lambda share: image_of([revoking_program(16000 // share)], listed=16000 // share, radix=14, pool=12),
    "searches": lambda share: image_of([searching_program(8000 // share)], radix=14, pool=12),
    "branches": lambda share: image_of([branching_program(8000 // share)], radix=14, pool=12),
    "retypes": lambda share: image_of([retyping_program(16000 // share)], radix=14, pool=18),
    "maps": lambda share: image_of([mapping_program(2048 // share)], radix=14, tables=2, pool=23),
    "rising": lambda share: image_of([block_program(254 // share, False)], radix=14, pool=20, further=3),
    "falling": lambda share: image_of([block_program(254 // share, True)], radix=14, pool=20, further=3),
    "moves": lambda share: image_of([moving_program(8000 // share)], radix=14, pool=12),
    "movers": lambda share: image_of([movers_program(16 // share)], radix=14, pool=20),
    "noted_slots": lambda share: image_of([noted_slots_program(48 // share)], radix=14, pool=12),
    "wide": lambda share: image_of(
        [loading_program(60000 // share, 0x400000, 0xFFFFFC)], tables=3, mappings=3072, registers=((6, 0x400000),)
    ),
    "spread": lambda share: image_of([spreading_program(1024, 48000 // share)], radix=14, tables=2, pool=23),
}


make = {"verify": verified_image, "read": read_image, "boot": boot_image, "count": counting_image, **GROWING}[sys.argv[1]]
with open(sys.argv[3], "wb") as file:
    for piece in make(int(sys.argv[2])):
        file.write(piece)
