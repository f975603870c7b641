#!/usr/bin/env python3
"""Looks at the passes that make visible what is so: ranges against values that are picked at random, and each pass on rows
of a few instructions, with what must come of them worked out by hand.

    tools/from_c/check_passes.py
"""

from __future__ import annotations

import random
import sys
from dataclasses import replace

sys.dont_write_bytecode = True

from advice import Refused, advice_on, index_of  # noqa: E402
from analysis import Memory, Region  # noqa: E402
from attempts import origin_of  # noqa: E402
from checks import with_checks  # noqa: E402
from components import components  # noqa: E402
from faults import Fault, Place  # noqa: E402
from lines import REACH, STOP, Line, with_stop, within_reach  # noqa: E402
from loops import loops  # noqa: E402
from ranges import ANY, BRANCHES, HALF, MOST, Range, result, shown, signed, united, value_of  # noqa: E402
from strides import with_strides  # noqa: E402
from turns import turns_of, with_found_turns, with_turns  # noqa: E402
from variables import variables_in  # noqa: E402
from words import Setting, analysed, with_constants, with_guards, with_known_words  # noqa: E402

ENDS = (0, 1, 2, 3, 5, 7, 8, 255, 256, 65535, HALF - 1, HALF, HALF + 1, MOST, MOST - 1, MOST - 6)
ROWS = 20000


def program(text: str) -> list[Line]:
    """A program of lines `[label:] instruction [-> target]`."""
    lines: list[Line] = []
    for row in text.strip().split("\n"):
        head, _, target = row.partition(" -> ")
        *labels, words = head.strip().split(": ")
        lines.append(Line(words.split(), None, target or None, labels))
    return lines


def shown_text(lines: list[Line]) -> list[str]:
    """The instructions of a program, with their targets."""
    return [" ".join(it.words) + (f" -> {it.target}" if it.target else "") for it in lines]


def setting(data: bytes = b"", hidden: tuple[tuple[int, int], ...] = ()) -> Setting:
    """A thread with this data at 0x4000, and 16 bytes of stack below 0x6000."""
    memory = Memory((Region(0x4000, data), Region(0x5FF0, bytes(16))), hidden)
    return Setting(memory, 0x6000, {}, 1, {0x4000: {(0x4000, 0x4000 + len(data))}}, {})


def random_range(source: random.Random) -> Range:
    """A range of one of the forms that there are."""
    kind = source.randrange(5)
    if kind == 0:
        value = source.choice(ENDS)
        return value, value
    if kind == 1:
        low, high = sorted(source.sample(ENDS, 2))
        return low, high
    if kind == 2:
        return -source.choice((1, 2, 8, 300, HALF)), source.choice((0, 1, 5, 300, HALF - 1))
    low = source.randrange(MOST)
    return low, min(MOST, low + source.randrange(1000))


def member(source: random.Random, range: Range) -> int:
    """A word of a range."""
    return source.choice([*range, source.randint(*range)]) & MOST


def has(range: Range, value: int) -> bool:
    """Whether a word is in a range."""
    return range[0] <= value <= range[1] or range[0] <= value - (1 << 32) <= range[1]


def ranges_hold() -> None:
    """Whatever words are picked of two ranges, what instructions and branches say of them is so."""
    source = random.Random(1)
    for _ in range(ROWS):
        x, y = random_range(source), random_range(source)
        a, b = member(source, x), member(source, y)
        for name in ("add", "sub", "and", "or", "xor", "sll", "srl", "sra", "slt", "sltu"):
            assert has(result(name, x, y), value_of(name, a, b)), (name, x, y, a, b)
        assert has(united(x, y), a) and has(united(x, y), b), (x, y)
        outcomes = {
            "beq": a == b,
            "bne": a != b,
            "blt": signed(a) < signed(b),
            "bge": signed(a) >= signed(b),
            "bltu": a < b,
            "bgeu": a >= b,
        }
        for name in BRANCHES:
            seen = shown(name, outcomes[name], x, y)
            assert seen and has(seen[0], a) and has(seen[1], b), (name, x, y, a, b)


def constants_are_loaded_anew() -> None:
    """A word that is stored once and kept on the stack is known after a loop; one that may be written otherwise is not."""
    text = """
    addi x2 x2 -16
    addi x8 x0 77
    sw x8 12(x2)
    top: addi x17 x0 5
    ecall
    lw x9 12(x2)
    {}
    jal x0 -> top
    """
    made = shown_text(with_constants(program(text.format("sw x9 8(x2)")), setting()))
    assert made[5] == "addi x9 x0 77", made
    for store in ("sw x10 12(x2)", "sb x10 13(x2)", "sw x9 0(x10)"):
        made = shown_text(with_constants(program(text.format(store)), setting()))
        assert made[5] == "lw x9 12(x2)", (store, made)
    hidden = setting(hidden=((0x5FFC, 0x6000),))
    assert shown_text(with_constants(program(text.format("sw x9 8(x2)")), hidden))[5] == "lw x9 12(x2)"


def words_become_registers() -> None:
    """A counter in a variable becomes one in a register, and a copy of it that is tested, the register."""
    text = """
    lui x8 0x4
    top: addi x17 x0 5
    ecall
    sw x0 0(x8)
    turn: lw x9 0(x8)
    addi x9 x9 1
    sw x9 0(x8)
    bltu x9 x20 -> turn
    jal x0 -> top
    """
    made = shown_text(with_known_words(program(text), setting(bytes(4))))
    assert made[3:] == ["addi x4 x0 0", "addi x4 x4 1", "bltu x4 x20 -> turn", "jal x0 -> top"], made
    volatile = setting(bytes(4), ((0x4000, 0x4004),))
    assert shown_text(with_known_words(program(text), volatile))[4] == "lw x9 0(x8)"


def ranges_are_kept() -> None:
    """The range of a word is kept by a branch after its load: 3 and 2, by turns."""
    text = """
    lui x8 0x4
    addi x9 x0 3
    top: sw x9 0(x8)
    addi x17 x0 5
    ecall
    lw x11 0(x8)
    xori x9 x9 1
    andi x9 x9 7
    jal x0 -> top
    """
    made = shown_text(with_guards(program(text), setting(bytes(4))))
    assert made[6:8] == ["addi x3 x0 4", f"bgeu x11 x3 -> {STOP}"], made


CHECKED = """
    lui x8 0x4
    top: addi x17 x0 5
    ecall
    addi x9 x10 0
    slli x11 x9 0x2
    add x11 x11 x8
    lw x12 0(x11)
    jal x0 -> top
    """


def indices_are_checked() -> None:
    """The index is tested where it is asked for, not the address; and unasked where the test cannot fail."""
    lines = with_stop(program(CHECKED), 1)
    assert with_checks(lines, [6], setting(bytes(40)), False) is None
    checked = with_checks(lines, [6], setting(bytes(40)), True)
    assert checked and shown_text(checked.lines)[4:6] == ["addi x3 x0 10", f"bgeu x9 x3 -> {STOP}"] and checked.notes
    known = with_checks(program(CHECKED.replace("addi x9 x10 0", "andi x9 x10 7")), [6], setting(bytes(40)), False)
    assert known and not known.notes


def checks_stand_behind_tests() -> None:
    """Where the address is made before a branch that leads past its use, the address is tested at the use."""
    text = CHECKED.replace("lw x12", "bgeu x9 x20 -> top\n    lw x12")
    checked = with_checks(program(text), [7], setting(bytes(40)), True)
    made = shown_text(checked.lines) if checked else []
    assert made[4] == "slli x11 x9 0x2" and made[7:9] == ["lui x3 0x4", f"bltu x11 x3 -> {STOP}"], made


LOOP = """
    top: addi x17 x0 5
    ecall
    addi x8 x0 {}
    turn: addi x9 x9 1
    addi x8 x8 {}
    {} -> turn
    jal x0 -> top
    """


def turns_are_found() -> None:
    """How many turns loops make whose end the rules do not see."""
    rows = (
        ((7, -1, "bge x8 x0"), 9),
        ((30, -3, "bne x8 x0"), 11),
        ((24, -8, "bge x8 x0"), 5),
        ((5, -3, "bne x8 x0"), None),
    )
    for parts, wanted in rows:
        lines = program(LOOP.format(*parts))
        known = analysed(lines, setting())
        [inner] = [it for it in loops(lines) if it.head == 3]
        found = turns_of(inner, known)
        assert found == wanted or wanted is None and found is None or wanted and found and wanted - 1 <= found <= wanted, (parts, found)
        counted = with_found_turns(lines, [3], known, set())
        assert (counted is not None) == (found is not None)
    inside = LOOP.replace("addi x9 x9 1", "addi x21 x0 3\n    in: addi x8 x8 5\n    addi x21 x21 -1\n    bne x21 x0 -> in")
    lines = program(inside.format(7, -1, "bge x8 x0"))
    known = analysed(lines, setting())
    assert all(turns_of(it, known) is None for it in loops(lines) if it.head == 3), "an inner loop writes the counter"


# A loop of six turns, of which some use the counter's register for something else, as a function does that is called there; and one
# whose counter is in a word of the stack.
KEPT = """
    addi x9 x0 5
    turn: lbu x20 0(x21)
    beq x20 x0 -> after
    {}
    addi x9 x0 77
    {}
    after: addi x9 x9 -1
    bge x9 x0 -> turn
    """
SPILLED = """
    addi x9 x0 5
    sw x9 -16(x2)
    turn: lbu x20 0(x21)
    beq x20 x0 -> after
    {}
    after: lw x9 -16(x2)
    addi x9 x9 -1
    sw x9 -16(x2)
    bge x9 x0 -> turn
    """


def counters_are_followed() -> None:
    """A counter that is put back from a register or a word is one, and so is a word that only each turn writes."""
    rows = (
        (KEPT.format("addi x7 x9 0", "addi x9 x7 0"), 6),
        (KEPT.format("sw x9 -16(x2)", "lw x9 -16(x2)"), 6),
        (KEPT.format("addi x7 x9 0", "addi x9 x9 0"), None),
        (KEPT.format("addi x7 x9 0", "addi x7 x0 1\n    addi x9 x7 0"), None),
        (KEPT.format("sw x9 -16(x2)", "sb x20 -15(x2)\n    lw x9 -16(x2)"), None),
        (SPILLED.format("sw x20 -12(x2)"), 6),
        (SPILLED.format("sw x20 -16(x2)"), None),
    )
    for text, wanted in rows:
        lines = program(text)
        found = turns_of(loops(lines)[0], analysed(lines, setting()))
        assert found == wanted, (text, found)


def dead_accesses_become_stops() -> None:
    """A load that is never reached comes after a stop, without a note; one after a stop is left."""
    lines = program("addi x5 x0 0\nbne x5 x0 -> dead\necall\nhere: jal x0 -> here\ndead: lw x6 0(x7)\njal x0 -> here")
    checked = with_checks(lines, [4], setting(), False)
    made = shown_text(checked.lines) if checked else []
    assert checked and not checked.notes and made[4:6] == [f"jal x0 -> {STOP}", "lw x6 0(x7)"], made
    assert checked.lines[4].labels == ["dead"] and with_checks(with_stop(checked.lines, 1), [5], setting(), False) is None


def far_branches_keep_their_numbers() -> None:
    """What is refused of a text is refused of the line that a turned branch and its jump were made of."""
    lines = [*program("beq x5 x6 -> end"), *program("\n".join(["addi x7 x7 1"] * REACH + ["end: jal x0 -> end"]))]
    placed = within_reach([replace(it, origin=number) for number, it in enumerate(lines)])
    assert len(placed) == len(lines) + 1 and [origin_of(it, placed) for it in (0, 1, 2, REACH + 2, REACH + 3)] == [0, 0, 1, REACH + 1, -1]


# A loop that is entered where 3 is below 2, which never is; and one in which a byte is put, beside numbers of calls in its register.
NEVER = """
    top: addi x17 x0 5
    ecall
    addi x6 x0 3
    addi x7 x0 2
    bgeu x6 x7 -> top
    turn: addi x8 x8 -1
    bge x8 x0 -> turn
    jal x0 -> top
    """
PUTS = LOOP.replace("addi x9 x9 1", "addi x17 x0 {}\n    addi x17 x0 {}\n    ecall")


def loops_without_waits_are_counted() -> None:
    """A loop that is never entered becomes a stop; one whose call puts a byte is counted, whatever else its register held, and one
    whose call waits is not."""
    lines = program(NEVER)
    found = with_found_turns(lines, [5], analysed(lines, setting()), set())
    made = shown_text(found.lines) if found else []
    assert found and found.more == 0 and made[5] == f"jal x0 -> {STOP}" and made[:5] == shown_text(lines)[:5], made
    assert found.lines[5].labels == lines[5].labels
    for numbers, is_counted in (((5, 9), True), ((9, 5), False), ((9, 2), False)):
        lines = program(PUTS.format(7, *numbers, -1, "bge x8 x0"))
        found = with_found_turns(lines, [3], analysed(lines, setting()), set())
        assert (found is not None) == is_counted, numbers


def marks_become_counters() -> None:
    """An `AT_MOST` becomes a counter, set at each way into its loop; outside of loops without a wait it is a mistake."""
    lines, notes = with_turns(program(LOOP.format(7, -1, "bne x8 x20").replace("turn:", "turn: lui x0 0x9\n   ")), set())
    made = shown_text(lines)
    assert made[3:6] == ["addi x4 x0 9", f"beq x4 x0 -> {STOP}", "addi x4 x4 -1"] and len(notes) == 1, made
    back = next(it for it in lines if it.words[0] == "bne")
    assert back.target in lines[4].labels and back.target not in lines[3].labels
    outside = LOOP.format(7, -1, "bne x8 x20").replace("turn:", "turn: lui x0 0x9\n   ").replace("-> top", "-> turn")
    lines, _ = with_turns(program(outside), set())
    assert next(it for it in lines if it.words[0] == "jal").target in lines[3].labels
    try:
        with_turns(program(LOOP.format(7, -1, "bne x8 x20").replace("top:", "top: lui x0 0x9\n   ")), set())
    except Fault as fault:
        assert "AT_MOST(9)" in fault.text
    else:
        raise AssertionError("a mark in the thread's loop is taken")


def variables_are_read() -> None:
    """What readelf lists of a volatile array, and of a word above the frame of a function."""
    listed = """ <1><76>: Abbrev Number: 14 (DW_TAG_volatile_type)
    <77>   DW_AT_type        : <0x6b>
 <1><6b>: Abbrev Number: 3 (DW_TAG_base_type)
    <6c>   DW_AT_byte_size   : 4
 <1><eb>: Abbrev Number: 10 (DW_TAG_array_type)
    <ec>   DW_AT_type        : <0x76>
 <2><f4>: Abbrev Number: 11 (DW_TAG_subrange_type)
    <f9>   DW_AT_upper_bound : 7
 <1><110>: Abbrev Number: 6 (DW_TAG_variable)
    <111>   DW_AT_name        : (indirect string, offset: 0x3e): table
    <117>   DW_AT_type        : <0xeb>
    <11b>   DW_AT_location    : 5 byte block: 3 40 40 0 0 \t(DW_OP_addr: 4040)
 <1><120>: Abbrev Number: 7 (DW_TAG_subprogram)
    <121>   DW_AT_name        : main
 <2><130>: Abbrev Number: 6 (DW_TAG_variable)
    <131>   DW_AT_name        : local
    <137>   DW_AT_type        : <0x6b>
    <13b>   DW_AT_location    : 2 byte block: 91 6c \t(DW_OP_fbreg: -20)
"""
    table, local = variables_in(listed)
    assert (table.name, table.at(0), table.is_volatile) == ("table", (0x4040, 0x4060), True)
    assert (local.name, local.at(0x6000), local.is_volatile) == ("local", (0x5FEC, 0x5FF0), False)


# A loop over a text, and a load of an element of a table; of each line which line of C it is.
SOURCE = ["static void put(const char *s) {", "    while (*s)", "        sys_put_char(*s++);", "}", "    x = table[w >> 3]; // a bit"]
LOOP_OF_C = [2, 2, 3, 3, 5, 5, 5]
REFUSED = """
again: lbu x5 0(x6)
beq x5 x0 -> out
addi x6 x6 1
jal x0 -> again
out: lui x7 0x4
add x7 x7 x11
lbu x10 0(x7)
"""


# Bytes of a text are put, one a turn, and every second one goes on by two.
WALK = """
lui x6 0x4
addi x5 x0 {}
again: beq x5 x0 -> out
addi x5 x5 -1
lbu x7 0(x6)
addi x6 x6 1
andi x8 x5 1
beq x8 x0 -> again
addi x6 x6 1
jal x0 -> again
out: ecall
"""
# The same from one head, and with a loop in the turn that goes on, too.
SINGLE = WALK.replace("beq x8 x0 -> again", "beq x8 x0 -> last").replace("jal x0 -> again", "last: jal x0 -> again")
TWICE = SINGLE.replace("lbu x7 0(x6)", "inner: addi x6 x6 1\naddi x9 x9 1\nsltiu x8 x9 5\nbne x8 x0 -> inner")


def walks_are_bounded() -> None:
    """A pointer that goes on by constants comes no further than turns lead it, and loads by it are borne without being asked; not
    where ways back are two, or an inner loop moves it."""
    for turns, data in ((5, 16), (8, 16), (9, 16)):
        known = with_strides(analysed(program(SINGLE.format(turns)), setting(bytes(data))))
        head = known.places["again"]
        state = known.states[head]
        assert state is not None and state.registers[6] == (0x4000, 0x4000 + 2 * turns), state
        checked = with_checks(program(SINGLE.format(turns)), [4], setting(bytes(data)), False)
        assert (checked is not None) == (2 * turns <= data) and (checked is None or not checked.notes)
    for text in (WALK, TWICE):
        known = with_strides(analysed(program(text.format(5)), setting(bytes(16))))
        state = known.states[known.places["again"]]
        assert state is not None and state.registers[6][1] > 0x4010


# A register and a word of the stack have two values in turns of the outer loop, and an inner one uses neither.
CYCLES = """
addi x5 x0 0
outer: andi x6 x5 1
slli x6 x6 2
sw x6 -16(x2)
addi x7 x0 0
inner: addi x7 x7 1
sltiu x8 x7 20
bne x8 x0 -> inner
last: lw x10 -16(x2)
addi x5 x5 1
sltiu x8 x5 16
bne x8 x0 -> outer
ecall
"""


def cycles_keep_what_they_do_not_write() -> None:
    """In a loop a register or word that it does not write is what it was before it; not where it writes it."""
    graph = {0: [1], 1: [2, 5], 2: [3], 3: [3, 2, 4], 4: [1], 5: []}
    assert components(graph) == [frozenset({1, 2, 3, 4}), frozenset({2, 3}), frozenset({3})]
    for more, register, word in (("", (0, 4), (0, 4)), ("addi x6 x6 1\n", ANY, (0, 4)), ("sw x7 -16(x2)\n", (0, 4), ANY)):
        known = analysed(program(CYCLES.replace("sltiu x8 x7", f"{more}sltiu x8 x7")), setting())
        states = [known.states[known.places[it]] for it in ("inner", "last")]
        assert states[0] and states[1] and states[0].registers[6] == register and states[1].cells[0x5FF0, 4] == word, states


def refused_lines_are_named() -> None:
    """The variables of refused lines are named, and what to write."""
    lines = program(REFUSED)
    for line, number in zip(lines, LOOP_OF_C):
        line.place = Place("it.c", number)
    lines = [Line(["ecall"], None), *lines]
    rules = [(1, "NotMapped"), (3, "NoMeasure"), (7, "NotMapped")]

    def said(is_checked: bool) -> list[str]:
        names = {0x4000: "table"}
        refused = Refused(lines, rules, setting(bytes(10)), names, lambda it: SOURCE[it.line - 1], is_checked)
        return [str(it) for it in advice_on(refused)]

    pointer, loop, index = said(True)
    assert pointer == "it.c:2: note: nothing shows where `s` leads: write an array and an index below a constant"
    assert loop.startswith("it.c:2: note: nothing shows that `while (*s)` ends: write `AT_MOST(MOST);` first in its body, ")
    assert loop.endswith("`for (uint32_t turn = 0; turn < MOST && (*s); turn++)`")
    assert index.startswith("it.c:5: note: nothing shows that `w >> 3`, an index of `table`, is inside of its 10 bytes: ")
    assert index.endswith("write `below(10, ..)`")
    assert said(False)[2].endswith("write `below(10, ..)`, or say `checked` in the line `program`")
    lines[1].place = Place("it.c", 1)
    assert said(True)[0].startswith("it.c:3: note: nothing shows where `s` leads")
    assert index_of("a", "a[i[2]] = b[1];") == "i[2]"
    assert index_of("table", "*p = q[n - 1];") == "n - 1"
    assert index_of("table", "p[1] = q[n - 1];") == ""


def main() -> None:
    """All of it."""
    for check in (
        ranges_hold,
        constants_are_loaded_anew,
        words_become_registers,
        ranges_are_kept,
        indices_are_checked,
        checks_stand_behind_tests,
        turns_are_found,
        counters_are_followed,
        dead_accesses_become_stops,
        far_branches_keep_their_numbers,
        loops_without_waits_are_counted,
        marks_become_counters,
        variables_are_read,
        walks_are_bounded,
        cycles_keep_what_they_do_not_write,
        refused_lines_are_named,
    ):
        check()
        print(f"as expected: {check.__name__.replace('_', ' ')}")


if __name__ == "__main__":
    main()
