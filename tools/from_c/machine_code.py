"""C as machine code: compiles and links sources with Debian's gcc for RISC-V, and reads what it disassembles."""

from __future__ import annotations

import json
import os
import re
import subprocess
import sys
from collections.abc import Iterator
from dataclasses import dataclass, field
from pathlib import Path
from typing import Any

from faults import Fault, Place, Refused, Remark
from variables import Variable, variables_in

HERE = Path(__file__).resolve().parent
RUNTIME = HERE / "runtime.c"
# The header of `assert`.
ASSERT = "assert.h"
# The sections of an object file that have a place in memory, and what others come from.
USUAL = r"\.(text|rodata|srodata|data|sdata|bss|sbss|eh_frame|note)(\..*|_.*)?"
UNUSUAL = (
    (r"\.(pre)?init|\.ctors|\.fini|\.dtors", "a constructor or destructor: nothing runs before a thread, and it never ends"),
    (r"\.t(data|bss)", "a variable of its own for each thread: each thread has variables of its own without that word"),
    (r".*", "a section of its own: functions and variables lie where `program` says"),
)
# Code stands here while it is linked; the copies that become a program know no address of code.
CODE = 0x4000_0000
# Data stand here where the description names no place for them, which is a fault if there are any.
NOWHERE = 0x2000_0000

FLAGS = (
    "-march=rv32i -mabi=ilp32 -std=gnu11 -O1 -g -ffreestanding -fno-builtin -fwrapv -fno-strict-aliasing "
    "-msmall-data-limit=0 -mcmodel=medlow -fno-pic -ffunction-sections -fdata-sections -fno-common "
    "-fno-asynchronous-unwind-tables -fno-stack-protector "
    # No computed jumps, and saves of registers at a function's beginning.
    "-fno-jump-tables -fno-optimize-sibling-calls -fno-shrink-wrap -fno-reorder-blocks-and-partition "
    # Loops stay as they are written: an index is no pointer and no second counter, and no loop a call of memset.
    "-fno-ivopts -fno-tree-loop-ivcanon -fno-tree-loop-distribute-patterns -fno-tree-vectorize "
    # A test stays a branch, after which the verifier knows its outcome.
    "-fno-if-conversion -fno-if-conversion2 -fno-ssa-phiopt -fno-tree-switch-conversion "
    # Remarks are read, and shown in one form.
    "-Wall -Wextra -fdiagnostics-format=json -pipe"
).split()

# What gcc calls for C that RV32I has no instructions for, and what to write instead.
MISSING = (
    (r"__(add|sub|mul|div|neg|eq|ne|lt|le|gt|ge|unord)[sdt]f\d?", "floating point: use whole numbers"),
    (r"__(float|fix|extend|trunc)\w+", "floating point: use whole numbers"),
    (r"__\w+(di|ti)\d", "an operation on 64 bits: use words of 32, or wide_product of product.h"),
    (r"malloc|calloc|realloc|free", "a heap: use arrays"),
    (r"\w*print\w*|puts|putchar", "the C library's output: use sys_put_char"),
)


# What was shown of a source.
SHOWN: set[Remark] = set()
# The object files of the runtime, by the flags that it is compiled with.
RUNTIMES: dict[tuple[str, ...], bytes] = {}

BRANCHES = {"beq", "bne", "blt", "bge", "bltu", "bgeu"}
STORES = {"sb", "sh", "sw"}


@dataclass(frozen=True)
class Instruction:
    """An instruction as objdump writes it: numeric registers, addresses in hexadecimal. What is of the runtime has no
    place of its own. Some are of what an `assert` does where its condition does not hold."""

    address: int
    name: str
    operands: tuple[str, ...]
    place: Place | None
    is_of_assert: bool = False

    @property
    def words(self) -> list[str]:
        """The name and the operands."""
        return [self.name, *self.operands]

    @property
    def target(self) -> int | None:
        """Where a branch or jump leads."""
        return int(self.operands[-1], 16) if self.name == "jal" or self.name in BRANCHES else None


@dataclass
class Function:
    """A function's instructions, in the order of their addresses."""

    name: str
    body: list[Instruction] = field(default_factory=list)


@dataclass(frozen=True)
class Linked:
    """A linked program: its functions by address, the address of each by name, its data, its variables, what each
    address that code or data name belongs to (the first byte of a variable, and the one after its last), and the
    functions whose address they name other than to call them."""

    functions: dict[int, Function]
    addresses: dict[str, int]
    data: bytes
    variables: list[Variable]
    owners: dict[int, set[tuple[int, int]]]
    pointed: list[int]


@dataclass(frozen=True)
class Order:
    """What is to be compiled: the sources, the function that the thread starts in, where its data lie, and the names
    that the sources may use for what the description has; and further flags."""

    sources: tuple[Path, ...]
    entry: str
    data: int | None
    names: dict[str, str]
    place: Place
    flags: tuple[str, ...] = ()


def compile_and_link(order: Order, room: Path, prefix: str) -> Linked:
    """The program that the order asks for. Files are made in the folder `room`."""
    for source in order.sources:
        if not source.is_file():
            raise Fault(order.place, f"there is no file {source.name}")
    made = [room / f"{number}.o" for number in range(len(order.sources) + 1)]
    for source, it in zip(order.sources, made):
        compile_one(source, it, order, prefix)
    compile_runtime(made[-1], order, prefix)
    program = link(made, order, room, prefix)
    functions = disassemble(program, prefix)
    addresses = {function.name: address for address, function in functions.items()}
    if order.entry not in addresses:
        raise Fault(order.place, f"no function `{order.entry}` in {', '.join(str(it.name) for it in order.sources)}")
    variables = variables_in(run([f"{prefix}readelf", "--debug-dump=info", str(program)]).stdout)
    named = named_addresses(program, prefix)
    owners: dict[int, set[tuple[int, int]]] = {}
    for it in named:
        if it.size and it.start not in functions:
            owners.setdefault(it.address, set()).add((it.start, it.start + it.size))
    pointed = sorted({it.address for it in named if it.address in functions})
    return Linked(functions, addresses, data_of(program, room, prefix), variables, owners, pointed)


def compile_one(source: Path, made: Path, order: Order, prefix: str, *options: str) -> list[Remark]:
    """Makes the object file of a source. What the compiler remarks is shown, once where a source is compiled more than
    once, and where there is an error it ends the conversion."""
    names = [f"-D{name}={value}" for name, value in order.names.items()]
    folders = [f"-I{HERE}", f"-I{HERE / 'include'}"]
    command = [f"{prefix}gcc", *FLAGS, *order.flags, *options, *folders, *names, "-c", str(source), "-o", str(made)]
    answer = run(command)
    remarks = list(remarks_of(answer.stderr, order))
    if not options:
        for remark in remarks:
            if remark not in SHOWN:
                print(remark, file=sys.stderr)
        SHOWN.update(remarks)
    if answer.returncode and not any(it.is_error for it in remarks):
        raise Fault(order.place, f"{source.name} does not compile")
    if answer.returncode and not options:
        raise Refused
    if not options:
        check_sections(made, source, prefix)
    return remarks


def compile_runtime(made: Path, order: Order, prefix: str) -> None:
    """Makes the object file of the runtime, which is compiled once for each set of flags."""
    if order.flags not in RUNTIMES:
        compile_one(RUNTIME, made, order, prefix)
        RUNTIMES[order.flags] = made.read_bytes()
    made.write_bytes(RUNTIMES[order.flags])


def remarks_of(errors: str, order: Order) -> Iterator[Remark]:
    """What gcc says on standard error, with `-fdiagnostics-format=json`. The assembler's words come as lines after
    that; a line of a file that gcc made by itself is no place."""
    _, bracket, rest = errors.partition("[")
    remarks, end = json.JSONDecoder().raw_decode(bracket + rest) if bracket else ([], 0)
    for it in remarks:
        places = [spot["caret"] for spot in it["locations"] if "caret" in spot]
        place = Place(Path(places[0]["file"]).name, places[0]["line"]) if places else order.place
        yield Remark(place, it["kind"], said_of(it))
    for name, line, kind, text in re.findall(r"^(\S+?):(\d+): (Error|Warning): (.*)$", rest[end:], re.MULTILINE):
        place = order.place if name.endswith(".s") or name.startswith("{") else Place(Path(name).name, int(line))
        yield Remark(place, kind.lower(), text)


def said_of(remark: dict[str, Any]) -> str:
    """What a remark says: of a capability of another kind, which was expected, and of what may not be called, why."""
    text: str = remark["message"]
    why = re.fullmatch(r"call to '\w+' declared with attribute error: (.*)", text)
    if why:
        return why[1]
    expected = [it["message"] for it in remark.get("children", []) if it["message"].startswith("expected 'struct ")]
    return f"{text}: {expected[0]}" if expected else text


def return_of(order: Order, begin: Place | None, end: Place, room: Path, prefix: str) -> Place:
    """The last `return` of a `THREAD` between two places of a source, as gcc reports it where a `THREAD` says that it
    never returns; the end, where there is none."""
    for source in order.sources:
        if source.name != end.file:
            continue
        remarks = compile_one(source, room / "returns.o", order, prefix, "-DMICROSYS_NEVER_RETURNS")
        found = [it.place for it in remarks if it.text == "function declared 'noreturn' has a 'return' statement"]
        inside = [it for it in found if it.line <= end.line and (begin is None or it.line >= begin.line)]
        return inside[-1] if inside else end
    return end


def link(objects: list[Path], order: Order, room: Path, prefix: str) -> Path:
    """The linked program, with code and data where this module puts them and nothing that the entry does not need."""
    script, program = room / "script.ld", room / "program.elf"
    data = NOWHERE if order.data is None else order.data
    script.write_text(
        f"ENTRY({order.entry}) SECTIONS {{ "
        f".data {data:#x} : {{ *(.rodata* .srodata* .data* .sdata* .sbss* .bss* COMMON) }} "
        f".text {CODE:#x} : {{ *(.text*) }} "
        "/DISCARD/ : { *(.comment .riscv.attributes .note* .eh_frame*) } }\n"
    )
    options = ["-nostdlib", "-static", "-Wl,--gc-sections", "-Wl,--build-id=none", "-Wl,--emit-relocs", f"-Wl,-T,{script}"]
    names = [str(it) for it in objects]
    answer = run([f"{prefix}gcc", "-march=rv32i", "-mabi=ilp32", *options, *names, "-o", str(program)])
    if answer.returncode:
        raise fault_of_linker(answer.stderr, order)
    check_start(program, data, order, prefix)
    return program


def fault_of_linker(errors: str, order: Order) -> Fault:
    """The fault of what does not link, without the linker's own words."""
    twice = re.search(
        r"(?:(\S+\.\w+):(\d+)|\S+): multiple definition of [`']([^`']+)'; \S+?:(?:(\S+\.\w+):(\d+))?", errors
    )
    if twice:
        first = f", and first at {Path(twice[4]).name}:{twice[5]}" if twice[4] else ""
        place = Place(Path(twice[1]).name, int(twice[2])) if twice[1] else order.place
        return Fault(place, f"`{twice[3]}` is defined here{first}: one of them is to be `static`, or has another name")
    found = re.search(r"(?:(\S+):(\d+)|\(\S+\)): undefined reference to [`']([^`']+)'", errors)
    if not found:
        return Fault(order.place, "it does not link: the program or its data are too large, or lie in too odd a place")
    place = Place(Path(found[1]).name, int(found[2])) if found[1] else order.place
    for pattern, advice in MISSING:
        if re.fullmatch(pattern, found[3]):
            return Fault(place, f"`{found[3]}` is not there, for {advice}")
    return Fault(place, f"no function or variable `{found[3]}`")


def check_sections(file: Path, source: Path, prefix: str) -> None:
    """The object file of a source has code and data in the usual sections alone. What stands elsewhere would be lost."""
    listed = run([f"{prefix}objdump", "-h", "-w", str(file)]).stdout
    for name, size, flags in re.findall(r"^ *\d+ (\S+) +([0-9a-f]+) .*?2\*\*\d+ +(.*)$", listed, re.MULTILINE):
        if "ALLOC" in flags and int(size, 16) and not re.fullmatch(USUAL, name):
            what = next(text for pattern, text in UNUSUAL if re.match(pattern, name))
            raise Fault(place_of_section(file, name, source, prefix), what)


def place_of_section(file: Path, section: str, source: Path, prefix: str) -> Place:
    """The line of the first variable or function of a section, or that a section of addresses leads to."""
    listed = run([f"{prefix}objdump", "-t", "-r", "-j", section, str(file)]).stdout.split()
    for text in run([f"{prefix}nm", "-l", str(file)]).stdout.splitlines():
        found = re.fullmatch(r"\S+ \S (\S+)\t(.+):(\d+)", text)
        if found and found[1] in listed:
            return Place(Path(found[2]).name, int(found[3]))
    return Place(source.name, 1)


def check_start(program: Path, data: int, order: Order, prefix: str) -> None:
    """The data begin where the description says: one whose alignment asks for more would move them."""
    listed = run([f"{prefix}objdump", "-h", "-w", str(program)]).stdout
    start = re.search(r"^ *\d+ \.data +[0-9a-f]+ +([0-9a-f]+) ", listed, re.MULTILINE)
    if start and int(start[1], 16) != data:
        raise Fault(order.place, f"a variable is aligned to more than the address {data:#x} is: {int(start[1], 16):#x}")


def disassemble(program: Path, prefix: str) -> dict[int, Function]:
    """The functions of a linked program, by address. An instruction's place is in the maker's source: where a function
    of this folder was put in line, that of the call. What has none is of the runtime."""
    options = ["-d", "-l", "--inlines", "-M", "numeric,no-aliases", "--no-show-raw-insn", "-j", ".text"]
    functions: dict[int, Function] = {}
    function, spots, place = Function(""), [], None
    for text in run([f"{prefix}objdump", *options, str(program)]).stdout.split("\n"):
        if head := re.fullmatch(r"([0-9a-f]+) <(?!\.L)(.+)>:", text):
            function = functions.setdefault(int(head[1], 16), Function(head[2]))
            if not function.body:
                place = None
        elif source := re.fullmatch(r"(inlined by )?(\S.*?):(\d+)(?: \(.*\))?", text):
            spots = [*(spots if source[1] else []), (Path(source[2]), int(source[3]))]
        elif row := re.fullmatch(r" *([0-9a-f]+):\t(\S+)(?:[ \t]+([^#]*?))?(?: *#.*)?", text):
            place = next((Place(file.name, line) for file, line in spots if not is_own(file)), place)
            operands = tuple(re.sub(r" <.*>", "", it) for it in (row[3] or "").strip().split(",") if it)
            is_of_assert = any(is_own(file) and file.name == ASSERT for file, _ in spots)
            function.body.append(Instruction(int(row[1], 16), row[2], operands, place, is_of_assert))
            spots = spots[:1]
    return functions


@dataclass(frozen=True)
class NamedAddress:
    """An address that code or data name: what it comes to, and the first byte and the size of what it is named by."""

    address: int
    start: int
    size: int


def named_addresses(program: Path, prefix: str) -> list[NamedAddress]:
    """The addresses that the code and the data of a linked program name, but for those of calls."""
    symbols: dict[str, list[tuple[int, int]]] = {}
    listed = run([f"{prefix}objdump", "-t", "-r", "-w", str(program)]).stdout
    for start, size, name in re.findall(r"^([0-9a-f]{8}) .{7} \S+\t([0-9a-f]{8}) (\S+)$", listed, re.MULTILINE):
        symbols.setdefault(name, []).append((int(start, 16), int(size, 16)))
    found: set[NamedAddress] = set()
    for name, sign, beyond in re.findall(
        r"^[0-9a-f]+ R_RISCV_(?:HI20|LO12_I|LO12_S|32) +([^\s+-]\S*?)(?:([+-])0x([0-9a-f]+))?$", listed, re.MULTILINE
    ):
        offset = int(f"{sign}{beyond or 0}", 16)
        found |= {NamedAddress(start + offset, start, size) for start, size in symbols.get(name, [])}
    return sorted(found, key=lambda it: (it.address, it.start))


def is_own(file: Path) -> bool:
    """Whether it is a file of this folder, whose lines say nothing to who wrote the C."""
    return file.parent in (HERE, HERE / "include")


def data_of(program: Path, room: Path, prefix: str) -> bytes:
    """The bytes of constants and variables, from their first address on."""
    made = room / "data.bin"
    options = ["-O", "binary", "-j", ".data", "--set-section-flags", ".data=alloc,load,contents"]
    run([f"{prefix}objcopy", *options, str(program), str(made)])
    return made.read_bytes() if made.exists() else b""


def run(command: list[str]) -> subprocess.CompletedProcess[str]:
    """Runs one of gcc's programs."""
    try:
        spoken = {**os.environ, "LC_ALL": "C"}
        return subprocess.run(command, capture_output=True, text=True, check=False, env=spoken)
    except FileNotFoundError as missing:
        raise NoCompiler(f"{command[0]} is not there: apt-get install gcc-riscv64-unknown-elf") from missing


class NoCompiler(Exception):
    """One of gcc's programs is not there."""
