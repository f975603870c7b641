"""An ELF file with the instructions of a system's parts as they are in its text, their labels, and the lines that they come
from, for debuggers.

The text says of each instruction where it comes from, by a comment `# FILE:LINE`; what says nothing is on its line of the text.
"""

from __future__ import annotations

import re
import subprocess
import tempfile
from dataclasses import dataclass, field
from pathlib import Path

from faults import Fault

ORIGIN = re.compile(r"#[ \t]*(\S+):([0-9]+)[ \t\r]*$")
# What is in a thread of a text beside instructions.
OTHERS = {"reg", "buffer", "measure", "range", "slot", "program"}
# DWARF 4: a unit with its name, folder, lines and addresses, and a function in it.
ABBREVIATIONS = """\
    .section .debug_abbrev,"",@progbits
.Labbrev:
    .byte 1, 0x11
    .byte 1
    .byte 0x25, 0x08, 0x13, 0x05, 0x03, 0x08, 0x1b, 0x08, 0x10, 0x17, 0x11, 0x01, 0x12, 0x06, 0, 0
    .byte 2, 0x2e
    .byte 0
    .byte 0x3f, 0x19, 0x03, 0x08, 0x11, 0x01, 0x12, 0x06, 0, 0
    .byte 0
"""
# Where the linker puts what is for debuggers.
DEBUGGING = "\n".join(f"{it} 0 : {{ *({it}) }}" for it in (".debug_abbrev", ".debug_info", ".debug_line", ".debug_str"))
# The number of C99 among the languages of DWARF, and of what is assembled.
C99, ASSEMBLER = 0x0C, 0x8001


@dataclass(frozen=True)
class Instruction:
    """An instruction or word of a part, with its labels, the file and line that it comes from, and the comment before it."""

    words: list[str]
    labels: list[str]
    file: str
    line: int
    note: str = ""


@dataclass
class Part:
    """A part: where its program begins, and what is in it."""

    name: str
    entry: str
    base: int
    code: list[Instruction] = field(default_factory=list)

    @property
    def end(self) -> int:
        """The address after its last instruction."""
        return self.base + 4 * len(self.code)


def parts_of(text: str, name: str) -> list[Part]:
    """The parts of a text, which is in the file of this name."""
    parts: list[Part] = []
    part: Part | None = None
    labels: list[str] = []
    note = ""
    for number, line in enumerate(text.split("\n"), 1):
        words = re.sub(r"[\t,\r]", " ", line.split("#")[0]).split()
        if part is None:
            if words[:1] == ["thread"] and len(words) == 10:
                part = Part(words[1], words[8], int(words[9], 0))
                parts.append(part)
            continue
        while words and words[0].endswith(":"):
            labels.append(words.pop(0)[:-1])
        if words == ["end"]:
            part = None
        elif words and words[0] not in OTHERS:
            origin = ORIGIN.search(line)
            file, at = (origin[1], int(origin[2])) if origin else (name, number)
            part.code.append(Instruction(words, labels, file, at, note))
            labels, note = [], ""
        elif line.startswith("#"):
            note = line.rstrip()
    return parts


def assembled_line(words: list[str]) -> str:
    """An instruction of a text as the assembler has it."""
    if words[0] == "word":
        return f".insn 4, {int(words[1], 0):#x}"
    if words[0] == "fence":
        return ".insn 4, 0x0ff0000f"
    if words[0] in ("jal",) or words[0].startswith("b"):
        words = [*words[:-1], f".L{words[-1]}"]
    return f"{words[0]} {','.join(words[1:])}"


def source_of(part: Part, folder: Path) -> str:
    """What the assembler gets of a part."""
    files = list(dict.fromkeys(it.file for it in part.code))
    numbers = {name: number for number, name in enumerate(files, 1)}
    language = C99 if any(name.endswith((".c", ".h")) for name in files) else ASSEMBLER
    first = next((name for name in files if name.endswith(".c")), files[0])
    lines = [".option norelax", ".option norvc", *(f'.file {number} "{name}"' for name, number in numbers.items())]
    lines += [f'.section .text.{part.name},"ax",@progbits', ".Lbegin:"]
    for it in part.code:
        for label in it.labels:
            lines += [f".L{label}:"] + ([f".globl {part.name}", f".type {part.name},@function", f"{part.name}:"] if label == part.entry else [])
            lines += [f"{part.name}.{label}:"] if label != part.name else []
        lines += [f".loc {numbers[it.file]} {it.line}", assembled_line(it.words)]
    lines += [".Lend:", f".size {part.name}, .Lend-.Lbegin", ABBREVIATIONS]
    lines += ['.section .debug_info,"",@progbits', ".long .Linfo_end-.Linfo", ".Linfo:", ".short 4", ".long .Labbrev", ".byte 4"]
    lines += [".byte 1", '.asciz "microsys_tool"', f".short {language:#x}", f'.asciz "{first}"', f'.asciz "{folder.absolute()}"']
    lines += [".long .Lline", ".long .Lbegin", ".long .Lend-.Lbegin"]
    lines += [".byte 2", f'.asciz "{part.name}"', ".long .Lbegin", ".long .Lend-.Lbegin", ".byte 0", ".Linfo_end:"]
    lines += ['.section .debug_line,"",@progbits', ".Lline:"]
    return "\n".join(lines) + "\n"


def files_of(parts: list[Part], target: Path) -> dict[Path, list[Part]]:
    """Which parts are in which file: all in one, or each in one of its own where addresses of two overlap."""
    spans = sorted((part.base, part.end) for part in parts)
    if all(end <= begin for (_, end), (begin, _) in zip(spans, spans[1:])):
        return {target: parts}
    return {target.with_name(f"{target.stem}.{part.name}{target.suffix}"): [part] for part in parts}


def run(words: list[str]) -> None:
    """Runs a program of the assembler's family."""
    ran = subprocess.run(words, stdout=subprocess.PIPE, stderr=subprocess.STDOUT, text=True, check=False)
    if ran.returncode:
        raise Fault(words[0], ran.stdout.strip())


def write_symbols(text: str, name: str, folder: Path, target: Path, prefix: str) -> list[Path]:
    """Writes the files, and returns their names. Sources are named from the folder."""
    files = files_of(parts_of(text, name), target)
    for file, parts in files.items():
        with tempfile.TemporaryDirectory(prefix="microsys.") as room_name:
            room = Path(room_name)
            objects, places = [], []
            for part in parts:
                source, made = room / f"{part.name}.s", room / f"{part.name}.o"
                source.write_text(source_of(part, folder), "utf-8")
                run([f"{prefix}as", "-march=rv32i", "-mabi=ilp32", "-mno-relax", "-o", str(made), str(source)])
                objects.append(str(made))
                places.append(f".text.{part.name} {part.base:#x} : {{ *(.text.{part.name}) }}")
            script = room / "places.ld"
            script.write_text(f"ENTRY({parts[0].name})\nSECTIONS {{\n" + "\n".join([*places, DEBUGGING, ""]) + "}\n", "utf-8")
            run([f"{prefix}ld", "-m", "elf32lriscv", "--no-relax", "-T", str(script), "-o", str(file), *objects])
    return list(files)
